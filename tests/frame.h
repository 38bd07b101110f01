/* frame.h: what the C programs of the tests share: counted checks, allocations that can be refused, and the bytes of
   files. Where WRAPPED is defined the linker wraps the calls that ask for memory (--wrap=malloc and so on). */
#ifndef FRAME_H
#define FRAME_H
#include "sqrescue.h"

#include <stdio.h>
#include <stdlib.h>
#include <string.h>

#ifdef WRAPPED
void *__real_malloc(size_t size);
void *__real_calloc(size_t count, size_t size);
void *__real_realloc(void *old, size_t size);
void __real_free(void *block);
#endif

/* Of allocations, counted while a call runs: how many there were, and the number of the one that is refused, 0 for
   none. `held` says how many were not given back. */
static size_t asked, refused;
static long held;
static int is_counting, passed, failed;

#ifdef WRAPPED
static inline int is_refused(void) {
    return is_counting && ++asked == refused;
}

static inline void *counted(void *block, int is_new) {
    if (is_counting && block && is_new) held++;
    return block;
}

void *__wrap_malloc(size_t size) {
    return is_refused() ? NULL : counted(__real_malloc(size), 1);
}

void *__wrap_calloc(size_t count, size_t size) {
    return is_refused() ? NULL : counted(__real_calloc(count, size), 1);
}

void *__wrap_realloc(void *old, size_t size) {
    return is_refused() ? NULL : counted(__real_realloc(old, size), !old);
}

void __wrap_free(void *block) {
    if (is_counting && block) held--;
    __real_free(block);
}
#endif

static inline void count_from(size_t number) { /* the allocation of this number is refused, from here on */
    refused = number, asked = 0, held = 0, is_counting = 1;
}

static const char *at_hand = "";

static inline void check(int is_right, const char *what) {
    passed += is_right;
    failed += !is_right;
    if (!is_right) printf("failed: %s: %s\n", at_hand, what);
}

/* Judges what a call answered whose allocation of this number was refused, 0 for none. Whether one was; else how many
   it asked for and its status are kept. */
static inline int was_refused(size_t number, uint32_t status, uint32_t *right, size_t *total) {
    is_counting = 0;
    check(held == 0, "all memory is given back");
    if (number) {
        check(status == SQR_NO_MEMORY, "an allocation that is refused is no memory");
        return 1;
    }
    *right = status, *total = asked;
    check(status != SQR_NO_MEMORY, "no allocation is refused");
    return 0;
}

static inline int summed(void) { /* the last line, and the exit status */
    printf("%d passed, %d failed\n", passed, failed);
    return failed != 0;
}

static inline void *room_for(size_t count, size_t size) {
    void *room = calloc(count + 1, size);
    if (!room) exit(2);
    return room;
}

static inline uint8_t *bytes_of(const char *path, const char *end, size_t *len) { /* none where there is no file */
    char name[8192];
    snprintf(name, sizeof name, "%s%s", path, end);
    FILE *file = fopen(name, "rb");
    *len = 0;
    if (!file) return room_for(1, 1);
    fseek(file, 0, SEEK_END);
    *len = (size_t)ftell(file);
    rewind(file);
    uint8_t *bytes = room_for(*len, 1);
    if (fread(bytes, 1, *len, file) != *len) exit(2);
    fclose(file);
    return bytes;
}

static inline void write_to(const char *path, const char *end, const uint8_t *bytes, size_t len) {
    char name[8192];
    snprintf(name, sizeof name, "%s%s", path, end);
    FILE *file = fopen(name, "wb");
    if (!file || fwrite(bytes, 1, len, file) != len || fclose(file)) exit(2);
}

static inline struct sqr_files files_of(const char *path) {
    struct sqr_files files;
    files.db = bytes_of(path, "", &files.db_len);
    files.wal = bytes_of(path, "-wal", &files.wal_len);
    files.journal = bytes_of(path, "-journal", &files.journal_len);
    return files;
}

static inline void give_back(const struct sqr_files *files) {
    free((void *)(uintptr_t)files->db);
    free((void *)(uintptr_t)files->wal);
    free((void *)(uintptr_t)files->journal);
}
#endif
