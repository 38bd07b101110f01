/* Calls of the C library to be timed, and the least that a C program does in their place.

   library scan FILE      sqr_wal_scan of FILE-wal
   library page FILE N    sqr_page of each page of the view of FILE and FILE-wal, N times over
   library copy FILE N    the same pages by a look into the places and a copy
   library path FILE N    sqr_page of as many pages, one behind the other in no order, of the view that sqr_open_path
                          opens
   library pread FILE N   as many pieces of FILE-wal by pread
   library bytes FILE N   where the bytes of as many pages are, by sqr_page_bytes, of which one is read
   library look FILE N    the same by a look into the places
   library open FILE N D  opens and closes FILE by its path N times, in a process of D descriptors, and prints how many
                          microseconds that took: the least, and those of the middle
   library whole FILE N D the same of sqr_recover, which leaves nothing open
   library recover FILE   sqr_recover
   library to FILE OUT    sqr_recover_to */
#define _DEFAULT_SOURCE
#include "sqrescue.h"

#include <fcntl.h>
#include <stdio.h>
#include <stdlib.h>
#include <string.h>
#include <sys/mman.h>
#include <sys/resource.h>
#include <sys/stat.h>
#include <time.h>
#include <unistd.h>

static const uint8_t *mapped(const char *path, const char *end, size_t *len) {
    char name[4096];
    struct stat status;
    snprintf(name, sizeof name, "%s%s", path, end);
    int file = open(name, O_RDONLY);
    if (file < 0 || fstat(file, &status)) exit(3);
    *len = (size_t)status.st_size;
    void *bytes = mmap(NULL, *len, PROT_READ, MAP_PRIVATE, file, 0);
    if (bytes == MAP_FAILED) exit(3);
    close(file);
    return bytes;
}

static int scan(const uint8_t *wal, size_t len) {
    struct sqr_wal found = {0, 0, 0, 0, 0, 0};
    size_t room = len / (24 + 512) + 1;
    struct sqr_frame *frames = malloc(room * sizeof *frames);
    if (!frames || sqr_wal_scan(wal, len, frames, room, &found)) return 3;
    printf("%u frames, front %u, frame 1 page %u\n", found.frames, found.front, frames[0].page);
    return 0;
}

static void copy(const struct sqr_view *view, uint32_t page, uint8_t *out) {
    size_t size = view->page_size, at = view->places[page - 1];
    const uint8_t *bytes = at ? view->log : view->db;
    if (!at) at = (page - 1) * size;
    memcpy(out, bytes + at, size);
}

static int read_pages(const struct sqr_view *view, int rounds, int is_plain) {
    uint8_t *out = malloc(view->page_size);
    uint64_t sum = 0;
    if (!out) return 3;
    for (int i = 0; i < rounds; i++) {
        for (uint32_t page = 1; page <= view->pages; page++) {
            if (is_plain) copy(view, page, out);
            else if (sqr_page(view, page, out, view->page_size)) return 3;
            sum = sum * 31 + out[page % view->page_size];
        }
    }
    printf("%u pages, %d times, %llx\n", view->pages, rounds, (unsigned long long)sum);
    return 0;
}

static const uint8_t *look(const struct sqr_view *view, uint32_t page) {
    size_t at = view->places[page - 1];
    return at ? view->log + at : view->db + (size_t)(page - 1) * view->page_size;
}

static int look_at_pages(const struct sqr_view *view, int rounds, int is_plain) {
    uint64_t sum = 0;
    for (int i = 0; i < rounds; i++) {
        for (uint32_t page = 1; page <= view->pages; page++) {
            const uint8_t *bytes = is_plain ? look(view, page) : sqr_page_bytes(view, page);
            if (!bytes) return 3;
            sum = sum * 31 + bytes[0];
        }
    }
    printf("%u pages, %d times, %llx\n", view->pages, rounds, (unsigned long long)sum);
    return 0;
}

static int recover(const char *file, const char *to) {
    struct sqr_recovered found = {0, 0, 0};
    uint32_t status = to ? sqr_recover_to(file, to, 0, NULL, &found) : sqr_recover(file, 0, NULL, &found);
    printf("%s, %u pages\n", sqr_status_name(status), found.pages);
    return status ? 3 : 0;
}

static int read_by_path(const char *file, int rounds, int is_plain) {
    struct sqr_path *path = NULL;
    char name[4096];
    struct stat status;
    snprintf(name, sizeof name, "%s-wal", file);
    int log = open(name, O_RDONLY);
    if (log < 0 || fstat(log, &status) || sqr_open_path(file, 0, NULL, &path)) return 3;
    const struct sqr_view *view = sqr_path_view(path);
    const size_t size = view->page_size, pieces = (size_t)status.st_size / size;
    uint8_t *out = malloc(size);
    uint64_t sum = 0;
    if (!out || !pieces) return 3;
    for (int i = 0; i < rounds; i++) {
        for (uint32_t page = 1; page <= view->pages; page++) {
            uint32_t other = page * 2654435761u;
            if (is_plain) {
                if (pread(log, out, size, (off_t)(other % pieces * size)) < 0) return 3;
            } else if (sqr_page(view, 1 + other % view->pages, out, size)) return 3;
            sum = sum * 31 + out[page % size];
        }
    }
    printf("%u pages, %d times, %llx\n", view->pages, rounds, (unsigned long long)sum);
    sqr_close_path(&path);
    return 0;
}

static int compare_times(const void *a, const void *b) {
    const double left = *(const double *)a, right = *(const double *)b;
    return (left > right) - (left < right);
}

static int one_call(const char *file, int is_whole) {
    struct sqr_path *path = NULL;
    if (is_whole) return sqr_recover(file, 0, NULL, NULL) != SQR_OK;
    const uint32_t status = sqr_open_path(file, 0, NULL, &path);
    sqr_close_path(&path);
    return status != SQR_OK;
}

static int time_calls(const char *file, int rounds, int descriptors, int is_whole) {
    const struct rlimit many = {(rlim_t)descriptors + 100, (rlim_t)descriptors + 100};
    struct timespec begun, over;
    double *times = calloc((size_t)rounds + 1, sizeof *times);
    if (!times || rounds < 1 || (descriptors > 1000 && setrlimit(RLIMIT_NOFILE, &many))) return 3;
    for (int fd = 0; fd < descriptors - 1;)
        if ((fd = open("/dev/null", O_RDONLY)) < 0) return 3;
    for (int i = 0; i < rounds; i++) {
        clock_gettime(CLOCK_MONOTONIC, &begun);
        if (one_call(file, is_whole)) return 3;
        clock_gettime(CLOCK_MONOTONIC, &over);
        times[i] = (double)(over.tv_sec - begun.tv_sec) * 1e6 + (double)(over.tv_nsec - begun.tv_nsec) / 1e3;
    }
    qsort(times, (size_t)rounds, sizeof *times, compare_times);
    printf("%.0f %.0f\n", times[0], times[rounds / 2]);
    free(times);
    return 0;
}

int main(int argc, char **argv) {
    size_t db_len, wal_len;
    if (argc < 3) return 2;
    if (!strcmp(argv[1], "recover")) return recover(argv[2], NULL);
    if (!strcmp(argv[1], "to") && argc > 3) return recover(argv[2], argv[3]);
    if (argc > 3 && (!strcmp(argv[1], "path") || !strcmp(argv[1], "pread")))
        return read_by_path(argv[2], atoi(argv[3]), !strcmp(argv[1], "pread"));
    if (argc > 4 && (!strcmp(argv[1], "open") || !strcmp(argv[1], "whole")))
        return time_calls(argv[2], atoi(argv[3]), atoi(argv[4]), !strcmp(argv[1], "whole"));
    const uint8_t *db = mapped(argv[2], "", &db_len), *wal = mapped(argv[2], "-wal", &wal_len);
    if (!strcmp(argv[1], "scan")) return scan(wal, wal_len);
    struct sqr_files files = SQR_FILES(db, db_len, wal, wal_len, NULL, 0);
    uint32_t page_size = 0, pages = 0;
    if (argc < 4 || sqr_size(&files, &page_size, &pages)) return 3;
    uint64_t *places = calloc((size_t)pages + 1, sizeof *places);
    struct sqr_view view = SQR_VIEW_INIT;
    if (!places || sqr_open(&files, places, pages, &view) || view.places_len != pages) return 3;
    if (!strcmp(argv[1], "bytes") || !strcmp(argv[1], "look"))
        return look_at_pages(&view, atoi(argv[3]), !strcmp(argv[1], "look"));
    return read_pages(&view, atoi(argv[3]), !strcmp(argv[1], "copy"));
}
