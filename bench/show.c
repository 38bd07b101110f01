/* Prints what a write-ahead log holds, as little as a C program can do: it checks the log's checksums and salts in
   pieces of 64 KiB, remembers each frame's page and size, and prints a line for each. */
#define _FILE_OFFSET_BITS 64
#include <fcntl.h>
#include <stdint.h>
#include <stdio.h>
#include <stdlib.h>
#include <string.h>
#include <unistd.h>

#include "sum.h"

#define PIECE 65536

struct entry {
    uint32_t page, size;
};

int main(int argc, char **argv) {
    if (argc != 2) return 2;
    int wal = open(argv[1], O_RDONLY);
    if (wal < 0) return 3;
    uint8_t head[32];
    if (pread(wal, head, 32, 0) != 32) return 3;
    uint32_t page_size = big(head + 8), sum[2] = {0, 0};
    int is_big = big(head) == 0x377f0683;
    add(sum, head, 24, is_big);
    if (sum[0] != big(head + 24) || sum[1] != big(head + 28)) return 3;
    size_t frame = page_size + 24, held = 0, capacity = 1 << 12;
    uint8_t *bytes = malloc(PIECE + frame);
    struct entry *entries = malloc(capacity * sizeof *entries);
    uint32_t count = 0, front = 0, size = 0;
    const char *why = NULL;
    for (off_t at = 32;;) {
        ssize_t got = pread(wal, bytes + held, PIECE, at);
        if (got <= 0) break;
        at += got;
        held += got;
        size_t from = 0;
        for (; !why && held - from >= frame; from += frame) {
            const uint8_t *f = bytes + from;
            if (memcmp(f + 8, head + 16, 8)) why = "Salt";
            else if (big(f) == 0) why = "PageZero";
            else {
                add(sum, f, 8, is_big);
                add(sum, f + 24, page_size, is_big);
                if (sum[0] != big(f + 16) || sum[1] != big(f + 20)) why = "Sum";
            }
            if (why) break;
            if (count == capacity) entries = realloc(entries, (capacity *= 2) * sizeof *entries);
            entries[count].page = big(f);
            entries[count++].size = big(f + 4);
            if (big(f + 4)) front = count, size = big(f + 4);
        }
        if (why) break;
        memmove(bytes, bytes + from, held -= from);
    }
    printf("wal pagesize %u sequence %u salts %08x %08x\n", page_size, big(head + 12), big(head + 16), big(head + 20));
    for (uint32_t i = 0; i < count; i++) printf("frame %u page %u size %u\n", i + 1, entries[i].page, entries[i].size);
    printf("front %u size %u stop %s at %u\n", front, size, why ? why : held ? "Cut" : "End", count + 1);
    return fflush(stdout) ? 3 : 0;
}
