/* Folds a write-ahead log into its database, as little as a C program can do: it checks the log's checksums and salts,
   remembers the last committed frame of each page, copies these pages, sets the length, syncs, and empties the log. */
#define _FILE_OFFSET_BITS 64
#include <fcntl.h>
#include <stdint.h>
#include <stdio.h>
#include <stdlib.h>
#include <string.h>
#include <sys/stat.h>
#include <unistd.h>

#include "sum.h"

int main(int argc, char **argv) {
    if (argc != 3) return 2;
    int db = open(argv[1], O_RDWR), wal = open(argv[2], O_RDWR);
    if (db < 0 || wal < 0) return 3;
    if (fsync(wal)) return 3;
    uint8_t head[32];
    if (pread(wal, head, 32, 0) != 32) return 3;
    uint32_t page_size = big(head + 8), sum[2] = {0, 0};
    int is_big = big(head) == 0x377f0683;
    add(sum, head, 24, is_big);
    if (sum[0] != big(head + 24) || sum[1] != big(head + 28)) return 3;
    size_t frame = page_size + 24, batch = 262144 / frame ? 262144 / frame : 1, capacity = 1 << 16;
    uint8_t *bytes = malloc(batch * frame);
    uint32_t *pages = malloc(capacity * 4), count = 0, front = 0, size = 0;
    for (off_t at = 32;;) {
        ssize_t got = pread(wal, bytes, batch * frame, at);
        if (got < (ssize_t)frame) break;
        for (size_t i = 0; i + frame <= (size_t)got; i += frame) {
            const uint8_t *f = bytes + i;
            if (memcmp(f + 8, head + 16, 8) || !big(f)) goto scanned;
            add(sum, f, 8, is_big);
            add(sum, f + 24, page_size, is_big);
            if (sum[0] != big(f + 16) || sum[1] != big(f + 20)) goto scanned;
            if (count == capacity) pages = realloc(pages, (capacity *= 2) * 4);
            pages[count++] = big(f);
            if (big(f + 4)) front = count, size = big(f + 4);
        }
        at += (off_t)(got / frame * frame);
    }
scanned:;
    uint32_t *newest = calloc((size_t)size + 1, 4);
    for (uint32_t i = 0; i < front; i++)
        if (pages[i] <= size) newest[pages[i]] = i + 1;
    for (uint32_t p = 1; p <= size; p++)
        if (newest[p]) {
            if (pread(wal, bytes, page_size, 32 + (off_t)(newest[p] - 1) * frame + 24) != (ssize_t)page_size) return 3;
            if (pwrite(db, bytes, page_size, (off_t)(p - 1) * page_size) != (ssize_t)page_size) return 3;
        }
    if (front && ftruncate(db, (off_t)size * page_size)) return 3;
    memset(head, 0, 32);
    if (fsync(db) || pwrite(wal, head, 32, 0) != 32 || fsync(wal) || ftruncate(wal, 0) || fsync(wal)) return 3;
    printf("wal: front %u, %u pages\n", front, size);
    return 0;
}
