/* Rolls a database back by a hot rollback journal, as little as a C program can do: it reads the journal once, checks
   its headers and the sums of its records, writes their pages in order, sets the length, syncs, and zeroes the
   journal's header. */
#define _FILE_OFFSET_BITS 64
#include <fcntl.h>
#include <stdint.h>
#include <stdio.h>
#include <stdlib.h>
#include <string.h>
#include <unistd.h>

#include "sum.h"

static const uint8_t magic[8] = {0xd9, 0xd5, 0x05, 0xf9, 0x20, 0xa1, 0x63, 0xd7};

/* The nonce and every 200th byte of a page, counted from its end. */
static uint32_t page_sum(uint32_t nonce, const uint8_t *page, size_t size) {
    for (size_t at = size; at > 200;) nonce += page[at -= 200];
    return nonce;
}

int main(int argc, char **argv) {
    if (argc != 3) return 2;
    int db = open(argv[1], O_RDWR), journal = open(argv[2], O_RDWR);
    if (db < 0 || journal < 0) return 3;
    if (fsync(journal)) return 3;
    uint8_t head[28];
    if (pread(journal, head, 28, 0) != 28 || memcmp(head, magic, 8)) return 3;
    uint32_t first_size = big(head + 16), sector = big(head + 20), page_size = big(head + 24), records = 0;
    size_t record = page_size + 8, batch = 262144 / record ? 262144 / record : 1;
    uint8_t *bytes = malloc(batch * record);
    for (off_t at = 0; pread(journal, head, 28, at) == 28 && !memcmp(head, magic, 8);) {
        uint32_t left = big(head + 8), nonce = big(head + 12);
        at += sector;
        while (left) {
            ssize_t got = pread(journal, bytes, (left < batch ? left : batch) * record, at);
            if (got < (ssize_t)record) goto replayed;
            for (size_t i = 0; i + record <= (size_t)got; i += record) {
                uint8_t *page = bytes + i + 4;
                uint32_t number = big(bytes + i);
                if (!number || page_sum(nonce, page, page_size) != big(page + page_size)) goto replayed;
                if (number <= first_size &&
                    pwrite(db, page, page_size, (off_t)(number - 1) * page_size) != (ssize_t)page_size)
                    return 3;
                records++;
                if (left != UINT32_MAX) left--;
            }
            at += (off_t)(got / record * record);
        }
        at = (at + sector - 1) / sector * sector;
    }
replayed:
    memset(head, 0, 28);
    if (ftruncate(db, (off_t)first_size * page_size) || fsync(db)) return 3;
    if (pwrite(journal, head, 28, 0) != 28 || fsync(journal)) return 3;
    printf("journal: %u records, %u pages\n", records, first_size);
    return 0;
}
