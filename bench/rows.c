/* Prints the rows of a table as `sqrescue rows --csv --table` does, as little as a C program can do: it reads each page
   of the table's tree and its chains once, in order. Reals aren't printed. */
#define _FILE_OFFSET_BITS 64
#include <fcntl.h>
#include <inttypes.h>
#include <stdio.h>
#include <stdlib.h>
#include <string.h>
#include <unistd.h>

#include "sum.h"

#define DEEPEST 20
#define KEPT (1 << 16)

static int file;
static uint32_t page_size, usable;
static uint8_t *levels[DEEPEST], *payload, *out;
static size_t room, filled;

static void fail(const char *why) {
    fprintf(stderr, "rows: %s\n", why);
    exit(1);
}

static void flush(void) {
    for (size_t at = 0; at < filled;) {
        ssize_t n = write(1, out + at, filled - at);
        if (n <= 0)
            fail("write");
        at += (size_t)n;
    }
    filled = 0;
}

static inline void put(uint8_t byte) {
    if (filled == KEPT)
        flush();
    out[filled++] = byte;
}

static void put_all(const char *text) {
    while (*text)
        put((uint8_t)*text++);
}

static uint32_t half(const uint8_t *b) {
    return (uint32_t)b[0] << 8 | b[1];
}

static void fetch(uint32_t page, uint8_t *to) {
    if (pread(file, to, page_size, (off_t)(page - 1) * page_size) != (ssize_t)page_size)
        fail("read");
}

static size_t varint(const uint8_t *b, uint64_t *value) {
    uint64_t v = 0;
    for (size_t i = 0; i < 8; i++) {
        v = v << 7 | (b[i] & 127);
        if (b[i] < 128) {
            *value = v;
            return i + 1;
        }
    }
    *value = v << 8 | b[8];
    return 9;
}

static int64_t integer(const uint8_t *b, size_t n) {
    int64_t v = (int8_t)b[0];
    for (size_t i = 1; i < n; i++)
        v = (int64_t)((uint64_t)v << 8 | b[i]);
    return v;
}

static void put_integer(int64_t value) {
    char text[24];
    snprintf(text, sizeof text, "%" PRId64, value);
    put_all(text);
}

static void put_text(const uint8_t *b, size_t n) {
    put('"');
    for (size_t i = 0; i < n; i++) {
        if (b[i] == '"')
            put('"');
        put(b[i]);
    }
    put('"');
}

static void put_blob(const uint8_t *b, size_t n) {
    static const char digits[] = "0123456789abcdef";
    put_all("X'");
    for (size_t i = 0; i < n; i++) {
        put((uint8_t)digits[b[i] >> 4]);
        put((uint8_t)digits[b[i] & 15]);
    }
    put('\'');
}

/* The payload of a cell, whose chain is read to the end. */
static const uint8_t *whole(const uint8_t *at, uint64_t size, uint32_t least, uint32_t most) {
    static uint8_t page[65536];
    if (size <= most)
        return at;
    if (room < size && !(payload = realloc(payload, room = size * 2)))
        fail("memory");
    uint64_t local = least + (size - least) % (usable - 4), done;
    if (local > most)
        local = least;
    memcpy(payload, at, local);
    uint32_t next = big(at + local);
    for (done = local; done < size; next = big(page)) {
        uint64_t n = size - done < usable - 4 ? size - done : usable - 4;
        fetch(next, page);
        memcpy(payload + done, page + 4, n);
        done += n;
    }
    return payload;
}

struct value {
    uint64_t type;
    const uint8_t *body;
    size_t size;
};

static size_t values_of(const uint8_t *record, struct value *values, size_t most) {
    static const size_t sizes[] = {0, 1, 2, 3, 4, 6, 8, 8, 0, 0};
    uint64_t header;
    size_t at = varint(record, &header), count = 0;
    const uint8_t *body = record + header;
    while (at < header && count < most) {
        struct value *v = &values[count++];
        at += varint(record + at, &v->type);
        v->body = body;
        v->size = v->type < 10 ? sizes[v->type] : (v->type - 12) / 2;
        body += v->size;
    }
    return count;
}

static void put_value(const struct value *v) {
    if (v->type >= 12)
        (v->type & 1 ? put_text : put_blob)(v->body, v->size);
    else if (v->type == 8 || v->type == 9)
        put((uint8_t)('0' + v->type - 8));
    else if (v->type)
        put_integer(integer(v->body, v->size));
}

typedef void row_of(int64_t rowid, const uint8_t *record);

static void walk(uint32_t page, int depth, row_of *row) {
    if (depth == DEEPEST || (!levels[depth] && !(levels[depth] = malloc(page_size))))
        fail("depth");
    uint8_t *b = levels[depth];
    fetch(page, b);
    const uint8_t *head = page == 1 ? b + 100 : b;
    uint32_t count = half(head + 3);
    uint64_t size, rowid;
    if (head[0] == 5) {
        for (uint32_t i = 0; i < count; i++)
            walk(big(b + half(head + 12 + 2 * i)), depth + 1, row);
        walk(big(head + 8), depth + 1, row);
        return;
    }
    if (head[0] != 13)
        fail("kind");
    uint32_t most = usable - 35, least = (usable - 12) * 32 / 255 - 23;
    for (uint32_t i = 0; i < count; i++) {
        const uint8_t *cell = b + half(head + 8 + 2 * i);
        cell += varint(cell, &size);
        cell += varint(cell, &rowid);
        row((int64_t)rowid, whole(cell, size, least, most));
    }
}

static const char *wanted;
static uint32_t root;

static void find(int64_t rowid, const uint8_t *record) {
    struct value values[5];
    (void)rowid;
    if (values_of(record, values, 5) == 5 && values[1].size == strlen(wanted)
        && !memcmp(values[1].body, wanted, values[1].size))
        root = (uint32_t)integer(values[3].body, values[3].size);
}

/* Its first column is another name for the rowid, which is stored as NULL. */
static void print(int64_t rowid, const uint8_t *record) {
    static struct value values[2000];
    size_t count = values_of(record, values, 2000);
    put_integer(rowid);
    for (size_t i = 1; i < count; i++) {
        put(',');
        put_value(&values[i]);
    }
    put('\n');
}

int main(int argc, char **argv) {
    uint8_t head[100];
    if (argc != 4 || (file = open(argv[1], O_RDONLY)) < 0 || pread(file, head, 100, 0) != 100)
        fail("usage: rows FILE TABLE HEADING");
    page_size = half(head + 16) == 1 ? 65536 : half(head + 16);
    usable = page_size - head[20];
    wanted = argv[2];
    if (!(out = malloc(KEPT)))
        fail("memory");
    walk(1, 0, find);
    put_all(argv[3]);
    put('\n');
    walk(root, 0, print);
    flush();
    return 0;
}
