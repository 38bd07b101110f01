/* Checks a database file as `sqrescue check` does, as little as a C program can do: it reads each page of the freelist
   and the trees once, a page of a chain in part, and judges the header, the cells, their layout with a byte for each
   byte of a page, the keys, the levels, the chains, the rows of the schema, and that each page is named once. With a
   second argument it reads the whole file into memory first. */
#define _FILE_OFFSET_BITS 64
#include <fcntl.h>
#include <stdio.h>
#include <stdlib.h>
#include <string.h>
#include <sys/stat.h>
#include <unistd.h>

#include "sum.h"

#define DEEPEST 20

enum {
    MAGIC = 1, PAGE_SIZE, FRACTION, RESERVED, AUTO_VACUUM, KIND, CELL_OUTSIDE, OVERLAP, FREEBLOCK, FRAGMENTS, CHAIN_CUT,
    CHAIN_LONG, PAGE_TWICE, PAGE_OUTSIDE, PAGE_UNUSED, KEY_ORDER, DEPTH, FREE_COUNT, SCHEMA_RECORD = 21
};

struct cell {
    uint32_t at, end, body, local, overflow;
    int64_t rowid;
    uint64_t payload;
};

struct bound {
    int is_there;
    int64_t key;
};

struct tree {
    int is_table, is_schema;
    uint32_t leaf_level;
};

struct root {
    uint32_t holder;
    uint64_t page;
};

static int file;
static uint32_t page_size, usable, count, trees, btree, overflow, freed, row_pages, roots;
static uint8_t *taken, *map, *levels[DEEPEST + 1], *whole;
static off_t length;
static uint32_t *rows;
static struct root *found;
static struct cell *cells;

static void fault(uint32_t page, int number) {
    printf("page %u: fault %d\n", page, number);
    exit(1);
}

static uint32_t half(const uint8_t *b) {
    return (uint32_t)b[0] << 8 | b[1];
}

static void fetch(uint32_t page, uint8_t *out, size_t n) {
    off_t at = (off_t)(page - 1) * page_size;
    if (!whole) {
        if (pread(file, out, n, at) != (ssize_t)n) exit(3);
        return;
    }
    if (at + (off_t)n > length) exit(3);
    memcpy(out, whole + at, n);
}

static void read_whole(void) {
    whole = malloc(length);
    for (off_t at = 0; at < length;) {
        ssize_t got = pread(file, whole + at, length - at, at);
        if (got <= 0) exit(3);
        at += got;
    }
}

static void take(uint32_t holder, uint32_t page) {
    if (page == 0 || page > count) fault(holder, PAGE_OUTSIDE);
    if (taken[page - 1]) fault(page, PAGE_TWICE);
    taken[page - 1] = 1;
}

/* The number of bytes of the varint at `at`, 0 where it doesn't end before `end`. */
static uint32_t varint(const uint8_t *b, uint32_t at, uint32_t end, uint64_t *number) {
    uint64_t n = 0;
    for (uint32_t i = 0; i < 9 && at + i < end; i++) {
        uint8_t byte = b[at + i];
        if (i == 8) {
            *number = n << 8 | byte;
            return 9;
        }
        n = n << 7 | (byte & 127);
        if (byte < 128) {
            *number = n;
            return i + 1;
        }
    }
    return 0;
}

static uint32_t local_size(int kind, uint64_t payload) {
    uint32_t most = kind == 13 ? usable - 35 : (usable - 12) * 64 / 255 - 23, least = (usable - 12) * 32 / 255 - 23;
    if (payload <= most) return payload;
    uint32_t even = least + (payload - least) % (usable - 4);
    return even <= most ? even : least;
}

/* Reads a cell; 0 where it doesn't end within the page. */
static int cell_at(const uint8_t *b, int kind, uint32_t at, struct cell *c) {
    uint32_t to = at + (kind < 10 ? 4 : 0), n;
    uint64_t number;
    c->at = at;
    c->payload = c->overflow = 0;
    if (to > usable) return 0;
    if (kind != 5) {
        if (!(n = varint(b, to, usable, &c->payload))) return 0;
        to += n;
    }
    if (kind == 5 || kind == 13) {
        if (!(n = varint(b, to, usable, &number))) return 0;
        c->rowid = (int64_t)number;
        to += n;
    }
    c->body = to;
    c->local = local_size(kind, c->payload);
    to += c->local;
    if (c->local < c->payload) {
        if (to + 4 > usable) return 0;
        c->overflow = big(b + to);
        to += 4;
    }
    c->end = to;
    return to <= usable;
}

/* Marks some bytes; 0 where one is marked. */
static int mark(uint32_t at, uint32_t size) {
    if (memchr(map + at, 1, size)) return 0;
    memset(map + at, 1, size);
    return 1;
}

static void judge_layout(uint32_t page, const uint8_t *b, const uint8_t *head, uint32_t n, uint32_t start,
                         uint32_t pointers_end) {
    memset(map, 0, usable + 4);
    int apart = 1;
    for (uint32_t at = half(head + 1), least = start; at; least = at + 1, at = half(b + at)) {
        if (at < least || at + 4 > usable) fault(page, FREEBLOCK);
        uint32_t size = half(b + at + 2);
        if (size < 4 || at + size > usable) fault(page, FREEBLOCK);
        apart &= mark(at, size);
    }
    if (!apart || pointers_end > start) fault(page, OVERLAP);
    for (uint32_t i = 0; i < n; i++) {
        uint32_t size = cells[i].end - cells[i].at;
        if (!mark(cells[i].at, size < 4 ? 4 : size)) fault(page, OVERLAP);
    }
    uint32_t bare = 0;
    for (uint32_t i = start; i < usable; i++) bare += !map[i];
    if (bare != head[7] || bare > 60) fault(page, FRAGMENTS);
}

static void follow_chain(uint32_t holder, uint64_t needed, uint32_t page) {
    uint8_t next[4];
    if (needed > count) fault(holder, CHAIN_CUT);
    while (needed--) {
        if (!page) fault(holder, CHAIN_CUT);
        take(holder, page);
        overflow++;
        fetch(page, next, 4);
        holder = page;
        page = big(next);
    }
    if (page) fault(holder, CHAIN_LONG);
}

static int is_before(struct bound low, struct bound key) {
    return !low.is_there || !key.is_there || low.key < key.key;
}

static void follow_node(struct tree *tree, uint32_t holder, uint32_t page, uint32_t level, struct bound low,
                        struct bound high) {
    take(holder, page);
    btree++;
    trees += level == 1;
    if (level > DEEPEST) fault(page, DEPTH);
    if (!levels[level]) levels[level] = malloc(page_size);
    uint8_t *b = levels[level], *head = b + (page == 1 ? 100 : 0);
    fetch(page, b, page_size);
    int kind = head[0], is_table = kind == 13 || kind == 5, is_interior = kind == 5 || kind == 2;
    if ((!is_table && kind != 10 && kind != 2) || is_table != tree->is_table) fault(page, KIND);
    if (!is_interior) {
        if (tree->leaf_level && tree->leaf_level != level) fault(page, DEPTH);
        tree->leaf_level = level;
        if (tree->is_schema) rows[row_pages++] = page;
    }
    uint8_t *pointers = head + (is_interior ? 12 : 8);
    uint32_t n = half(head + 3), start = half(head + 5), pointers_end = pointers - b + 2 * n;
    if (start == 0) start = 65536;
    if (pointers_end > usable || start > usable) fault(page, CELL_OUTSIDE);
    for (uint32_t i = 0; i < n; i++) {
        uint32_t at = half(pointers + 2 * i);
        if (at < start || !cell_at(b, kind, at, cells + i)) fault(page, CELL_OUTSIDE);
    }
    judge_layout(page, b, head, n, start, pointers_end);
    if (is_table) {
        struct bound before = low;
        for (uint32_t i = 0; i < n; i++) {
            struct bound key = {1, cells[i].rowid};
            if (!is_before(before, key) || (high.is_there && key.key > high.key)) fault(page, KEY_ORDER);
            before = key;
        }
    }
    for (uint32_t i = 0; i < n; i++) {
        uint64_t beyond = cells[i].payload - cells[i].local;
        if (kind != 5 && beyond) follow_chain(page, (beyond + usable - 5) / (usable - 4), cells[i].overflow);
    }
    if (!is_interior) return;
    for (uint32_t i = 0; i <= n; i++) {
        uint32_t at = i < n ? half(pointers + 2 * i) : 0;
        uint64_t number = 0;
        struct bound key = high;
        if (i < n) {
            key.is_there = is_table;
            if (is_table) varint(b, at + 4, usable, &number);
            key.key = (int64_t)number;
        }
        follow_node(tree, page, big(i < n ? b + at : head + 8), level + 1, low, key);
        low = key;
    }
}

static void follow_freelist(uint32_t trunk, uint8_t *b) {
    for (uint32_t holder = 1; trunk; holder = trunk, trunk = big(b)) {
        take(holder, trunk);
        fetch(trunk, b, page_size);
        uint32_t n = big(b + 4);
        if (n > usable / 4 - 2) fault(trunk, FREE_COUNT);
        for (uint32_t i = 0; i < n; i++) take(trunk, big(b + 8 + 4 * i));
        freed += 1 + n;
    }
}

/* The root that a row of the schema names, 0 where it names none. */
static uint64_t root_in(uint32_t page, const uint8_t *row, uint64_t size) {
    static const uint8_t sizes[] = {0, 1, 2, 3, 4, 6, 8, 8, 0, 0};
    uint64_t head, type, body, root = 0;
    uint32_t at = varint(row, 0, size, &head), columns = 0, n;
    if (!at || head < at || head > size) fault(page, SCHEMA_RECORD);
    for (body = head; at < head; at += n, columns++) {
        if (!(n = varint(row, at, head, &type)) || type == 10 || type == 11) fault(page, SCHEMA_RECORD);
        uint64_t width = type < 10 ? sizes[type] : (type - 12) / 2;
        if (width > size - body) fault(page, SCHEMA_RECORD);
        if (columns == 3) {
            if (type > 9 || type == 7) fault(page, SCHEMA_RECORD);
            if (width && row[body] > 127) fault(page, SCHEMA_RECORD);
            for (uint64_t i = 0; i < width; i++) root = root << 8 | row[body + i];
            if (type == 9) root = 1;
        }
        body += width;
    }
    if (body != size || columns < 5) fault(page, SCHEMA_RECORD);
    return root;
}

/* The roots that the rows of a leaf of the schema name. */
static void read_rows(uint32_t page, uint8_t *b, uint8_t *link) {
    fetch(page, b, page_size);
    uint8_t *head = b + (page == 1 ? 100 : 0);
    for (uint32_t i = 0, n = half(head + 3); i < n; i++) {
        struct cell c;
        cell_at(b, 13, half(head + 8 + 2 * i), &c);
        uint8_t *row = malloc(c.payload + 1);
        memcpy(row, b + c.body, c.local);
        for (uint64_t got = c.local, next = c.overflow; got < c.payload; next = big(link)) {
            fetch(next, link, page_size);
            uint64_t more = c.payload - got < usable - 4 ? c.payload - got : usable - 4;
            memcpy(row + got, link + 4, more);
            got += more;
        }
        uint64_t root = root_in(page, row, c.payload);
        free(row);
        if (!root) continue;
        if ((roots & (roots - 1)) == 0) found = realloc(found, (roots ? 2 * roots : 1) * sizeof *found);
        found[roots].holder = page;
        found[roots++].page = root;
    }
}

static void judge_header(const uint8_t *head) {
    page_size = half(head + 16) == 1 ? 65536 : half(head + 16);
    if (memcmp(head, "SQLite format 3", 16)) fault(1, MAGIC);
    if (page_size < 512 || (page_size & (page_size - 1))) fault(1, PAGE_SIZE);
    if (head[21] != 64 || head[22] != 32 || head[23] != 32) fault(1, FRACTION);
    if (page_size - head[20] < 480) fault(1, RESERVED);
    if (big(head + 52)) fault(1, AUTO_VACUUM);
    usable = page_size - head[20];
}

int main(int argc, char **argv) {
    uint8_t head[100];
    struct stat status;
    struct bound none = {0, 0};
    if (argc < 2 || (file = open(argv[1], O_RDONLY)) < 0 || fstat(file, &status)) return 3;
    length = status.st_size;
    if (argc > 2) read_whole();
    if (pread(file, head, 100, 0) != 100) return 3;
    judge_header(head);
    count = big(head + 28) && big(head + 24) == big(head + 92) ? big(head + 28) : (length + page_size - 1) / page_size;
    taken = calloc(count, 1);
    uint32_t lock = (1u << 30) / page_size;
    if (lock < count) taken[lock] = 1; /* the lock-byte page: nothing may name it */
    map = malloc(usable + 4);
    cells = malloc((page_size / 2) * sizeof *cells);
    rows = malloc(count * sizeof *rows);
    uint8_t *b = malloc(page_size), *link = malloc(page_size);
    follow_freelist(big(head + 32), b);
    if (freed != big(head + 36)) fault(1, FREE_COUNT);
    struct tree schema = {1, 1, 0};
    follow_node(&schema, 1, 1, 1, none, none);
    for (uint32_t i = 0; i < row_pages; i++) read_rows(rows[i], b, link);
    for (uint32_t i = 0; i < roots; i++) {
        if (found[i].page > count) fault(found[i].holder, PAGE_OUTSIDE);
        uint8_t type[101];
        fetch(found[i].page, type, 101);
        int kind = type[found[i].page == 1 ? 100 : 0];
        struct tree tree = {kind == 13 || kind == 5, 0, 0};
        follow_node(&tree, found[i].holder, found[i].page, 1, none, none);
    }
    for (uint32_t i = 0; i < count; i++)
        if (!taken[i]) fault(i + 1, PAGE_UNUSED);
    printf("clean: %u pages, %u trees, %u b-tree, %u overflow, %u free\n", count, trees, btree, overflow, freed);
    return fflush(stdout) ? 3 : 0;
}
