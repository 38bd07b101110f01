/* Loaded into a program, writes the calls that it makes of its files to the file that CALLS names, a line each. To
   the call whose number CALL names, from 1, or to each where CALL is 0, it does what MANNER says: `fail` refuses it;
   `half` carries out half of a read or write, and says so; `torn` carries out half of a write, and refuses it; `kill`
   ends the program in its place, and `torn kill` after half of a write; `interrupt` refuses it as for a signal, and
   where CALL is 0 each other call; `taken` and `no links` are of a link. In the place of /proc/locks the file that FREE
   names is opened, and from the opening on whose number FROM names, from 1, the one that HELD names. */
typedef unsigned long size_t;
typedef long ssize_t;
typedef long off_t;

enum { NOT_PERMITTED = 1, INTERRUPTED = 4, IO_FAILED = 5, KILL = 9 };
enum { WRITE_ON = 01 | 0100 | 02000, LONGEST = 4096, PAGE = 512, SET_LOCK = 37 };

/* Of x86-64. */
enum { FSTAT = 5, PREAD = 17, PWRITE = 18, FCNTL = 72, FSYNC = 74, FTRUNCATE = 77, OPENAT = 257, SYNCFS = 306 };

enum { HALVES = 1, REFUSES = 2, ENDS = 4, STOPS = 8 };

char *getenv(const char *);
unsigned long strtoul(const char *, char **, int);
int strcmp(const char *, const char *);
int strncmp(const char *, const char *, size_t);
char *strstr(const char *, const char *);
char *strrchr(const char *, int);
int snprintf(char *, size_t, const char *, ...);
int vdprintf(int, const char *, __builtin_va_list);
int close(int);
ssize_t readlink(const char *, char *, size_t);
int *__errno_location(void);
int raise(int);
void *dlsym(void *, const char *);

#define NEXT(kind, name) ((kind)dlsym((void *)-1L, name))

typedef long (*asks)(long, long, long, long, long, long, long);
typedef int (*opens)(const char *, int, unsigned);
typedef int (*looks)(int, const char *, int, unsigned, void *);
typedef int (*looks_at)(const char *, void *);
typedef int (*looks_into)(int, void *);
typedef int (*locks)(int, int, void *);
typedef void *(*maps)(void *, size_t, int, int, int, off_t);
typedef ssize_t (*reads)(int, void *, size_t);
typedef ssize_t (*reads_at)(int, void *, size_t, off_t);
typedef ssize_t (*writes_at)(int, const void *, size_t, off_t);
typedef ssize_t (*writes)(int, const void *, size_t);
typedef int (*cuts)(int, off_t);
typedef int (*names)(const char *);
typedef int (*pairs)(const char *, const char *);
typedef int (*links)(int, const char *, int, const char *, int);

static const char *told;
static unsigned long made, chosen, openings, held_from;
static int was_interrupted;
static const char *manner;

static unsigned long number(const char *name) {
    const char *text = getenv(name);
    return text ? strtoul(text, (void *)0, 10) : 0;
}

__attribute__((constructor)) static void begin(void) {
    told = getenv("CALLS");
    manner = getenv("MANNER");
    if (!manner) manner = "";
    chosen = number("CALL");
    held_from = number("FROM");
}

/* Opens the file for each line, since a task of the C library has a separate table of descriptors. */
static void tell(const char *how, ...) {
    int file = told ? NEXT(opens, "open")(told, WRITE_ON, 0600) : -1;
    __builtin_va_list all;
    if (file < 0) return;
    __builtin_va_start(all, how);
    vdprintf(file, how, all);
    __builtin_va_end(all);
    close(file);
}

/* The name of an open file, without its folder. */
static const char *name_of(int file, char *found) {
    char link[32], *slash;
    ssize_t length;
    snprintf(link, sizeof link, "/proc/thread-self/fd/%d", file);
    length = readlink(link, found, LONGEST - 1);
    found[length < 0 ? 0 : length] = 0;
    slash = strrchr(found, '/');
    return slash ? slash + 1 : found;
}

static const char *last_of(const char *path) {
    const char *slash = strrchr(path, '/');
    return slash ? slash + 1 : path;
}

/* What is done to the next call. */
static int fate(void) {
    made++;
    if (chosen && made != chosen) return 0;
    if (!strcmp(manner, "fail")) return REFUSES;
    if (!strcmp(manner, "half")) return HALVES;
    if (!strcmp(manner, "torn")) return HALVES | REFUSES;
    if (!strcmp(manner, "kill")) return ENDS;
    if (!strcmp(manner, "torn kill")) return HALVES | ENDS;
    if (strcmp(manner, "interrupt")) return 0;
    was_interrupted = !was_interrupted;
    return was_interrupted ? STOPS : 0;
}

/* Whether a call is refused or the program ended, before it is made. */
static int is_over(int fate) {
    if (fate & ENDS) raise(KILL);
    if (fate & (REFUSES | STOPS)) *__errno_location() = fate & STOPS ? INTERRUPTED : IO_FAILED;
    return fate & (REFUSES | STOPS);
}

static size_t part_of(size_t n, int fate) { return fate & HALVES && n > 1 ? n / 2 : n; }

/* The file that is opened by this path. */
static const char *place_of(const char *path) {
    const char *list;
    if (strcmp(path, "/proc/locks")) return path;
    list = getenv(held_from && openings >= held_from ? "HELD" : "FREE");
    return list ? list : path;
}

/* One that is refused is an opening, too, but not one that is interrupted. */
int open(const char *path, int how, unsigned mode) {
    int does = fate();
    tell("open %s\n", last_of(path));
    if (!strcmp(path, "/proc/locks") && !(does & STOPS)) openings++;
    return is_over(does) ? -1 : NEXT(opens, "open")(place_of(path), how, mode);
}

int statx(int file, const char *path, int how, unsigned mask, void *out) {
    char found[LONGEST];
    tell("look %s\n", *path ? last_of(path) : name_of(file, found));
    return is_over(fate()) ? -1 : NEXT(looks, "statx")(file, path, how, mask, out);
}

/* The same by the names that C has for them. */
int stat(const char *path, void *out) {
    tell("look %s\n", last_of(path));
    return is_over(fate()) ? -1 : NEXT(looks_at, "stat")(path, out);
}

int lstat(const char *path, void *out) {
    tell("look %s\n", last_of(path));
    return is_over(fate()) ? -1 : NEXT(looks_at, "lstat")(path, out);
}

int fstat(int file, void *out) {
    char found[LONGEST];
    tell("look %s\n", name_of(file, found));
    return is_over(fate()) ? -1 : NEXT(looks_into, "fstat")(file, out);
}

/* A lock of an open file, or what else is asked of it, which isn't told. */
int fcntl(int file, int what, void *with) {
    char found[LONGEST];
    if (what != SET_LOCK) return NEXT(locks, "fcntl")(file, what, with);
    tell("lock %s\n", name_of(file, found));
    return is_over(fate()) ? -1 : NEXT(locks, "fcntl")(file, what, with);
}

void *mmap(void *at, size_t n, int may, int how, int file, off_t from) {
    char found[LONGEST];
    if (file >= 0) {
        tell("map %s\n", name_of(file, found));
        if (is_over(fate())) return (void *)-1L;
    }
    return NEXT(maps, "mmap")(at, n, may, how, file, from);
}

ssize_t read(int file, void *out, size_t n) {
    char found[LONGEST];
    int does = fate();
    tell("read %s on %lu\n", name_of(file, found), n);
    return is_over(does) ? -1 : NEXT(reads, "read")(file, out, part_of(n, does));
}

ssize_t pread(int file, void *out, size_t n, off_t at) {
    char found[LONGEST];
    int does = fate();
    tell("read %s %ld %lu\n", name_of(file, found), at, n);
    return is_over(does) ? -1 : NEXT(reads_at, "pread")(file, out, part_of(n, does), at);
}

ssize_t pread64(int file, void *out, size_t n, off_t at) { return pread(file, out, n, at); }

/* A write names for each page of its bytes the one that fills it, or `x`. */
static void tell_write(int file, const unsigned char *bytes, size_t n, off_t at) {
    char found[LONGEST], line[2 * LONGEST];
    size_t length = snprintf(line, sizeof line, "write %s %ld %lu of", name_of(file, found), at, n);
    for (size_t from = 0; from < n && length < sizeof line - 5; from += PAGE) {
        size_t end = from + PAGE < n ? from + PAGE : n, same = from;
        while (same < end && bytes[same] == bytes[from]) same++;
        length += snprintf(line + length, sizeof line - length, same == end ? " %d" : " x", bytes[from]);
    }
    tell("%s\n", line);
}

ssize_t pwrite(int file, const void *from, size_t n, off_t at) {
    int does = fate();
    tell_write(file, from, n, at);
    if (!(does & HALVES)) return is_over(does) ? -1 : NEXT(writes_at, "pwrite")(file, from, n, at);
    ssize_t done = NEXT(writes_at, "pwrite")(file, from, part_of(n, does), at);
    return is_over(does) ? -1 : done;
}

ssize_t pwrite64(int file, const void *from, size_t n, off_t at) { return pwrite(file, from, n, at); }

/* What goes to a standard stream isn't a file's. */
ssize_t write(int file, const void *from, size_t n) {
    char found[LONGEST];
    int does;
    if (file < 3) return NEXT(writes, "write")(file, from, n);
    does = fate();
    tell("put %s %lu\n", name_of(file, found), n);
    if (!(does & HALVES)) return is_over(does) ? -1 : NEXT(writes, "write")(file, from, n);
    ssize_t done = NEXT(writes, "write")(file, from, part_of(n, does));
    return is_over(does) ? -1 : done;
}

/* Where it is the chosen call, `taken` makes an empty file at the new name first, and `no links` refuses it as a
   system without links does. */
int link(const char *from, const char *to) {
    int does = fate(), is_chosen = chosen && made == chosen;
    tell("link %s %s\n", last_of(from), last_of(to));
    if (is_chosen && !strncmp(manner, "taken", 5)) NEXT(opens, "open")(to, WRITE_ON, 0600);
    if (is_chosen && strstr(manner, "no links")) {
        *__errno_location() = NOT_PERMITTED;
        return -1;
    }
    return is_over(does) ? -1 : NEXT(pairs, "link")(from, to);
}

/* The same of a file that is open, by its link below /proc. */
int linkat(int here, const char *from, int there, const char *to, int how) {
    char found[LONGEST];
    int does = fate(), is_chosen = chosen && made == chosen;
    ssize_t length = readlink(from, found, LONGEST - 1);
    found[length < 0 ? 0 : length] = 0;
    tell("link %s %s\n", last_of(found), last_of(to));
    if (is_chosen && !strncmp(manner, "taken", 5)) NEXT(opens, "open")(to, WRITE_ON, 0600);
    if (is_chosen && strstr(manner, "no links")) {
        *__errno_location() = NOT_PERMITTED;
        return -1;
    }
    return is_over(does) ? -1 : NEXT(links, "linkat")(here, from, there, to, how);
}

int rename(const char *from, const char *to) {
    tell("rename %s %s\n", last_of(from), last_of(to));
    return is_over(fate()) ? -1 : NEXT(pairs, "rename")(from, to);
}

int unlink(const char *path) {
    tell("remove %s\n", last_of(path));
    return is_over(fate()) ? -1 : NEXT(names, "unlink")(path);
}

int ftruncate(int file, off_t end) {
    char found[LONGEST];
    tell("length %s %ld\n", name_of(file, found), end);
    return is_over(fate()) ? -1 : NEXT(cuts, "ftruncate")(file, end);
}

int ftruncate64(int file, off_t end) { return ftruncate(file, end); }

/* What a sync brings down no other process sees: it is told, and not made. */
static int synced(int file) {
    char found[LONGEST];
    tell("sync %s\n", name_of(file, found));
    return is_over(fate()) ? -1 : 0;
}

int fsync(int file) { return synced(file); }

int fdatasync(int file) { return synced(file); }

/* The same of all of a file system. */
int syncfs(int file) {
    char found[LONGEST];
    tell("sync all of %s\n", name_of(file, found));
    return is_over(fate()) ? -1 : 0;
}

/* The C library asks the system by these numbers, past the names above (locks/raw.h). */
long syscall(long what, long a, long b, long c, long d, long e, long f) {
    switch (what) {
    case FSTAT: return fstat((int)a, (void *)b);
    case PREAD: return pread((int)a, (void *)b, (size_t)c, d);
    case PWRITE: return pwrite((int)a, (const void *)b, (size_t)c, d);
    case FCNTL: return fcntl((int)a, (int)b, (void *)c);
    case FSYNC: return fsync((int)a);
    case FTRUNCATE: return ftruncate((int)a, b);
    case SYNCFS: return syncfs((int)a);
    case OPENAT: return open((const char *)b, (int)c, (unsigned)d);
    default: return NEXT(asks, "syscall")(what, a, b, c, d, e, f);
    }
}
