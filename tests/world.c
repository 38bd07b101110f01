/* Loaded into a program, stops it (as `kill -STOP` does) before the call whose line begins with what STOP says and, of
   these, has the number that NUMBER says, from 1. The lines: `read NAME;`, `write NAME;`, `length NAME;`, `sync NAME;`
   and `unlink NAME;`, NAME being the file's name without its folder. Where FROZEN is set, all files seem to have been
   changed at the same time, as on a system whose clock hasn't ticked. */
typedef unsigned long size_t;
typedef long ssize_t;
typedef long off_t;

enum { LONGEST = 4096, STOP = 19, TIMES_OF_CHANGE = 96, BEHIND_TIMES = 128 };

char *getenv(const char *);
unsigned long strtoul(const char *, char **, int);
int strncmp(const char *, const char *, size_t);
size_t strlen(const char *);
char *strrchr(const char *, int);
int snprintf(char *, size_t, const char *, ...);
ssize_t readlink(const char *, char *, size_t);
int raise(int);
void *dlsym(void *, const char *);

#define NEXT(kind, name) ((kind)dlsym((void *)-1L, name))

typedef ssize_t (*reads)(int, void *, size_t);
typedef ssize_t (*reads_at)(int, void *, size_t, off_t);
typedef ssize_t (*writes_at)(int, const void *, size_t, off_t);
typedef int (*cuts)(int, off_t);
typedef int (*syncs)(int);
typedef int (*unlinks)(const char *);
typedef int (*looks)(int, const char *, int, unsigned, void *);

static unsigned long seen;

static void meet_path(const char *call, const char *path) {
    const char *wanted = getenv("STOP"), *number = getenv("NUMBER"), *slash = strrchr(path, '/');
    char line[LONGEST + 16];
    if (!wanted || !number) return;
    snprintf(line, sizeof line, "%s %s;", call, slash ? slash + 1 : path);
    if (strncmp(line, wanted, strlen(wanted))) return;
    if (++seen == strtoul(number, (void *)0, 10)) raise(STOP);
}

static void meet(const char *call, int file) {
    char link[32], path[LONGEST];
    ssize_t length;
    snprintf(link, sizeof link, "/proc/self/fd/%d", file);
    length = readlink(link, path, sizeof path - 1);
    path[length < 0 ? 0 : length] = 0;
    meet_path(call, path);
}

ssize_t read(int file, void *out, size_t n) {
    meet("read", file);
    return NEXT(reads, "read")(file, out, n);
}

ssize_t pread(int file, void *out, size_t n, off_t at) {
    meet("read", file);
    return NEXT(reads_at, "pread")(file, out, n, at);
}

ssize_t pread64(int file, void *out, size_t n, off_t at) { return pread(file, out, n, at); }

ssize_t pwrite(int file, const void *from, size_t n, off_t at) {
    meet("write", file);
    return NEXT(writes_at, "pwrite")(file, from, n, at);
}

ssize_t pwrite64(int file, const void *from, size_t n, off_t at) { return pwrite(file, from, n, at); }

int ftruncate(int file, off_t end) {
    meet("length", file);
    return NEXT(cuts, "ftruncate")(file, end);
}

int ftruncate64(int file, off_t end) { return ftruncate(file, end); }

int fsync(int file) {
    meet("sync", file);
    return NEXT(syncs, "fsync")(file);
}

int fdatasync(int file) {
    meet("sync", file);
    return NEXT(syncs, "fdatasync")(file);
}

int unlink(const char *path) {
    meet_path("unlink", path);
    return NEXT(unlinks, "unlink")(path);
}

int statx(int file, const char *path, int how, unsigned mask, void *out) {
    int done = NEXT(looks, "statx")(file, path, how, mask, out);
    for (int at = TIMES_OF_CHANGE; getenv("FROZEN") && at < BEHIND_TIMES; at++) ((char *)out)[at] = 0;
    return done;
}
