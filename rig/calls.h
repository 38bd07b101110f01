/* What both recorders have: the C library's own calls, the lock of a process, which file a descriptor is of, and the
   calls that each recorder takes by a few functions of its own. These are declared here, and defined in record.c and
   files.c, which include this after their `enum not_held`. */
#include <aio.h>
#include <dlfcn.h>
#include <elf.h>
#include <errno.h>
#include <fcntl.h>
#include <pthread.h>
#include <stdarg.h>
#include <stdint.h>
#include <stdio.h>
#include <stdlib.h>
#include <string.h>
#include <sys/mman.h>
#include <sys/stat.h>
#include <sys/syscall.h>
#include <sys/sysmacros.h>
#include <sys/uio.h>
#include <unistd.h>

enum { PATH_ROOM = 4096, NO_TRACE = 97, FIRST_DESCRIPTOR = 900, KNOWN = 8192 };
enum { NONE = -1, FOLDER = -2, MARKS = -3 }; /* what a descriptor is of, if it is of no recorded file */

static pthread_mutex_t lock = PTHREAD_RECURSIVE_MUTEX_INITIALIZER_NP;
static pthread_mutex_t known_lock = PTHREAD_MUTEX_INITIALIZER;
static int ready, trace = -1;
static pid_t process; /* whose memory this is: a child of vfork has it, too */

static void start(void);                                  /* until it has returned no call is recorded */
static int is_apart(void);                                /* whether what this process does isn't recorded */
static void enter(void), leave(void);                     /* around a call and its record */
static int held_by(int descriptor, const char *call);     /* which file this call is on: its number, or one of these */
static int open_one(int at, const char *path, int flags, mode_t mode);
static int sync_one(int descriptor, int data_alone);
static void sync_all(void);                               /* what a sync of the whole file system is */
static void note(int file, enum not_held what, const char *call); /* a trace can't hold this call on it */
static void put_marks(const char *lines, size_t count);
/* the bytes that lie there */
static void put_back(int file, int descriptor, off64_t place, ssize_t done, const char *call);

/* ---- The C library's own calls. */

#define NEXT(answer, call, ...) static answer (*next_##call)(__VA_ARGS__)
NEXT(int, openat64, int, const char *, int, ...);
NEXT(int, close, int);
NEXT(ssize_t, write, int, const void *, size_t);
NEXT(ssize_t, pwrite64, int, const void *, size_t, off64_t);
NEXT(ssize_t, writev, int, const struct iovec *, int);
NEXT(ssize_t, pwritev64, int, const struct iovec *, int, off64_t);
NEXT(ssize_t, pwritev64v2, int, const struct iovec *, int, off64_t, int);
NEXT(int, ftruncate64, int, off64_t);
NEXT(int, truncate64, const char *, off64_t);
NEXT(int, fsync, int);
NEXT(int, fdatasync, int);
NEXT(int, syncfs, int);
NEXT(void, sync, void);
NEXT(int, unlinkat, int, const char *, int);
NEXT(int, remove, const char *);
NEXT(int, renameat, int, const char *, int, const char *);
NEXT(int, renameat2, int, const char *, int, const char *, unsigned);
NEXT(int, linkat, int, const char *, int, const char *, int);
NEXT(FILE *, fopen64, const char *, const char *);
NEXT(FILE *, fdopen, int, const char *);
NEXT(FILE *, freopen64, const char *, const char *, FILE *);
NEXT(void *, mmap64, void *, size_t, int, int, int, off64_t);
NEXT(int, mprotect, void *, size_t, int);
NEXT(int, pkey_mprotect, void *, size_t, int, int);
NEXT(void *, mremap, void *, size_t, size_t, int, ...);
NEXT(int, fallocate64, int, int, off64_t, off64_t);
NEXT(int, posix_fallocate64, int, off64_t, off64_t);
NEXT(long, syscall, long, ...);

static void find_calls(void) {
#define FIND(call) next_##call = (__typeof__(next_##call))dlsym(RTLD_NEXT, #call)
    FIND(syscall);
    FIND(openat64), FIND(close), FIND(write), FIND(pwrite64), FIND(writev);
    FIND(pwritev64), FIND(pwritev64v2);
    FIND(ftruncate64), FIND(truncate64), FIND(fsync), FIND(fdatasync), FIND(syncfs), FIND(sync);
    FIND(unlinkat), FIND(remove), FIND(renameat), FIND(renameat2), FIND(linkat);
    FIND(fopen64), FIND(fdopen), FIND(freopen64);
    FIND(mmap64), FIND(mprotect), FIND(pkey_mprotect), FIND(mremap), FIND(fallocate64), FIND(posix_fallocate64);
}

/* ---- The lock of a process, and what a call gave. */

/* A fork waits until no thread records, and its child has a lock of its own. */
static void before_fork(void) { pthread_mutex_lock(&lock), pthread_mutex_lock(&known_lock); }
static void parent_forked(void) { pthread_mutex_unlock(&known_lock), pthread_mutex_unlock(&lock); }
static void child_forked(void) {
    lock = (pthread_mutex_t)PTHREAD_RECURSIVE_MUTEX_INITIALIZER_NP;
    known_lock = (pthread_mutex_t)PTHREAD_MUTEX_INITIALIZER;
    process = next_syscall(SYS_getpid);
}

static int64_t told(int64_t answer) {
    return answer < 0 ? -errno : answer;
}

/* Ends the process: no trace is better than one with a gap. */
static void no_trace(const char *why) {
    char line[256];
    int count = snprintf(line, sizeof line, "the recorder ended the program: %s (error %d)\n", why, errno);
    if (next_syscall(SYS_write, 2, line, (size_t)count) < 0) _exit(NO_TRACE);
    _exit(NO_TRACE);
}

/* ---- Which file a descriptor is of. The kernel is asked at each call, since a number may be closed unseen and given
   to another file. An inode's number comes back, too; then the file was born at another time. */

struct identity {
    uint64_t device, inode;
    int64_t born;
    uint32_t born_ns, links;
    uint16_t mode;
    off64_t size;
};

static int identify(int at, const char *path, struct identity *is) {
    struct statx x;
    int kept = errno, flags = AT_STATX_DONT_SYNC | (*path ? 0 : AT_EMPTY_PATH);
    memset(is, 0, sizeof *is);
    int failed = next_syscall(SYS_statx, at, path, flags, STATX_BASIC_STATS | STATX_BTIME, &x) != 0;
    errno = kept;
    if (failed) return 0;
    *is = (struct identity){ makedev(x.stx_dev_major, x.stx_dev_minor), x.stx_ino, 0, 0, x.stx_nlink, x.stx_mode,
                             (off64_t)x.stx_size };
    if (x.stx_mask & STATX_BTIME) is->born = x.stx_btime.tv_sec, is->born_ns = x.stx_btime.tv_nsec;
    return 1;
}

static int is_same(const struct identity *one, const struct identity *other) {
    return one->inode && one->inode == other->inode && one->device == other->device && one->born == other->born
        && one->born_ns == other->born_ns;
}

static struct { struct identity is; int file; } known[KNOWN]; /* files that were asked about, by their inodes */

static int recall(const struct identity *is, int *file) {
    pthread_mutex_lock(&known_lock);
    int has = is_same(&known[is->inode % KNOWN].is, is);
    if (has) *file = known[is->inode % KNOWN].file;
    pthread_mutex_unlock(&known_lock);
    return has;
}

static void remember(const struct identity *is, int file) {
    pthread_mutex_lock(&known_lock);
    known[is->inode % KNOWN].is = *is;
    known[is->inode % KNOWN].file = file;
    pthread_mutex_unlock(&known_lock);
}

/* Where the kernel says that a descriptor's file lies; the text is cut at " (deleted)", which is answered. */
static int path_of(int descriptor, char *path) {
    char link[64];
    int kept = errno;
    snprintf(link, sizeof link, "/proc/self/fd/%d", descriptor);
    ssize_t length = next_syscall(SYS_readlinkat, AT_FDCWD, link, path, (size_t)PATH_ROOM - 1);
    errno = kept;
    path[length < 0 ? 0 : length] = 0;
    char *end = length > 10 ? path + length - 10 : path;
    if (strcmp(end, " (deleted)")) return 0;
    *end = 0;
    return 1;
}

/* The last name of a path, and the folder that the rest leads to. */
static const char *last_of(int at, const char *path, struct identity *above) {
    char part[PATH_ROOM];
    const char *end = path ? strrchr(path, '/') : NULL, *last = end ? end + 1 : path;
    size_t length = end ? (size_t)(end - path) + 1 : 0;
    if (!path || !*last || !strcmp(last, ".") || !strcmp(last, "..") || length >= sizeof part) return NULL;
    memcpy(part, path, length);
    part[length] = 0;
    return identify(at, length ? part : ".", above) ? last : NULL;
}

/* ---- Bytes of the program's memory, which may not be there; and of a file. */

/* The first bytes of a vector; NULL if they can't be read. */
static char *copy_in(const struct iovec *parts, int count, size_t all) {
    char *bytes = malloc(all + 1);
    struct iovec to = { bytes, all };
    if (!bytes) no_trace("no memory");
    ssize_t done = all == 0 ? 0 : next_syscall(SYS_process_vm_readv, next_syscall(SYS_getpid), &to, 1L, parts,
                                               (long)count, 0L);
    if (done == (ssize_t)all) return bytes;
    free(bytes);
    return NULL;
}

/* Bytes of a file, by a descriptor that may be open to write alone; NULL if they can't be read. */
static char *read_back(int descriptor, off64_t place, size_t count) {
    char link[64], *bytes = malloc(count + 1);
    size_t have = 0;
    ssize_t more = 1;
    snprintf(link, sizeof link, "/proc/self/fd/%d", descriptor);
    int from = next_syscall(SYS_openat, AT_FDCWD, link, O_RDONLY | O_CLOEXEC);
    while (from >= 0 && bytes && have < count && more > 0) {
        more = pread64(from, bytes + have, count - have, place + (off64_t)have);
        if (more > 0) have += (size_t)more;
    }
    if (from >= 0) next_syscall(SYS_close, from);
    if (bytes && have == count) return bytes;
    free(bytes);
    return NULL;
}

/* Whether a program names no loader, which would load the recorder, or runs with other rights, so that it doesn't. */
static int can_not_load(const char *path) {
    Elf64_Ehdr head;
    Elf64_Phdr part;
    struct stat state;
    int from = (int)next_syscall(SYS_openat, AT_FDCWD, path, O_RDONLY | O_CLOEXEC), loads = 0;
    if (from < 0) return 0;
    int is_elf = pread64(from, &head, sizeof head, 0) == sizeof head && !memcmp(head.e_ident, ELFMAG, SELFMAG);
    for (int i = 0; is_elf && i < head.e_phnum; i++) {
        off64_t at = (off64_t)(head.e_phoff + (uint64_t)i * head.e_phentsize);
        loads |= pread64(from, &part, sizeof part, at) == sizeof part && part.p_type == PT_INTERP;
    }
    int is_other = fstat(from, &state) == 0 && state.st_mode & (S_ISUID | S_ISGID) && geteuid() != 0;
    next_syscall(SYS_close, from);
    return is_other || (is_elf && !loads);
}

/* ---- Opening and syncing. */

#define MODE_OF(flags)                     \
    mode_t mode = 0;                       \
    if ((flags) & (O_CREAT | O_TMPFILE)) { \
        va_list rest;                      \
        va_start(rest, flags);             \
        mode = va_arg(rest, mode_t);       \
        va_end(rest);                      \
    }

int open(const char *path, int flags, ...) { MODE_OF(flags) return open_one(AT_FDCWD, path, flags, mode); }
int open64(const char *path, int flags, ...) { MODE_OF(flags) return open_one(AT_FDCWD, path, flags, mode); }
int openat(int at, const char *path, int flags, ...) { MODE_OF(flags) return open_one(at, path, flags, mode); }
int openat64(int at, const char *path, int flags, ...) { MODE_OF(flags) return open_one(at, path, flags, mode); }
int creat(const char *path, mode_t mode) { return open_one(AT_FDCWD, path, O_CREAT | O_WRONLY | O_TRUNC, mode); }
int creat64(const char *path, mode_t mode) { return open_one(AT_FDCWD, path, O_CREAT | O_WRONLY | O_TRUNC, mode); }
/* What _FORTIFY_SOURCE makes of the same. */
int __open_2(const char *path, int flags) { return open_one(AT_FDCWD, path, flags, 0); }
int __open64_2(const char *path, int flags) { return open_one(AT_FDCWD, path, flags, 0); }
int __openat_2(int at, const char *path, int flags) { return open_one(at, path, flags, 0); }
int __openat64_2(int at, const char *path, int flags) { return open_one(at, path, flags, 0); }

/* The file is known by its descriptor afterwards; openat2 with other conditions can't be called by openat. */
struct how { uint64_t flags, mode, resolve; };
static int opened_by_how(int at, const char *path, const struct how *how, size_t size) {
    if (how->resolve == 0) return open_one(at, path, (int)how->flags, (mode_t)how->mode);
    int opened = (int)next_syscall(SYS_openat2, at, path, how, size), kept = errno;
    int file = opened >= 0 && (how->flags & (O_CREAT | O_TRUNC)) ? held_by(opened, "openat2") : NONE;
    if (file >= 0) note(file, UNSEEN, "openat2");
    errno = kept;
    return opened;
}

int fsync(int descriptor) { return sync_one(descriptor, 0); }
int fdatasync(int descriptor) { return sync_one(descriptor, 1); }

static uint64_t device; /* of the folder */

static int is_of_device(int descriptor) {
    struct identity is;
    return identify(descriptor, "", &is) && is.device == device;
}

int syncfs(int descriptor) {
    if (!next_syncfs) start();
    enter();
    int answer = next_syncfs(descriptor);
    if (answer == 0 && is_of_device(descriptor)) sync_all();
    leave();
    return answer;
}

void sync(void) {
    if (!next_sync) start();
    enter();
    next_sync();
    sync_all();
    leave();
}

/* ---- Names that change, and maps. */

int renameat(int at, const char *path, int at_to, const char *to) { return renameat2(at, path, at_to, to, 0); }
int rename(const char *path, const char *to) { return renameat2(AT_FDCWD, path, AT_FDCWD, to, 0); }

/* Shared maps that can't be written yet, of files that are open to be written: mprotect may change that. */
enum { MAPS = 256 };
static struct { char *at; size_t count; int file; } maps[MAPS];
static unsigned map_count;

static void remember_map(void *map, size_t count, int file) {
    pthread_mutex_lock(&known_lock);
    maps[map_count % MAPS].at = map, maps[map_count % MAPS].count = count, maps[map_count % MAPS].file = file;
    map_count++;
    pthread_mutex_unlock(&known_lock);
}

void *mmap64(void *at, size_t count, int rights, int flags, int descriptor, off64_t place) {
    int kinds = flags & MAP_TYPE, shared = kinds == MAP_SHARED || kinds == MAP_SHARED_VALIDATE;
    if (!next_mmap64) start();
    int file = shared && !(flags & MAP_ANONYMOUS) ? held_by(descriptor, "mmap") : NONE;
    if (file >= 0 && (rights & PROT_WRITE)) note(file, SHARED_MAP, "mmap");
    void *map = next_mmap64(at, count, rights, flags, descriptor, place);
    if (map != MAP_FAILED && file >= 0 && !(rights & PROT_WRITE)) remember_map(map, count, file);
    return map;
}
void *mmap(void *at, size_t count, int rights, int flags, int descriptor, off_t place) {
    return mmap64(at, count, rights, flags, descriptor, place);
}

static int overlaps(unsigned i, const char *from, size_t count) {
    return from < maps[i].at + maps[i].count && maps[i].at < from + count;
}

static void note_maps(const void *at, size_t count, int rights, const char *call) {
    for (unsigned i = 0; (rights & PROT_WRITE) && i < MAPS && i < map_count; i++) {
        if (overlaps(i, at, count)) note(maps[i].file, SHARED_MAP, call);
    }
}

int mprotect(void *at, size_t count, int rights) {
    if (!next_mprotect) start();
    note_maps(at, count, rights, "mprotect");
    return next_mprotect(at, count, rights);
}

int pkey_mprotect(void *at, size_t count, int rights, int key) {
    if (!next_mprotect) start();
    note_maps(at, count, rights, "pkey_mprotect");
    return next_pkey_mprotect(at, count, rights, key);
}

/* Such a map may move. */
static void *moved_map(const void *at, size_t former, void *map, size_t count) {
    for (unsigned i = 0, all = map_count; map != MAP_FAILED && i < MAPS && i < all; i++) {
        if (!overlaps(i, at, former)) continue;
        remember_map(map, count, maps[i].file);
        break;
    }
    return map;
}

void *mremap(void *at, size_t former, size_t count, int flags, ...) {
    va_list rest;
    va_start(rest, flags);
    void *to = flags & MREMAP_FIXED ? va_arg(rest, void *) : NULL;
    va_end(rest);
    if (!next_mremap) start();
    return moved_map(at, former, next_mremap(at, former, count, flags, to), count);
}

/* ---- Bytes that the kernel moves from one file to another: what lies there then is recorded. */

static off64_t place_of(int descriptor) { /* of the next write: the end, or the descriptor's own */
    struct identity is;
    int flags = (int)next_syscall(SYS_fcntl, descriptor, F_GETFL, 0L);
    if (flags >= 0 && (flags & O_APPEND) && identify(descriptor, "", &is)) return is.size;
    return lseek64(descriptor, 0, SEEK_CUR);
}

static ssize_t moved(long number, const char *call, int from, off64_t *from_at, int to, off64_t *to_at, size_t count,
                     unsigned flags) {
    if (!next_syscall) start();
    int file = held_by(to, call);
    if (file >= 0) enter();
    off64_t place = file < 0 ? 0 : to_at ? *to_at : place_of(to);
    ssize_t done = number == SYS_sendfile ? next_syscall(number, to, from, from_at, count)
                                          : next_syscall(number, from, from_at, to, to_at, count, (unsigned long)flags);
    if (file >= 0 && done > 0) put_back(file, to, place, done, call);
    if (file >= 0) leave();
    return done;
}

ssize_t sendfile64(int to, int from, off64_t *from_at, size_t count) {
    return moved(SYS_sendfile, "sendfile", from, from_at, to, NULL, count, 0);
}
ssize_t sendfile(int to, int from, off_t *from_at, size_t count) { return sendfile64(to, from, from_at, count); }
ssize_t copy_file_range(int from, off64_t *from_at, int to, off64_t *to_at, size_t count, unsigned flags) {
    return moved(SYS_copy_file_range, "copy_file_range", from, from_at, to, to_at, count, flags);
}
ssize_t splice(int from, off64_t *from_at, int to, off64_t *to_at, size_t count, unsigned flags) {
    return moved(SYS_splice, "splice", from, from_at, to, to_at, count, flags);
}

/* ---- Marks by other calls than write. */

static ssize_t print_marks(void *cookie, const char *lines, size_t count) {
    (void)cookie;
    enter();
    put_marks(lines, count);
    leave();
    return (ssize_t)count;
}

static int close_marks(void *cookie) {
    return cookie ? close((int)(intptr_t)cookie - 1) : 0;
}

/* A FILE * to the marks hands each line on; it closes this descriptor, if there is one. */
static FILE *open_marks(int descriptor) {
    cookie_io_functions_t calls = { NULL, print_marks, NULL, close_marks };
    FILE *stream = fopencookie((void *)(intptr_t)(descriptor + 1), "w", calls);
    if (stream) setvbuf(stream, NULL, _IOLBF, 0);
    return stream;
}

int vdprintf(int descriptor, const char *form, va_list rest) {
    char *text;
    int count = vasprintf(&text, form, rest), done = 0;
    while (count >= 0 && done < count) {
        ssize_t more = write(descriptor, text + done, (size_t)(count - done));
        if (more < 0) break;
        done += (int)more;
    }
    if (count >= 0) free(text);
    return count >= 0 && done == count ? count : -1;
}
int dprintf(int descriptor, const char *form, ...) {
    va_list rest;
    va_start(rest, form);
    int count = vdprintf(descriptor, form, rest);
    va_end(rest);
    return count;
}
int __vdprintf_chk(int descriptor, int flag, const char *form, va_list rest) {
    (void)flag;
    return vdprintf(descriptor, form, rest);
}
int __dprintf_chk(int descriptor, int flag, const char *form, ...) {
    va_list rest;
    (void)flag;
    va_start(rest, form);
    int count = vdprintf(descriptor, form, rest);
    va_end(rest);
    return count;
}

/* ---- Streams. The C library writes them by calls that aren't seen, so one to a recorded file can't be held. */

static int writes(const char *mode) {
    return mode && (mode[0] == 'w' || mode[0] == 'a' || strchr(mode, '+'));
}

static FILE *noted(FILE *stream, const char *mode, const char *call) {
    int kept = errno, file = stream && writes(mode) ? held_by(fileno(stream), call) : NONE;
    if (file >= 0) note(file, STREAM, call);
    errno = kept;
    return stream;
}

static int is_marks(int at, const char *path);

static FILE *open_stream(const char *path, const char *mode) {
    if (!next_fopen64) start();
    if (writes(mode) && path && is_marks(AT_FDCWD, path)) return open_marks(-1);
    return noted(next_fopen64(path, mode), mode, "fopen");
}

FILE *fopen(const char *path, const char *mode) { return open_stream(path, mode); }
FILE *fopen64(const char *path, const char *mode) { return open_stream(path, mode); }

FILE *fdopen(int descriptor, const char *mode) {
    if (!next_fdopen) start();
    int is_to_marks = writes(mode) && held_by(descriptor, "fdopen") == MARKS;
    return is_to_marks ? open_marks(descriptor) : noted(next_fdopen(descriptor, mode), mode, "fdopen");
}

FILE *freopen64(const char *path, const char *mode, FILE *stream) {
    if (!next_freopen64) start();
    return noted(next_freopen64(path, mode, stream), mode, "freopen");
}
FILE *freopen(const char *path, const char *mode, FILE *stream) { return freopen64(path, mode, stream); }

/* ---- Calls whose writes aren't seen. */

static void note_if(int descriptor, enum not_held what, const char *call) {
    int file = held_by(descriptor, call);
    if (file >= 0) note(file, what, call);
}

#define AIO(call, block)                                                                \
    int call(struct block *one) {                                                       \
        int (*next)(struct block *) = (__typeof__(next))dlsym(RTLD_NEXT, #call);        \
        note_if(one->aio_fildes, UNSEEN, #call);                                        \
        return next(one);                                                               \
    }
AIO(aio_write, aiocb)
AIO(aio_write64, aiocb64)

#define AIO_SYNC(call, block)                                                           \
    int call(int how, struct block *one) {                                              \
        int (*next)(int, struct block *) = (__typeof__(next))dlsym(RTLD_NEXT, #call);   \
        note_if(one->aio_fildes, UNSEEN, #call);                                        \
        return next(how, one);                                                          \
    }
AIO_SYNC(aio_fsync, aiocb)
AIO_SYNC(aio_fsync64, aiocb64)

#define AIO_LIST(call, block)                                                                                \
    int call(int mode, struct block *const all[], int count, struct sigevent *event) {                       \
        int (*next)(int, struct block *const[], int, struct sigevent *) = (__typeof__(next))dlsym(RTLD_NEXT, #call); \
        for (int i = 0; i < count; i++) {                                                                    \
            if (all[i] && all[i]->aio_lio_opcode == LIO_WRITE) note_if(all[i]->aio_fildes, UNSEEN, #call);   \
        }                                                                                                    \
        return next(mode, all, count, event);                                                                \
    }
AIO_LIST(lio_listio, aiocb)
AIO_LIST(lio_listio64, aiocb64)

/* Rings write what the recorder doesn't see, whichever file that is of. */
#define RING(call)                                                                                          \
    int call(void *a, void *b, void *c, void *d) {                                                          \
        int (*next)(void *, void *, void *, void *) = (__typeof__(next))dlsym(RTLD_NEXT, #call);            \
        note(NONE, UNSEEN, #call);                                                                          \
        return next ? next(a, b, c, d) : (errno = ENOSYS, -ENOSYS);                                         \
    }
RING(io_uring_queue_init)
RING(io_uring_queue_init_params)
RING(io_uring_queue_init_mem)
RING(io_submit)

/* The calls by number that are recorded as those by name are. */
long syscall(long number, ...) {
    va_list rest;
    va_start(rest, number);
    long a = va_arg(rest, long), b = va_arg(rest, long), c = va_arg(rest, long);
    long d = va_arg(rest, long), e = va_arg(rest, long), f = va_arg(rest, long);
    va_end(rest);
    if (!next_syscall) start();
    switch (number) {
#ifdef SYS_open
    case SYS_open: return open((char *)a, (int)b, (mode_t)c);
    case SYS_creat: return creat((char *)a, (mode_t)b);
    case SYS_unlink: return unlink((char *)a);
    case SYS_rename: return rename((char *)a, (char *)b);
    case SYS_link: return link((char *)a, (char *)b);
#endif
    case SYS_openat: return openat((int)a, (char *)b, (int)c, (mode_t)d);
    case SYS_write: return write((int)a, (void *)b, (size_t)c);
    case SYS_pwrite64: return pwrite64((int)a, (void *)b, (size_t)c, d);
    case SYS_writev: return writev((int)a, (void *)b, (int)c);
    case SYS_pwritev: return pwritev64((int)a, (void *)b, (int)c, d);
    case SYS_pwritev2: return pwritev64v2((int)a, (void *)b, (int)c, d, (int)f);
    case SYS_ftruncate: return ftruncate64((int)a, b);
    case SYS_truncate: return truncate64((char *)a, b);
    case SYS_fsync: return fsync((int)a);
    case SYS_fdatasync: return fdatasync((int)a);
    case SYS_syncfs: return syncfs((int)a);
    case SYS_sync: return sync(), 0;
    case SYS_unlinkat: return unlinkat((int)a, (char *)b, (int)c);
    case SYS_renameat: return renameat((int)a, (char *)b, (int)c, (char *)d);
    case SYS_renameat2: return renameat2((int)a, (char *)b, (int)c, (char *)d, (unsigned)e);
    case SYS_linkat: return linkat((int)a, (char *)b, (int)c, (char *)d, (int)e);
    case SYS_fallocate: return fallocate64((int)a, (int)b, c, d);
    case SYS_mmap: return (long)mmap64((void *)a, (size_t)b, (int)c, (int)d, (int)e, f);
    case SYS_mprotect: return mprotect((void *)a, (size_t)b, (int)c);
    case SYS_pkey_mprotect: note_maps((void *)a, (size_t)b, (int)c, "pkey_mprotect"); break;
    case SYS_mremap:
        return (long)moved_map((void *)a, (size_t)b, (void *)next_syscall(number, a, b, c, d, e), (size_t)c);
    case SYS_sendfile: return sendfile64((int)a, (int)b, (void *)c, (size_t)d);
    case SYS_copy_file_range: return copy_file_range((int)a, (void *)b, (int)c, (void *)d, (size_t)e, (unsigned)f);
    case SYS_splice: return splice((int)a, (void *)b, (int)c, (void *)d, (size_t)e, (unsigned)f);
    case SYS_openat2: return opened_by_how((int)a, (char *)b, (void *)c, (size_t)d);
    case SYS_io_uring_setup:
    case SYS_io_submit: note(NONE, UNSEEN, number == SYS_io_submit ? "io_submit" : "io_uring_setup");
    }
    return next_syscall(number, a, b, c, d, e, f);
}
