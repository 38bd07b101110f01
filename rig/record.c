/* Records what a program does to a database file and its two logs, as docs/TRACE.md says. rig/record builds it and runs
   a program with it, loaded before the C library. Each call on one of the files is made first and then recorded, under
   one lock, so that the records stand in the order of the calls' effects; calls on other files, which may wait, are
   made without it. A record that can't be written ends the process with status 97: no trace is better than one with a
   gap. What can't be recorded is refused by a record of its own. */
#define _GNU_SOURCE
#include <signal.h>
#include <sys/prctl.h>

enum kind { BASE = 1, OPEN, CLOSE, WRITE, CUT, SYNC, UNLINK, RENAME, FOLDER_SYNC, MARK, NOT_HELD, END };
enum file { DB, WAL, JOURNAL, THE_FOLDER, THE_MARKS, OTHER = 255 };
enum not_held { SHARED_MAP = 1, FALLOCATE, VECTORED_WRITE, LINK, STREAM = 6, UNSEEN };

#include "calls.h"

enum { NAME_ROOM = PATH_ROOM + 16 };

struct head {
    uint32_t kind, file, making, thread;
    int64_t answer;
    uint64_t place, length;
};

/* A name in a folder. */
struct name {
    char path[NAME_ROOM];
    const char *last;
    struct identity above;
};

static struct name names[3], marks;
static struct identity marks_are, trace_is;
static uint32_t makings[3];                      /* how often this process saw the name made */
static const char *trace_path;

/* ---- Records. */

static void put_all(const void *bytes, size_t count) {
    const char *rest = bytes;
    while (count > 0) {
        ssize_t done = next_syscall(SYS_write, trace, rest, count);
        if (done > 0) rest += done, count -= done;
        else if (done == 0 || errno != EINTR) no_trace("the trace can't be written");
    }
}

/* A record in one write, which the kernel appends whole: other processes add marks to the same trace. */
static void put(enum kind kind, enum file file, uint32_t making, int64_t answer, uint64_t place, uint64_t length,
                const void *bytes) {
    if (trace < 0) return;
    int kept = errno;
    struct head head = { kind, file, making, next_syscall(SYS_gettid), answer, place, length };
    struct iovec parts[2] = { { &head, sizeof head }, { (void *)bytes, bytes ? length : 0 } };
    ssize_t done;
    do done = next_syscall(SYS_writev, trace, parts, 2);
    while (done < 0 && errno == EINTR);
    if (done < 0) no_trace("the trace can't be written");
    for (int i = 0; i < 2; i++) {
        size_t part = (size_t)done < parts[i].iov_len ? (size_t)done : parts[i].iov_len;
        put_all((char *)parts[i].iov_base + part, parts[i].iov_len - part);
        done -= part;
    }
    errno = kept;
}

/* ---- The files as they lie there when recording begins and when it ends. */

static int open_to_read(enum file file, struct stat *state) {
    int from = next_syscall(SYS_openat, AT_FDCWD, names[file].path, O_RDONLY | O_CLOEXEC);
    if (from >= 0 && fstat(from, state) == 0 && S_ISREG(state->st_mode)) return from;
    if (from >= 0) next_syscall(SYS_close, from);
    return -1;
}

static void put_base(enum file file) {
    struct stat state;
    int from = open_to_read(file, &state);
    if (from < 0) return;
    char *bytes = malloc(state.st_size + 1);
    ssize_t count = 0, more;
    if (!bytes) no_trace("no memory");
    while ((more = read(from, bytes + count, state.st_size - count)) > 0) count += more;
    put(BASE, file, 0, 0, 0, count, bytes);
    free(bytes);
    next_syscall(SYS_close, from);
}

/* The sum of docs/TRACE.md. */
static uint64_t sum_of(uint64_t sum, const uint8_t *bytes, size_t count) {
    for (size_t i = 0; i < count; i++) sum = sum * 1099511628211u + bytes[i];
    return sum;
}

static void put_end(enum file file) {
    static uint8_t bytes[1 << 16];
    struct stat state;
    int from = open_to_read(file, &state);
    uint64_t sum = 0, length = 0;
    ssize_t more = 0;
    while (from >= 0 && (more = read(from, bytes, sizeof bytes)) > 0) {
        sum = sum_of(sum, bytes, more);
        length += more;
    }
    if (more < 0) no_trace("a file can't be read");
    put(END, file, 0, sum, from >= 0, length, NULL);
    if (from >= 0) next_syscall(SYS_close, from);
}

/* ---- Names. */

static void set_name(struct name *name, const char *path, const char *more) {
    snprintf(name->path, sizeof name->path, "%.*s%s", PATH_ROOM, path, more);
    name->last = last_of(AT_FDCWD, name->path, &name->above);
    if (!name->last) name->last = "";
}

static void set_names(const char *path) {
    char *real = realpath(path, NULL);
    set_name(&names[DB], real ? real : path, "");
    free(real);
    set_name(&names[WAL], names[DB].path, "-wal");
    set_name(&names[JOURNAL], names[DB].path, "-journal");
    device = names[DB].above.device;
}

/* Whether this is a child that has its parent's memory: what it does there isn't recorded. */
static int is_apart(void) {
    if (!ready) start();
    return trace < 0 || next_syscall(SYS_getpid) != process;
}

/* The file that has this name: by the last part of the path, and the folder that the rest of it leads to. */
static int named(int at, const char *path) {
    struct identity above;
    const char *end = strrchr(path, '/'), *last = end ? end + 1 : path;
    int known = 0;
    for (int i = DB; i <= JOURNAL; i++) known |= !strcmp(names[i].last, last);
    if (!known || !(last = last_of(at, path, &above))) return NONE;
    for (int i = DB; i <= JOURNAL; i++) {
        if (!strcmp(names[i].last, last) && is_same(&names[i].above, &above)) return i;
    }
    return NONE;
}

/* The file that a path leads to, also by a link. */
static int reached(int at, const char *path) {
    struct stat link;
    struct identity is, other;
    int file = named(at, path);
    if (file != NONE || fstatat(at, path, &link, AT_SYMLINK_NOFOLLOW) != 0) return file;
    if ((!S_ISLNK(link.st_mode) && link.st_nlink == 1) || !identify(at, path, &is)) return NONE;
    for (int i = DB; i <= JOURNAL; i++) {
        if (identify(AT_FDCWD, names[i].path, &other) && is_same(&is, &other)) return i;
    }
    return NONE;
}

static int file_by(int (*find)(int, const char *), int at, const char *path) {
    int kept = errno;
    int file = path && *path && !is_apart() ? find(at, path) : NONE;
    errno = kept;
    return file;
}

static int is_marks(int at, const char *path) {
    struct identity is;
    if (!marks.last || is_apart()) return 0;
    return !strcmp(path, marks.path) || (identify(at, path, &is) && is_same(&is, &marks_are));
}

/* A file and which making of its name it is, as one number; and the two of one. */
static int code_of(int file) { return (int)(makings[file] << 2) + file; }
static enum file file_of(int code) { return code & 3; }
static uint32_t making_of(int code) { return (uint32_t)code >> 2; }

static int held_by(int descriptor, const char *call) {
    struct identity is;
    char path[PATH_ROOM];
    int kept = errno, code = NONE;
    (void)call;
    if (is_apart() || !identify(descriptor, "", &is)) return errno = kept, NONE;
    if (marks.last && is_same(&is, &marks_are)) code = MARKS;
    else if (S_ISDIR(is.mode)) code = is_same(&is, &names[DB].above) ? FOLDER : NONE;
    else if (S_ISREG(is.mode) && !is_same(&is, &trace_is) && !recall(&is, &code)) {
        int was_removed = path_of(descriptor, path), file = *path && !was_removed ? reached(AT_FDCWD, path) : NONE;
        code = file == NONE ? NONE : code_of(file);
        remember(&is, code);
    }
    errno = kept;
    return code;
}

/* ---- The beginning. */

static void open_trace(void) {
    int opened = next_syscall(SYS_openat, AT_FDCWD, trace_path, O_WRONLY | O_CREAT | O_APPEND | O_CLOEXEC, 0644);
    if (opened < 0) no_trace("the trace can't be opened");
    trace = next_syscall(SYS_fcntl, opened, F_DUPFD_CLOEXEC, FIRST_DESCRIPTOR); /* out of the program's way */
    if (trace < 0) trace = opened;
    else next_syscall(SYS_close, opened);
    if (!identify(trace, "", &trace_is)) no_trace("the trace can't be read");
}

/* Names the first call that the trace doesn't hold, and says how many there are. */
static void tell_refusals(void) {
    static const char *CALLS[] = { [SHARED_MAP] = "a shared map that can be written", [FALLOCATE] = "fallocate",
                                   [VECTORED_WRITE] = "writev or pwritev", [LINK] = "a link", [STREAM] = "a stream",
                                   [UNSEEN] = "a call or program that isn't seen" };
    struct head head;
    unsigned long count = 0;
    int from = next_syscall(SYS_openat, AT_FDCWD, trace_path, O_RDONLY | O_CLOEXEC);
    for (off64_t at = 8; pread64(from, &head, sizeof head, at) == sizeof head; at += sizeof head) {
        if (head.kind == BASE || head.kind == WRITE || head.kind == MARK) at += (off64_t)head.length;
        if (head.kind != NOT_HELD || count++ > 0 || head.file > JOURNAL || head.answer > UNSEEN) continue;
        const char *call = CALLS[head.answer] ? CALLS[head.answer] : "a call";
        fprintf(stderr, "record: not recorded: %s, of %s\n", call, names[head.file].last);
    }
    if (count > 1) fprintf(stderr, "record: and %lu calls more\n", count - 1);
    next_syscall(SYS_close, from);
}

static void begin(void) {
    const char *file = getenv("SQCRASH_FILE"), *lines = getenv("SQCRASH_MARKS");
    const char *by = getenv("SQCRASH_BY"), *command = getenv("SQCRASH_COMMAND");
    find_calls();
    trace_path = getenv("SQCRASH_TRACE");
    process = next_syscall(SYS_getpid);
    if (by && atoi(by) == getppid()) prctl(PR_SET_PDEATHSIG, SIGTERM); /* the run ends where its recorder does */
    if (!file || !trace_path || strlen(file) >= PATH_ROOM) return;
    set_names(file);
    if (lines) set_name(&marks, lines, ""), identify(AT_FDCWD, lines, &marks_are);
    pthread_atfork(before_fork, parent_forked, child_forked);
    open_trace();
    if (trace_is.size == 0) {
        put_all("SQCRTR1\n", 8);
        for (int i = DB; i <= JOURNAL; i++) put_base(i);
        if (command && can_not_load(command)) put(NOT_HELD, DB, 0, UNSEEN, 0, 0, NULL);
    }
    if (!getenv("SQCRASH_END")) return;
    for (int i = DB; i <= JOURNAL; i++) put_end(i);
    tell_refusals();
    trace = -1;
}

static void enter(void) {
    static int begun;
    struct identity is;
    pthread_mutex_lock(&lock);
    if (begun) {
        if (trace >= 0 && (!identify(trace, "", &is) || !is_same(&is, &trace_is))) open_trace(); /* it was closed */
        return;
    }
    begun = 1;
    begin();
    __atomic_store_n(&ready, 1, __ATOMIC_RELEASE);
}

static void leave(void) {
    int kept = errno;
    pthread_mutex_unlock(&lock);
    errno = kept;
}

__attribute__((constructor)) static void start(void) {
    enter();
    leave();
}

/* ---- Opening and closing. */

static int open_one(int at, const char *path, int flags, mode_t mode) {
    struct identity was = { 0 }, is;
    if (!next_openat64) start();
    int file = file_by(reached, at, path);
    if (file == NONE) {
        int is_to_marks = path && is_marks(at, path), opened = next_openat64(at, path, flags, mode);
        if (opened >= 0 && is_to_marks) identify(opened, "", &marks_are);
        return opened;
    }
    enter();
    int there = identify(at, path, &was);
    int opened = next_openat64(at, path, flags, mode);
    int made = opened >= 0 && !there;
    makings[file] += made;
    put(OPEN, file, makings[file], told(opened), made, (uint32_t)flags, NULL);
    if (opened >= 0 && (flags & O_TRUNC) && was.size > 0) put(CUT, file, makings[file], 0, 0, 0, NULL);
    if (opened >= 0 && identify(opened, "", &is)) remember(&is, code_of(file));
    leave();
    return opened;
}

int close(int descriptor) {
    if (!next_close) start();
    if (descriptor == trace && trace >= 0) return errno = EBADF, -1;
    int code = held_by(descriptor, "close");
    if (code < 0) return next_close(descriptor);
    enter();
    int answer = next_close(descriptor);
    put(CLOSE, file_of(code), making_of(code), told(answer), 0, 0, NULL);
    leave();
    return answer;
}

/* ---- Marks. */

static void put_marks(const char *lines, size_t count) {
    while (count > 0) {
        const char *end = memchr(lines, '\n', count);
        size_t line = end ? (size_t)(end - lines) : count;
        if (line > 0) put(MARK, THE_MARKS, 0, 0, 0, line, lines);
        line += end != NULL;
        lines += line;
        count -= line;
    }
}

/* ---- Writing, cutting, syncing. */

/* What a call left in the file is recorded as a write, since its bytes weren't the program's. */
static void put_back(int code, int descriptor, off64_t place, ssize_t done, const char *call) {
    char *bytes = read_back(descriptor, place, (size_t)done);
    (void)call;
    if (bytes) put(WRITE, file_of(code), making_of(code), done, place, (size_t)done, bytes);
    else put(NOT_HELD, file_of(code), making_of(code), UNSEEN, 0, 0, NULL);
    free(bytes);
}

/* A write that failed may be there in part, and may have made the file longer. */
static void put_failed(int code, int descriptor, const struct iovec *part, off64_t place, off64_t was) {
    int error = errno;
    struct identity is;
    char *bytes = error == EFAULT ? NULL : copy_in(part, 1, part->iov_len);
    if (bytes) put(WRITE, file_of(code), making_of(code), -error, place, part->iov_len, bytes);
    free(bytes);
    if (identify(descriptor, "", &is) && is.size > was) {
        put(CUT, file_of(code), making_of(code), 0, is.size, 0, NULL);
        put_back(code, descriptor, was, is.size - was, "write");
    }
    errno = error;
}

static ssize_t write_one(int descriptor, const void *bytes, size_t count, int has_place, off64_t place) {
    struct iovec part = { (void *)bytes, count };
    struct identity is = { 0 };
    if (!next_write) start();
    int code = held_by(descriptor, "write");
    if (code < 0 && code != MARKS) {
        return has_place ? next_pwrite64(descriptor, bytes, count, place) : next_write(descriptor, bytes, count);
    }
    enter();
    if (code >= 0) identify(descriptor, "", &is);
    if (code >= 0 && !has_place) place = place_of(descriptor);
    ssize_t done = has_place ? next_pwrite64(descriptor, bytes, count, place) : next_write(descriptor, bytes, count);
    if (code == MARKS && done > 0) put_marks(bytes, (size_t)done);
    else if (code >= 0 && done >= 0) put(WRITE, file_of(code), making_of(code), done, place, (size_t)done, bytes);
    else if (code >= 0) put_failed(code, descriptor, &part, place, is.size);
    leave();
    return done;
}

ssize_t write(int descriptor, const void *bytes, size_t count) { return write_one(descriptor, bytes, count, 0, 0); }
ssize_t pwrite64(int descriptor, const void *bytes, size_t count, off64_t place) {
    return write_one(descriptor, bytes, count, 1, place);
}
ssize_t pwrite(int descriptor, const void *bytes, size_t count, off_t place) {
    return write_one(descriptor, bytes, count, 1, place);
}

int ftruncate64(int descriptor, off64_t length) {
    if (!next_ftruncate64) start();
    int code = held_by(descriptor, "ftruncate");
    if (code < 0) return next_ftruncate64(descriptor, length);
    enter();
    int answer = next_ftruncate64(descriptor, length);
    put(CUT, file_of(code), making_of(code), told(answer), length, 0, NULL);
    leave();
    return answer;
}

int ftruncate(int descriptor, off_t length) { return ftruncate64(descriptor, length); }

int truncate64(const char *path, off64_t length) {
    int file = file_by(reached, AT_FDCWD, path);
    if (!next_truncate64) start();
    if (file == NONE) return next_truncate64(path, length);
    enter();
    int answer = next_truncate64(path, length);
    put(CUT, file, makings[file], told(answer), length, 0, NULL);
    leave();
    return answer;
}

int truncate(const char *path, off_t length) { return truncate64(path, length); }

static int sync_one(int descriptor, int data_alone) {
    if (!next_fsync) start();
    int code = held_by(descriptor, "fsync");
    if (code < 0 && code != FOLDER) return data_alone ? next_fdatasync(descriptor) : next_fsync(descriptor);
    enter();
    int answer = data_alone ? next_fdatasync(descriptor) : next_fsync(descriptor);
    if (code >= 0) put(SYNC, file_of(code), making_of(code), told(answer), data_alone, 0, NULL);
    else put(FOLDER_SYNC, THE_FOLDER, 0, told(answer), data_alone, 0, NULL);
    leave();
    return answer;
}

static void sync_all(void) {
    struct identity is;
    if (is_apart()) return;
    for (int i = DB; i <= JOURNAL; i++) {
        if (identify(AT_FDCWD, names[i].path, &is)) put(SYNC, i, makings[i], 0, 0, 0, NULL);
    }
    put(FOLDER_SYNC, THE_FOLDER, 0, 0, 0, 0, NULL);
}

/* ---- Names that go, change or come. */

static int unlinked(int file, int answer) {
    put(UNLINK, file, makings[file], told(answer), 0, 0, NULL);
    leave();
    return answer;
}

int unlinkat(int at, const char *path, int flags) {
    int file = file_by(named, at, path);
    if (!next_unlinkat) start();
    if (file == NONE) return next_unlinkat(at, path, flags);
    enter();
    return unlinked(file, next_unlinkat(at, path, flags));
}
int unlink(const char *path) { return unlinkat(AT_FDCWD, path, 0); }
int remove(const char *path) {
    int file = file_by(named, AT_FDCWD, path);
    if (!next_remove) start();
    if (file == NONE) return next_remove(path);
    enter();
    return unlinked(file, next_remove(path));
}

static int rename_one(int at, const char *path, int at_to, const char *to_path, unsigned flags) {
    return flags ? next_renameat2(at, path, at_to, to_path, flags) : next_renameat(at, path, at_to, to_path);
}

int renameat2(int at, const char *path, int at_to, const char *to_path, unsigned flags) {
    int from = file_by(named, at, path), other = file_by(named, at_to, to_path);
    if (!next_renameat) start();
    if (from == other) return rename_one(at, path, at_to, to_path, flags);
    enter();
    int answer = rename_one(at, path, at_to, to_path, flags);
    put(RENAME, from == NONE ? OTHER : from, from == NONE ? 0 : makings[from], told(answer),
        other == NONE ? OTHER : other, 0, NULL);
    leave();
    return answer;
}

/* ---- Calls that change bytes or names, and that a trace can't hold: it says so, and who plays it refuses it. */

static void note(int code, enum not_held what, const char *call) {
    (void)call;
    if (is_apart()) return;
    enter();
    put(NOT_HELD, code < 0 ? DB : file_of(code), code < 0 ? 0 : making_of(code), what, 0, 0, NULL);
    leave();
}

int fallocate64(int descriptor, int mode, off64_t from, off64_t count) {
    note_if(descriptor, FALLOCATE, "fallocate");
    return next_fallocate64(descriptor, mode, from, count);
}
int fallocate(int descriptor, int mode, off_t from, off_t count) { return fallocate64(descriptor, mode, from, count); }
int posix_fallocate64(int descriptor, off64_t from, off64_t count) {
    note_if(descriptor, FALLOCATE, "posix_fallocate");
    return next_posix_fallocate64(descriptor, from, count);
}
int posix_fallocate(int descriptor, off_t from, off_t count) { return posix_fallocate64(descriptor, from, count); }

/* A vector of lines to the marks is read as one. */
static ssize_t parts_done(int code, const struct iovec *parts, int count, ssize_t done) {
    char *bytes = code == MARKS && done > 0 ? copy_in(parts, count, (size_t)done) : NULL;
    if (bytes) enter(), put_marks(bytes, (size_t)done), leave();
    free(bytes);
    return done;
}

ssize_t writev(int descriptor, const struct iovec *parts, int count) {
    int code = held_by(descriptor, "writev");
    if (code >= 0) note(code, VECTORED_WRITE, "writev");
    return parts_done(code, parts, count, next_writev(descriptor, parts, count));
}
ssize_t pwritev64(int descriptor, const struct iovec *parts, int count, off64_t place) {
    note_if(descriptor, VECTORED_WRITE, "pwritev");
    return next_pwritev64(descriptor, parts, count, place);
}
ssize_t pwritev(int descriptor, const struct iovec *parts, int count, off_t place) {
    return pwritev64(descriptor, parts, count, place);
}
ssize_t pwritev64v2(int descriptor, const struct iovec *parts, int count, off64_t place, int flags) {
    note_if(descriptor, VECTORED_WRITE, "pwritev2");
    return next_pwritev64v2(descriptor, parts, count, place, flags);
}
ssize_t pwritev2(int descriptor, const struct iovec *parts, int count, off_t place, int flags) {
    return pwritev64v2(descriptor, parts, count, place, flags);
}
int linkat(int at, const char *from, int at_to, const char *to, int flags) {
    int one = file_by(named, at, from), other = file_by(named, at_to, to);
    if (!next_linkat) start();
    int answer = next_linkat(at, from, at_to, to, flags);
    if (one != NONE && answer == 0) note(code_of(one), LINK, "link");
    if (other != NONE && answer == 0) note(code_of(other), LINK, "link");
    return answer;
}
int link(const char *from, const char *to) { return linkat(AT_FDCWD, from, AT_FDCWD, to, 0); }
