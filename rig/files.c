/* Records what a program does to a set of files in a folder, as docs/TRACE.md says of version 2. rig/record-files
   builds it and runs a program with it, loaded before the C library. Each call on one of the files is made first and
   then recorded, under one lock for all processes, so that the records stand in the order of the calls' effects. Files
   and names have numbers, which each process knows from the trace: under the lock it reads what others have written
   since. What can't be recorded is refused by a record that names the call and the file. */
#define _GNU_SOURCE
#include <dirent.h>
#include <linux/falloc.h>
#include <time.h>

enum action { BASE = 1, MAKE, WRITE = 4, CUT, SYNC, UNLINK, RENAME, FOLDER_SYNC, MARK, NOT_HELD, END, NAME };
enum not_held {
    SHARED_MAP = 1, FALLOCATE, LINK = 4, SYNCED_WRITE, STREAM, UNSEEN, BELOW, UNWRITTEN, STOPPED, STATIC, MADE
};

#include "calls.h"

enum { NAME_ROOM = 256, TEXT_ROOM = 1024 };

struct head {
    uint32_t action, file, name, thread;
    int64_t answer;
    uint64_t place, length;
};

static int depth, has_ended, is_at_end, is_unlocked, is_told;
static off64_t seen;     /* how much of the trace is known */
static struct identity folder_is, marks_are, trace_is;
static const char *folder, *only, *but, *marks, *to;
static struct { char *text; int file; } *names; /* in the order of their records */
static int name_count, name_room, *table;       /* the table has of each name the number and 1, by its hash */
static struct { int is_dirty; uint32_t name; } *files;
static int file_count, file_room;
static uint64_t changes, mark_count, refusals;  /* how many calls changed something, and how many marks there were */
static __thread uint64_t changes_then;          /* at this thread's last mark, and 1 */

/* ---- Records. */

static const char *WHY[] = {
    [SHARED_MAP] = "a shared map that can be written", [FALLOCATE] = "room made or taken in another way",
    [LINK] = "a link, or a name that comes from elsewhere, goes elsewhere or is exchanged",
    [SYNCED_WRITE] = "a write that syncs itself, while others of its file aren't synced",
    [STREAM] = "a stream of the C library, whose writes aren't seen", [UNSEEN] = "it isn't seen what this does",
    [BELOW] = "a folder in the folder", [UNWRITTEN] = "nothing was written since this thread's mark before",
    [STOPPED] = "another process is stopped inside a recorded call",
    [MADE] = "the file was made or removed by a call that isn't seen",
    [STATIC] = "the recorder can't be loaded into this program",
};

static unsigned hash_of(const char *text) {
    unsigned hash = 2166136261u;
    while (*text) hash = (hash ^ (uint8_t)*text++) * 16777619u;
    return hash;
}

static void put_in_table(int number) {
    unsigned at = hash_of(names[number].text);
    while (table[at % (2 * name_room)]) at++;
    table[at % (2 * name_room)] = number + 1;
}

static void learn_name(const char *text, size_t length) {
    if (name_count == name_room) {
        name_room = name_room ? 2 * name_room : 256;
        names = realloc(names, name_room * sizeof *names);
        free(table);
        table = calloc(2 * (size_t)name_room, sizeof *table);
        if (!names || !table) no_trace("no memory");
        for (int i = 0; i < name_count; i++) put_in_table(i);
    }
    names[name_count].text = strndup(text, length);
    if (!names[name_count].text) no_trace("no memory");
    names[name_count].file = NONE;
    put_in_table(name_count++);
}

static void learn_file(uint32_t name) {
    if (file_count == file_room) {
        file_room = file_room ? 2 * file_room : 256;
        files = realloc(files, file_room * sizeof *files);
        if (!files) no_trace("no memory");
    }
    files[file_count].is_dirty = 0;
    files[file_count].name = name;
    names[name].file = file_count++;
}

static void print_refusal(const char *text, int count) { /* by the step after the run */
    if (is_at_end && refusals == 1) fprintf(stderr, "record-files: not recorded: %.*s\n", count, text);
}

static void learn(const struct head *head, const char *text) { /* what a record says of names and files */
    enum action action = head->action;
    if (action == NAME) learn_name(text, head->length);
    if (action == MARK && is_told) print_refusal(text, (int)head->length);
    else if (action == MARK) mark_count++;
    is_told = action == NOT_HELD; /* the text follows it, as a mark */
    if (action == NOT_HELD) refusals++;
    if (action == END) has_ended = 1;
    if (action == NAME || action == NOT_HELD || head->answer < 0) return;
    if (action == BASE || action == MAKE) learn_file(head->name);
    if (action == UNLINK) names[head->name].file = NONE;
    if (action == RENAME) {
        names[head->place].file = names[head->name].file;
        names[head->name].file = NONE;
    }
    if (action == MAKE || action == UNLINK || action == RENAME || action == WRITE || action == CUT) changes++;
    if (action == WRITE || action == CUT) files[head->file].is_dirty = 1;
    if (action == SYNC) files[head->file].is_dirty = 0;
}

static int carries(uint32_t action) {
    return action == BASE || action == WRITE || action == MARK || action == NAME;
}

static void catch_up(void) { /* reads what other processes have written since */
    struct identity is;
    if (!identify(trace, "", &is)) no_trace("the trace can't be read");
    while (seen < is.size) {
        struct head head;
        char text[TEXT_ROOM] = "";
        if (pread(trace, &head, sizeof head, seen) != sizeof head) no_trace("the trace can't be read");
        seen += sizeof head;
        if ((head.action == NAME || (head.action == MARK && is_told)) && head.length < TEXT_ROOM
            && pread(trace, text, head.length, seen) != (ssize_t)head.length) no_trace("the trace can't be read");
        if (carries(head.action)) seen += head.length;
        learn(&head, text);
    }
}

static void put(enum action action, int file, int name, int64_t answer, uint64_t place, uint64_t length,
                const void *bytes) {
    int kept = errno, is_late = has_ended && !is_at_end; /* of a process that goes on after the command */
    struct head head = { action, (uint32_t)file, (uint32_t)name, next_syscall(SYS_gettid), answer, place, length };
    struct iovec parts[2] = { { &head, sizeof head }, { (void *)bytes, bytes ? length : 0 } };
    ssize_t all = sizeof head + (bytes ? length : 0), done = is_late ? all : next_writev(trace, parts, 2);
    while (done >= 0 && done < all) {
        const char *rest = done < (ssize_t)sizeof head ? (char *)&head + done : (char *)bytes + (done - sizeof head);
        size_t count = done < (ssize_t)sizeof head ? sizeof head - done : (size_t)(all - done);
        ssize_t more = next_write(trace, rest, count);
        if (more <= 0) no_trace("the trace can't be written");
        done += more;
    }
    if (done < 0) no_trace("the trace can't be written");
    seen += is_late ? 0 : all;
    learn(&head, bytes);
    errno = kept;
}

/* Says what a trace can't hold: the call, the name, and why. */
static void put_not_held(int file, enum not_held what, const char *call, const char *name) {
    char text[TEXT_ROOM];
    int count = snprintf(text, sizeof text, "%s%s%.*s: %s", call, *name ? " " : "", NAME_ROOM * 2, name, WHY[what]);
    for (int i = 0; i < count; i++) if ((uint8_t)text[i] < 32 || text[i] == 127) text[i] = '?';
    put(NOT_HELD, file < 0 ? 0 : file, file < 0 ? 0 : (int)files[file].name, what, 0, 0, NULL);
    put(MARK, 0, 0, 0, 0, count, text);
}

static void note(int file, enum not_held what, const char *call) {
    if (is_apart()) return;
    enter();
    put_not_held(file, what, call, file < 0 ? "" : names[files[file].name].text);
    leave();
}

/* ---- The lock of all processes. One that is stopped while it has it isn't waited for: then the trace is refused. */

static int is_stopped(pid_t holder) {
    char path[64], text[512] = "";
    snprintf(path, sizeof path, "/proc/%d/stat", holder);
    int from = next_syscall(SYS_openat, AT_FDCWD, path, O_RDONLY | O_CLOEXEC);
    if (from < 0) return 0;
    ssize_t count = read(from, text, sizeof text - 1);
    next_syscall(SYS_close, from);
    const char *state = count > 0 ? strrchr(text, ')') : NULL;
    return state && (state[2] == 'T' || state[2] == 't');
}

static int set_lock(int how, int command, pid_t *holder) {
    struct flock all = { .l_type = how, .l_whence = SEEK_SET };
    int answer = (int)next_syscall(SYS_fcntl, trace, command, &all);
    if (holder) *holder = all.l_type == F_UNLCK ? 0 : all.l_pid;
    return answer;
}

static void lock_trace(void) {
    struct timespec pause = { 0, 20000 };
    long waited = 0;
    while (trace >= 0 && !is_unlocked && set_lock(F_WRLCK, F_SETLK, NULL) != 0) {
        pid_t holder = 0;
        if (errno != EAGAIN && errno != EACCES && errno != EINTR) no_trace("the trace can't be locked");
        nanosleep(&pause, NULL);
        waited += pause.tv_nsec;
        if (pause.tv_nsec < 5000000) pause.tv_nsec *= 2;
        if (waited < 200000000) continue;
        waited = 0;
        if (set_lock(F_WRLCK, F_GETLK, &holder) == 0 && holder > 0 && is_stopped(holder)) is_unlocked = 1;
    }
}

static void begin(void);

static void open_trace(void) {
    int opened = next_syscall(SYS_openat, AT_FDCWD, to, O_RDWR | O_CREAT | O_APPEND | O_CLOEXEC, 0644);
    if (opened < 0) no_trace("the trace can't be opened");
    trace = next_syscall(SYS_fcntl, opened, F_DUPFD_CLOEXEC, FIRST_DESCRIPTOR); /* out of the program's way */
    if (trace < 0) trace = opened;
    else next_syscall(SYS_close, opened);
    if (!identify(trace, "", &trace_is)) no_trace("the trace can't be read");
}

static void enter(void) {
    int kept = errno, was_unlocked;
    pthread_mutex_lock(&lock);
    if (depth++ == 0) {
        struct identity is;
        if (!ready) begin();
        if (trace >= 0 && (!identify(trace, "", &is) || !is_same(&is, &trace_is))) open_trace(); /* it was closed */
        was_unlocked = is_unlocked;
        lock_trace();
        if (trace >= 0) catch_up();
        if (is_unlocked && !was_unlocked) put_not_held(NONE, STOPPED, "lock", "");
    }
    errno = kept;
}

static void leave(void) {
    int kept = errno;
    if (--depth == 0 && trace >= 0 && !is_unlocked) set_lock(F_UNLCK, F_SETLK, NULL);
    pthread_mutex_unlock(&lock);
    errno = kept;
}

/* ---- Names. */

static int lists(const char *all, const char *name, size_t length) { /* names that a slash parts */
    for (const char *at = all; at && *at; at += *at == '/') {
        size_t here = strcspn(at, "/");
        if (here == length && !memcmp(at, name, length)) return 1;
        at += here;
    }
    return 0;
}

static int is_recorded(const char *name, size_t length) {
    return only ? lists(only, name, length) : !lists(but, name, length);
}

static int is_apart(void) {
    if (!ready) enter(), leave();
    return trace < 0 || has_ended || next_syscall(SYS_getpid) != process;
}

static int number_of(const char *name) { /* under the lock */
    for (unsigned at = hash_of(name); name_room && table[at % (2 * name_room)]; at++) {
        int number = table[at % (2 * name_room)] - 1;
        if (!strcmp(names[number].text, name)) return number;
    }
    put(NAME, 0, name_count, 0, 0, strlen(name), name);
    return name_count - 1;
}

/* What of a path lies below the folder: NULL if it lies elsewhere. */
static const char *below(const char *path) {
    struct identity is;
    char part[PATH_ROOM];
    size_t length = strlen(path);
    if (length >= sizeof part || *path != '/') return NULL;
    memcpy(part, path, length + 1);
    while (length > 0) {
        while (length > 0 && part[length - 1] != '/') length--;
        part[length] = 0;
        if (length > 0 && identify(AT_FDCWD, part, &is) && is_same(&is, &folder_is)) return path + length;
        if (length > 0) part[--length] = 0;
    }
    return NULL;
}

/* Whether a call on this path below the folder has to be refused: it lies in a folder there whose name counts. */
static int is_refused_below(const char *path) {
    const char *end = strchr(path, '/');
    return end && is_recorded(path, (size_t)(end - path));
}

/* The last part of a path to a recorded name of the folder; NULL if it leads elsewhere. What lies below a folder there
   is refused. */
static const char *part_of(int at, const char *path, const char *call) {
    struct identity above;
    char whole[PATH_ROOM * 2];
    int kept = errno;
    if (is_apart()) return NULL;
    const char *last = last_of(at, path, &above);
    errno = kept;
    if (!last) return NULL;
    if (is_same(&above, &folder_is)) {
        return strlen(last) < NAME_ROOM && is_recorded(last, strlen(last)) ? last : NULL;
    }
    snprintf(whole, sizeof whole, "%.*s", (int)(last - path), path);
    int parent = next_syscall(SYS_openat, at, *whole ? whole : ".", O_PATH | O_CLOEXEC | O_DIRECTORY);
    if (parent >= 0) {
        path_of(parent, whole);
        next_syscall(SYS_close, parent);
        snprintf(whole + strlen(whole), PATH_ROOM, "/%.*s", NAME_ROOM, last);
        const char *rest = below(whole);
        if (rest && is_refused_below(rest)) enter(), put_not_held(NONE, BELOW, call, rest), leave();
    }
    errno = kept;
    return NULL;
}

static int is_number(const char *text) { /* as the kernel names a file that never had a name: #N */
    return *text == '#' && text[1] && strspn(text + 1, "0123456789") == strlen(text + 1);
}

/* The file of a descriptor that wasn't asked about yet, by the path that the kernel has of it. */
static int found(int descriptor, const struct identity *is, const char *call) {
    char path[PATH_ROOM];
    struct identity there;
    int was_removed = path_of(descriptor, path), file = NONE;
    const char *rest = below(path);
    if (!rest && is->links > 1) { /* another name of one of the files */
        enter();
        for (int i = 0; i < name_count && !rest; i++) {
            snprintf(path, sizeof path, "%s/%s", folder, names[i].text);
            if (identify(AT_FDCWD, path, &there) && is_same(&there, is)) rest = path + strlen(folder) + 1;
        }
        leave();
    }
    if (!rest || !is_recorded(rest, strcspn(rest, "/")) || (was_removed && is_number(rest))) return NONE;
    enter();
    if (strchr(rest, '/')) put_not_held(NONE, BELOW, call, rest);
    else {
        int name = was_removed ? NONE : number_of(rest);
        file = name < 0 ? NONE : names[name].file;
        if (file < 0) put_not_held(NONE, MADE, call, rest);
    }
    leave();
    return file;
}

static int held_by(int descriptor, const char *call) {
    struct identity is;
    int kept = errno, file = NONE;
    if (is_apart() || !identify(descriptor, "", &is)) return errno = kept, NONE;
    if (is_same(&is, &marks_are)) file = MARKS;
    else if (S_ISDIR(is.mode)) file = is_same(&is, &folder_is) ? FOLDER : NONE;
    else if (S_ISREG(is.mode) && !is_same(&is, &trace_is) && !recall(&is, &file)) {
        file = found(descriptor, &is, call);
        remember(&is, file);
    }
    errno = kept;
    return file;
}

/* ---- The files as they lie there when recording begins and when it ends. */

static char *bytes_of(const char *name, size_t *count, struct stat *state) {
    char path[PATH_ROOM + NAME_ROOM];
    ssize_t more;
    snprintf(path, sizeof path, "%s/%s", folder, name);
    memset(state, 0, sizeof *state);
    next_syscall(SYS_newfstatat, AT_FDCWD, path, state, AT_SYMLINK_NOFOLLOW);
    int from = S_ISREG(state->st_mode) ? next_syscall(SYS_openat, AT_FDCWD, path, O_RDONLY | O_CLOEXEC | O_NOFOLLOW)
                                       : -1;
    if (from < 0) return NULL;
    char *bytes = malloc(state->st_size + 1);
    *count = 0;
    while (bytes && (more = read(from, bytes + *count, state->st_size - *count)) > 0) *count += more;
    next_syscall(SYS_close, from);
    return bytes;
}

static void put_begin(const char *name) {
    size_t count;
    struct stat state;
    char *bytes = bytes_of(name, &count, &state);
    if (bytes) {
        struct identity is;
        char path[PATH_ROOM + NAME_ROOM];
        int file = file_count, other = NONE;
        put(BASE, file_count, number_of(name), 0, 0, count, bytes);
        snprintf(path, sizeof path, "%s/%s", folder, name);
        if (identify(AT_FDCWD, path, &is) && recall(&is, &other) && is.links > 1) {
            put_not_held(file, LINK, "two names of a file:", name);
        }
        remember(&is, file);
    } else if (S_ISLNK(state.st_mode)) put_not_held(NONE, LINK, "symbolic link", name);
    else if (S_ISREG(state.st_mode)) put_not_held(NONE, UNSEEN, "a file that can't be read:", name);
    free(bytes);
}

static void put_end(int name) {
    size_t count = 0;
    struct stat state;
    uint64_t sum = 0;
    char *bytes = bytes_of(names[name].text, &count, &state);
    for (size_t j = 0; bytes && j < count; j++) sum = sum * 1099511628211u + (uint8_t)bytes[j];
    put(END, 0, name, sum, bytes != NULL, bytes ? count : 0, NULL);
    free(bytes);
}

/* How many lines the marks' file has behind the place at which recording began. */
static uint64_t lines_of_marks(void) {
    const char *from = getenv("SQCRASH_MARKS_AT");
    char bytes[4096];
    struct identity is;
    off64_t at = from ? atoll(from) : 0;
    uint64_t lines = 0;
    ssize_t count;
    if (!marks || !identify(AT_FDCWD, marks, &is) || !S_ISREG(is.mode)) return 0;
    int opened = next_syscall(SYS_openat, AT_FDCWD, marks, O_RDONLY | O_CLOEXEC);
    if (is.size < at) at = 0;
    while (opened >= 0 && (count = pread64(opened, bytes, sizeof bytes, at)) > 0) {
        at += count;
        for (ssize_t i = 0; i < count; i++) lines += bytes[i] == '\n';
    }
    if (opened >= 0) next_syscall(SYS_close, opened);
    return lines;
}

static void put_all(int is_end) {
    struct dirent *entry;
    DIR *all = opendir(folder);
    while (all && (entry = readdir(all))) {
        const char *name = entry->d_name;
        if (!strcmp(name, ".") || !strcmp(name, "..") || !is_recorded(name, strlen(name))) continue;
        if (!is_end) put_begin(name);
        else if (entry->d_type == DT_REG) number_of(name);
    }
    if (all) closedir(all);
    else put_not_held(NONE, UNSEEN, "the folder is gone:", folder);
    if (is_end && lines_of_marks() > mark_count) put_not_held(NONE, UNSEEN, "a mark", marks);
    if (is_end && name_count == 0) number_of("none"); /* so that a trace always ends with an end */
    for (int i = 0, count = name_count; is_end && i < count; i++) put_end(i);
}

/* ---- The beginning. */

static void begin(void) {
    const char *ends = getenv("SQCRASH_END");
    ready = 1;
    find_calls();
    process = next_syscall(SYS_getpid);
    to = getenv("SQCRASH_TRACE"), marks = getenv("SQCRASH_MARKS");
    folder = getenv("SQCRASH_FOLDER"), only = getenv("SQCRASH_ONLY"), but = getenv("SQCRASH_BUT");
    if (!folder || !to || strlen(folder) >= PATH_ROOM || !identify(AT_FDCWD, folder, &folder_is)) return;
    device = folder_is.device;
    if (marks) identify(AT_FDCWD, marks, &marks_are);
    pthread_atfork(before_fork, parent_forked, child_forked);
    open_trace();
    lock_trace();
    is_at_end = ends != NULL;
    int is_new = trace_is.size == 0;
    if (is_new && next_write(trace, "SQCRTR2\n", 8) != 8) no_trace("the trace can't be written");
    seen = 8;
    catch_up();
    if (is_new) put_all(0);
    if (is_new && getenv("SQCRASH_COMMAND") && can_not_load(getenv("SQCRASH_COMMAND"))) {
        put_not_held(NONE, STATIC, "exec", getenv("SQCRASH_COMMAND"));
    }
    if (ends) put_all(1);
    if (ends && refusals > 1) fprintf(stderr, "record-files: and %llu calls more\n", (unsigned long long)refusals - 1);
    if (ends) trace = -1;
}

__attribute__((constructor)) static void start(void) {
    enter();
    leave();
}

/* ---- Opening. */

static int is_marks(int at, const char *path) {
    struct identity is;
    if (!marks || is_apart()) return 0;
    return !strcmp(path, marks) || (identify(at, path, &is) && is_same(&is, &marks_are));
}

static int is_link(int at, const char *path) {
    struct stat state;
    return fstatat(at, path, &state, AT_SYMLINK_NOFOLLOW) == 0 && S_ISLNK(state.st_mode);
}

/* A call that may make a file under this recorded name, or cut it. */
static int open_part(int at, const char *path, int flags, mode_t mode, const char *part) {
    struct identity was, is;
    enter();
    int there = identify(at, path, &was), links = is_link(at, path);
    int opened = next_openat64(at, path, flags, mode), kept = errno;
    if (opened >= 0 && links) put_not_held(NONE, LINK, "open", part);
    else if (opened >= 0 && identify(opened, "", &is) && S_ISREG(is.mode)) {
        int name = number_of(part);
        if (!there) put(MAKE, file_count, name, 0, 0, 0, NULL);
        else if (names[name].file < 0) put_not_held(NONE, MADE, "open", part);
        else if ((flags & O_TRUNC) && was.size > 0) put(CUT, names[name].file, name, 0, 0, 0, NULL);
        remember(&is, names[name].file);
    }
    errno = kept;
    leave();
    return opened;
}

static int open_one(int at, const char *path, int flags, mode_t mode) {
    if (!next_openat64) start();
    if (!(flags & (O_CREAT | O_TRUNC)) || !path) return next_openat64(at, path, flags, mode);
    const char *part = part_of(at, path, "open");
    if (part) return open_part(at, path, flags, mode, part);
    int is_to_marks = is_marks(at, path), opened = next_openat64(at, path, flags, mode), kept = errno;
    if (opened >= 0 && is_to_marks) identify(opened, "", &marks_are);
    else if (opened >= 0) {
        int file = held_by(opened, "open");
        if (file >= 0) note(file, LINK, "open");
    }
    errno = kept;
    return opened;
}

/* A file of its own name, as mkstemp makes it. */
static int made_as(const char *path, int opened, const char *call) {
    int kept = errno;
    const char *part = opened >= 0 ? part_of(AT_FDCWD, path, call) : NULL;
    struct identity is;
    if (part && identify(opened, "", &is)) {
        enter();
        int name = number_of(part);
        put(MAKE, file_count, name, 0, 0, 0, NULL);
        remember(&is, names[name].file);
        leave();
    }
    errno = kept;
    return opened;
}

#define MKSTEMP(call, rest, ...)                                                   \
    int call(char *path __VA_ARGS__) {                                             \
        int (*next)(char * __VA_ARGS__) = (__typeof__(next))dlsym(RTLD_NEXT, #call); \
        return made_as(path, next rest, #call);                                    \
    }
MKSTEMP(mkstemp, (path))
MKSTEMP(mkstemp64, (path))
MKSTEMP(mkostemp, (path, flags), , int flags)
MKSTEMP(mkostemp64, (path, flags), , int flags)
MKSTEMP(mkstemps, (path, behind), , int behind)
MKSTEMP(mkstemps64, (path, behind), , int behind)
MKSTEMP(mkostemps, (path, behind, flags), , int behind, int flags)
MKSTEMP(mkostemps64, (path, behind, flags), , int behind, int flags)

int close(int descriptor) {
    if (!next_close) start();
    if (descriptor == trace && trace >= 0) return errno = EBADF, -1;
    return next_close(descriptor);
}

/* ---- Marks. */

/* A thread that says commit twice has written something between, or somebody has. */
static void put_mark(const char *line, size_t length) {
    char number[32];
    put(MARK, 0, 0, 0, 0, length, line);
    int commits = length >= 6 && !memcmp(line, "commit", 6) && (length == 6 || line[6] == ' ');
    if (commits && changes_then == changes + 1 && refusals == 0) {
        snprintf(number, sizeof number, "%llu", (unsigned long long)mark_count);
        put_not_held(NONE, UNWRITTEN, "commit, at mark", number);
    }
    changes_then = changes + 1;
}

static void put_marks(const char *lines, size_t count) {
    while (count > 0) {
        const char *end = memchr(lines, '\n', count);
        size_t line = end ? (size_t)(end - lines) : count;
        if (line > 0) put_mark(lines, line);
        line += end != NULL;
        lines += line;
        count -= line;
    }
}

/* ---- Writing, cutting, syncing. */

/* A write, also one that returns when it is durable: that of a file with others that aren't can't be held. */
static void put_written(int file, int synced, off64_t place, ssize_t done, const char *bytes) {
    int was_dirty = files[file].is_dirty;
    put(WRITE, file, 0, done, place, (size_t)done, bytes);
    if (synced && was_dirty) put_not_held(file, SYNCED_WRITE, "write", names[files[file].name].text);
    else if (synced) put(SYNC, file, 0, 0, 1, 0, NULL);
}

/* What a call left in the file is recorded as a write, since its bytes weren't the program's. */
static void put_back(int file, int descriptor, off64_t place, ssize_t done, const char *call) {
    char *bytes = read_back(descriptor, place, (size_t)done);
    if (bytes) put(WRITE, file, 0, done, place, (size_t)done, bytes);
    else put_not_held(file, UNSEEN, call, names[files[file].name].text);
    free(bytes);
}

static size_t length_of(const struct iovec *parts, int count) {
    size_t all = 0;
    for (int i = 0; i < count; i++) all += parts[i].iov_len;
    return all;
}

/* A write that failed may be there in part, and may have made the file longer. */
static void put_failed(int file, int descriptor, off64_t place, const struct iovec *parts, int count, off64_t was) {
    int error = errno;
    struct identity is;
    size_t all = error == EFAULT || count < 0 || count > 1024 ? 0 : length_of(parts, count);
    char *bytes = all > 0 ? copy_in(parts, count, all) : NULL;
    if (bytes) put(WRITE, file, 0, -(int64_t)error, place, all, bytes);
    free(bytes);
    if (identify(descriptor, "", &is) && is.size > was) {
        put(CUT, file, 0, 0, is.size, 0, NULL);
        put_back(file, descriptor, was, is.size - was, "write");
    }
    errno = error;
}

enum place { OWN, GIVEN, FLAGGED };

static ssize_t write_next(int descriptor, const struct iovec *parts, int count, enum place how, off64_t place,
                          int flags) {
    if (how == FLAGGED) return next_pwritev64v2(descriptor, parts, count, place, flags);
    return how == GIVEN ? next_pwritev64(descriptor, parts, count, place) : next_writev(descriptor, parts, count);
}

/* The call is made as it is, so that it fails as it would alone; its bytes are read once it took them. */
static ssize_t write_parts(int descriptor, const struct iovec *parts, int count, enum place how, off64_t place,
                           int flags) {
    if (!next_write) start();
    int file = held_by(descriptor, "write");
    if (file == NONE || file == FOLDER) return write_next(descriptor, parts, count, how, place, flags);
    enter();
    struct identity is = { 0 };
    int opened = file < 0 ? 0 : (int)next_syscall(SYS_fcntl, descriptor, F_GETFL, 0L);
    if (file >= 0) identify(descriptor, "", &is);
    off64_t at = (opened & O_APPEND) || (flags & RWF_APPEND) ? is.size
        : how == OWN || (how == FLAGGED && place == -1) ? lseek64(descriptor, 0, SEEK_CUR) : place;
    ssize_t done = write_next(descriptor, parts, count, how, place, flags);
    int error = errno, synced = (flags & (RWF_DSYNC | RWF_SYNC)) || (opened & O_DSYNC);
    char *bytes = done > 0 ? copy_in(parts, count, (size_t)done) : NULL;
    if (done > 0 && file == MARKS) put_marks(bytes ? bytes : "?", bytes ? (size_t)done : 1);
    else if (done > 0 && bytes) put_written(file, synced, at, done, bytes);
    else if (done > 0) put_back(file, descriptor, at, done, "write");
    errno = error;
    if (done < 0 && file >= 0) put_failed(file, descriptor, at, parts, count, is.size);
    free(bytes);
    errno = error;
    leave();
    return done;
}

ssize_t write(int descriptor, const void *bytes, size_t count) {
    struct iovec part = { (void *)bytes, count };
    if (!next_write) start();
    if (held_by(descriptor, "write") == NONE) return next_write(descriptor, bytes, count);
    return write_parts(descriptor, &part, 1, OWN, 0, 0);
}
ssize_t pwrite64(int descriptor, const void *bytes, size_t count, off64_t place) {
    struct iovec part = { (void *)bytes, count };
    if (!next_write) start();
    if (held_by(descriptor, "pwrite") == NONE) return next_pwrite64(descriptor, bytes, count, place);
    return write_parts(descriptor, &part, 1, GIVEN, place, 0);
}
ssize_t pwrite(int descriptor, const void *bytes, size_t count, off_t place) {
    return pwrite64(descriptor, bytes, count, place);
}
ssize_t writev(int descriptor, const struct iovec *parts, int count) {
    return write_parts(descriptor, parts, count, OWN, 0, 0);
}
ssize_t pwritev64(int descriptor, const struct iovec *parts, int count, off64_t place) {
    return write_parts(descriptor, parts, count, GIVEN, place, 0);
}
ssize_t pwritev(int descriptor, const struct iovec *parts, int count, off_t place) {
    return pwritev64(descriptor, parts, count, place);
}
/* Its flags may say that it goes to the end, or returns when it is durable; place -1 is the descriptor's own. */
ssize_t pwritev64v2(int descriptor, const struct iovec *parts, int count, off64_t place, int flags) {
    return write_parts(descriptor, parts, count, FLAGGED, place, flags);
}
ssize_t pwritev2(int descriptor, const struct iovec *parts, int count, off_t place, int flags) {
    return pwritev64v2(descriptor, parts, count, place, flags);
}

int ftruncate64(int descriptor, off64_t length) {
    if (!next_ftruncate64) start();
    int file = held_by(descriptor, "ftruncate");
    if (file < 0) return next_ftruncate64(descriptor, length);
    enter();
    int answer = next_ftruncate64(descriptor, length);
    put(CUT, file, 0, told(answer), length, 0, NULL);
    leave();
    return answer;
}
int ftruncate(int descriptor, off_t length) { return ftruncate64(descriptor, length); }

int truncate64(const char *path, off64_t length) {
    if (!next_truncate64) start();
    int opened = next_syscall(SYS_openat, AT_FDCWD, path, O_WRONLY | O_CLOEXEC | O_NONBLOCK);
    int file = opened >= 0 ? held_by(opened, "truncate") : NONE;
    if (opened >= 0) next_syscall(SYS_close, opened);
    if (file < 0) return next_truncate64(path, length);
    enter();
    int answer = next_truncate64(path, length);
    put(CUT, file, 0, told(answer), length, 0, NULL);
    leave();
    return answer;
}
int truncate(const char *path, off_t length) { return truncate64(path, length); }

static int sync_one(int descriptor, int data_alone) {
    if (!next_fsync) start();
    int file = held_by(descriptor, "fsync");
    if (file == NONE || file == MARKS) return data_alone ? next_fdatasync(descriptor) : next_fsync(descriptor);
    enter();
    int answer = data_alone ? next_fdatasync(descriptor) : next_fsync(descriptor);
    if (file >= 0) put(SYNC, file, 0, told(answer), data_alone, 0, NULL);
    else put(FOLDER_SYNC, 0, 0, told(answer), data_alone, 0, NULL);
    leave();
    return answer;
}

static void sync_all(void) {
    if (is_apart()) return;
    for (int i = 0; i < file_count; i++) if (files[i].is_dirty) put(SYNC, i, 0, 0, 0, 0, NULL);
    put(FOLDER_SYNC, 0, 0, 0, 0, 0, NULL);
}

#include "names.h"
