/* Calls the C library by path in a process that has locks on the files, as SQLite has them.

   oneproc old COMMAND..       runs a command without close_range(2), as on Linux before 5.9
   oneproc keeps FILE ROOM     the process's locks outlive each call, and nothing else is left
   oneproc hostile FILE ROOM   threads that are cancelled, signals, closed streams, no descriptor left, forked children
   oneproc odd FILE ROOM       10,000 descriptors, other users, no thread, too many descriptors in flight, a new
                               namespace, SIGTERM, a file that is replaced, cut or lengthened; what the system doesn't
                               allow here, such as another user, is told as skipped
   oneproc pipe FILE ROOM      the first call of a process doesn't keep its descriptors open
   oneproc two FILE ROOM A B   two versions of the library, A and B, in one process
   oneproc alone FILE ROOM     where there is no task: a process of one thread, and one that has FILE open
   oneproc unparked FILE ROOM  where no pair of sockets may be created: nothing is held open, all else is done
   oneproc size FILE ROOM      calls by path, and prints how many KiB they took at most, but for mapped files

   The last line of all but `old` and `size` is 'N passed, M failed'. */
#define _GNU_SOURCE
#include "frame.h"

#include <dirent.h>
#include <dlfcn.h>
#include <errno.h>
#include <fcntl.h>
#include <linux/filter.h>
#include <linux/seccomp.h>
#include <pthread.h>
#include <sched.h>
#include <signal.h>
#include <stddef.h>
#include <sys/fsuid.h>
#include <sys/prctl.h>
#include <sys/resource.h>
#include <sys/stat.h>
#include <sys/syscall.h>
#include <sys/time.h>
#include <sys/wait.h>
#include <time.h>
#include <unistd.h>

#define LOCKED 5           /* SQLite doesn't lock this byte, and the library doesn't either */
#define SHARED 1073741826L /* the first of those that SQLite's readers lock */

static const char *const ends[] = {"", "-wal", "-journal", "-shm"};
static int children, alarms;

/* ---- a filter */

static int without_close_range(char **words) {
    struct sock_filter rules[] = {
        BPF_STMT(BPF_LD | BPF_W | BPF_ABS, offsetof(struct seccomp_data, nr)),
        BPF_JUMP(BPF_JMP | BPF_JEQ | BPF_K, SYS_close_range, 0, 1),
        BPF_STMT(BPF_RET | BPF_K, SECCOMP_RET_ERRNO | ENOSYS),
        BPF_STMT(BPF_RET | BPF_K, SECCOMP_RET_ALLOW),
    };
    struct sock_fprog all = {sizeof rules / sizeof *rules, rules};
    if (prctl(PR_SET_NO_NEW_PRIVS, 1, 0, 0, 0) || prctl(PR_SET_SECCOMP, SECCOMP_MODE_FILTER, &all)) return 2;
    execvp(words[0], words);
    return 2;
}

/* ---- what a process has */

static int entries_of(const char *folder) {
    int count = -2;
    DIR *all = opendir(folder);
    if (!all) return -1;
    while (readdir(all)) count++;
    closedir(all);
    return count;
}

static int descriptors(void) { return entries_of("/proc/self/fd"); }

/* A thread ends a moment after pthread_join has returned. */
static int threads(int wanted) {
    for (int i = 0; i < 1000 && entries_of("/proc/self/task") > wanted; i++) usleep(200);
    return entries_of("/proc/self/task");
}

static void at_signal(int which) { which == SIGCHLD ? children++ : alarms++; }

static struct flock on(off_t at, short kind) {
    return (struct flock){.l_type = kind, .l_whence = SEEK_SET, .l_start = at, .l_len = 1};
}

static int ended(pid_t child) {
    int status = -1;
    while (waitpid(child, &status, 0) < 0 && errno == EINTR) {}
    return WIFEXITED(status) ? WEXITSTATUS(status) : 99;
}

/* Whether another process is kept from a byte of a file. */
static int is_kept(const char *path, off_t at) {
    pid_t child = fork();
    if (!child) {
        struct flock lock = on(at, F_WRLCK);
        int file = open(path, O_RDWR);
        _exit(file < 0 || fcntl(file, F_GETLK, &lock) ? 99 : lock.l_type != F_UNLCK);
    }
    return ended(child) == 1;
}

/* ---- the calls */

static char out[4200];

static void names_at(const char *room) { snprintf(out, sizeof out, "%s.out", room); }

static uint32_t opened(const char *file, uint32_t flags) {
    struct sqr_path *path = NULL;
    struct sqr_report report;
    uint32_t status = sqr_open_path(file, flags, NULL, &path);
    if (!status) {
        memset(&report, 0, sizeof report);
        check(sqr_check(sqr_path_files(path), &report) == SQR_OK, "a sound view");
    }
    sqr_close_path(&path);
    return status;
}

static uint32_t copied(const char *file) {
    unlink(out);
    return sqr_recover_to(file, out, 0, NULL, NULL);
}

static uint32_t recovered(const char *file) {
    struct sqr_options options = SQR_OPTIONS_INIT;
    options.wait = 3;
    return sqr_recover(file, 0, &options, NULL);
}

static void each_call(const char *file, int is_in_use) {
    char nowhere[4200];
    snprintf(nowhere, sizeof nowhere, "%s.nowhere/at/all", file);
    check(opened(file, 0) == SQR_OK, "a path is opened");
    check(opened(file, SQR_FILES_ONLY) == SQR_OK, "its files are opened");
    check(opened(file, SQR_NO_LOCK) == SQR_OK, "a path is opened without locks");
    check(copied(file) == SQR_OK && !access(out, F_OK), "a copy is made");
    check(sqr_recover_to(file, out, 0, NULL, NULL) == SQR_ALREADY_THERE, "a copy that is there");
    check(opened(out, 0) == SQR_OK, "the copy is sound");
    check(recovered(file) == (is_in_use ? SQR_IN_USE : SQR_OK), "a recovery");
    check(opened(nowhere, 0) == SQR_NOT_THERE && errno == ENOENT, "no file, and errno");
}

/* Locks a byte of every file, as SQLite locks others: their descriptors, and -1 for a file that isn't there. */
static void lock_all(const char *file, int *locked) {
    char name[4200];
    for (int i = 0; i < 4; i++) {
        struct flock own = on(LOCKED, F_WRLCK);
        snprintf(name, sizeof name, "%s%s", file, ends[i]);
        locked[i] = open(name, O_RDWR);
        if (locked[i] >= 0) check(!fcntl(locked[i], F_SETLK, &own), "a lock of the process's own");
    }
}

static void are_locked(const char *file, const int *locked) {
    char name[4200];
    for (int i = 0; i < 4; i++) {
        snprintf(name, sizeof name, "%s%s", file, ends[i]);
        if (locked[i] >= 0) check(is_kept(name, LOCKED), "the process's own lock is there still");
    }
}

static int keeps(const char *file) {
    int locked[4], own = entries_of("/proc/self/task");
    signal(SIGCHLD, at_signal);
    lock_all(file, locked);
    check(locked[0] >= 0 && locked[3] >= 0, "FILE and FILE-shm are there");
    each_call(file, 0);
    are_locked(file, locked);
    const int before = descriptors(), had = children;
    int late = 0;
    for (int i = 0; i < 200; i++) {
        struct flock whole = {.l_type = F_WRLCK, .l_whence = SEEK_SET, .l_start = SHARED, .l_len = 510};
        opened(file, 0);
        late += fcntl(locked[0], F_OFD_GETLK, &whole) || whole.l_type != F_UNLCK;
    }
    check(!late, "all locks are given back when a call ends");
    for (int i = 0; i < 20; i++) copied(file), recovered(file);
    check(descriptors() == before, "no descriptor is left");
    check(threads(own) == own, "no thread is left");
    check(children == had, "nobody hears of a child");
    check(waitpid(-1, NULL, WNOHANG | __WALL) < 0 && errno == ECHILD, "no child is left");
    are_locked(file, locked);
    return 0;
}

/* ---- hostile */

static const char *thread_file;

static void *again_and_again(void *nothing) {
    for (;;) {
        struct sqr_path *path = NULL;
        sqr_open_path(thread_file, 0, NULL, &path);
        sqr_close_path(&path);
        sqr_recover_to(thread_file, out, 0, NULL, NULL);
        pthread_testcancel();
    }
    return nothing;
}

static void cancelled(void) {
    const int before = descriptors(), own = entries_of("/proc/self/task");
    copied(thread_file);
    for (int i = 0; i < 200; i++) {
        pthread_t one;
        if (pthread_create(&one, NULL, again_and_again, NULL)) continue;
        usleep(50 + (unsigned)(i * 37 % 400));
        pthread_cancel(one);
        pthread_join(one, NULL);
    }
    check(descriptors() == before, "a thread that is cancelled leaves no descriptor");
    check(threads(own) == own, "and no thread");
    check(recovered(thread_file) == SQR_OK, "and no lock");
}

static void under_alarms(void) {
    const struct itimerval often = {{0, 300}, {0, 300}}, never = {{0, 0}, {0, 0}};
    int wrong = 0;
    signal(SIGALRM, at_signal);
    setitimer(ITIMER_REAL, &often, NULL);
    for (int i = 0; i < 300; i++) wrong += opened(thread_file, 0) != SQR_OK;
    setitimer(ITIMER_REAL, &never, NULL);
    check(!wrong && alarms > 5, "alarms go to the process, and stop no call");
}

static int without_streams(void) { /* in a child */
    struct sqr_path *path = NULL;
    int is_open = 0;
    close(0), close(1), close(2);
    if (copied(thread_file) || recovered(thread_file) || sqr_open_path(thread_file, 0, NULL, &path)) return 1;
    for (int fd = 0; fd < 3; fd++) is_open += fcntl(fd, F_GETFD) >= 0;
    sqr_close_path(&path);
    for (int fd = 0; fd < 3; fd++) is_open += fcntl(fd, F_GETFD) >= 0;
    return is_open != 0;
}

static int with_descriptors(int free_ones) { /* in a child: what opening answers where so many are free */
    struct sqr_path *path = NULL;
    int top = dup(0);
    struct rlimit few = {(rlim_t)(top + free_ones), 4096};
    close(top);
    errno = 0;
    if (setrlimit(RLIMIT_NOFILE, &few)) return 99;
    uint32_t status = sqr_open_path(thread_file, 0, NULL, &path);
    int is_told = errno == EMFILE;
    sqr_close_path(&path);
    return status == SQR_OK ? 0 : status == SQR_FILE_FAILED && is_told ? 1 : 2;
}

static int answered(int (*asked)(int), int with) {
    pid_t child = fork();
    if (!child) _exit(asked(with));
    return ended(child);
}

static int streams(int nothing) { return (void)nothing, without_streams(); }

/* A child that closes what it inherits keeps its parent's lock; the parent gives it back, whatever the child has. */
static void with_children(void) {
    struct sqr_path *path = NULL;
    int gate[2];
    check(sqr_open_path(thread_file, 0, NULL, &path) == SQR_OK && is_kept(thread_file, SHARED), "SHARED is held");
    pid_t child = fork();
    if (!child) {
        const struct sqr_view *view = sqr_path_view(path);
        uint8_t page[65536];
        uint32_t status = sqr_page(view, 1, page, view->page_size);
        sqr_close_path(&path);
        _exit((int)status);
    }
    check(ended(child) == 0 && is_kept(thread_file, SHARED), "a child that closes keeps its parent's lock");
    check(!pipe(gate), "a pipe");
    child = fork();
    if (!child) {
        char byte;
        close(gate[1]);
        while (read(gate[0], &byte, 1) < 0) {}
        _exit(0);
    }
    close(gate[0]);
    sqr_close_path(&path);
    check(!is_kept(thread_file, SHARED), "a child that has all of it keeps no lock");
    close(gate[1]);
    ended(child);
}

static void *makes(void *status) {
    *(uint32_t *)status = sqr_recover_to(thread_file, out, 0, NULL, NULL);
    return NULL;
}

/* Six calls for one OUT: one writes it, and the others report why they didn't. */
static void six_calls(void) {
    int made = 0, wrong = 0;
    for (int round = 0; round < 100; round++) {
        pthread_t all[6];
        uint32_t said[6] = {99, 99, 99, 99, 99, 99};
        unlink(out);
        for (int i = 0; i < 6; i++) check(!pthread_create(&all[i], NULL, makes, &said[i]), "a thread");
        for (int i = 0; i < 6; i++) pthread_join(all[i], NULL);
        for (int i = 0; i < 6; i++) {
            made += said[i] == SQR_OK;
            wrong += said[i] != SQR_OK && said[i] != SQR_ALREADY_THERE && said[i] != SQR_IN_USE;
        }
    }
    check(made == 100 && !wrong, "of six calls for one OUT one makes it, and none says anything else");
}

static int hostile(const char *file) {
    int before = descriptors();
    thread_file = file;
    cancelled();
    six_calls();
    under_alarms();
    with_children();
    check(answered(streams, 0) == 0, "closed standard streams stay closed");
    check(answered(with_descriptors, 0) == 1, "no free descriptor is told as that");
    check(answered(with_descriptors, 1) == 1, "one isn't enough");
    check(answered(with_descriptors, 8) == 0, "eight are enough");
    check(descriptors() == before, "nothing is left");
    return 0;
}

/* ---- odd processes; each of these parts runs in a child, and answers 0 if all is well, or SKIPPED */

#define SKIPPED 98
#define NOBODY 54321

static int locked_first(const char *file) { /* a descriptor of FILE with a lock, as SQLite has */
    struct flock own = on(LOCKED, F_WRLCK);
    int fd = open(file, O_RDWR);
    return fd >= 0 && !fcntl(fd, F_SETLK, &own) ? fd : -1;
}

static int is_refused(uint32_t status, uint32_t wanted, int error) { return status == wanted && errno == error; }

static int are_refused(const char *file, uint32_t wanted, int error) {
    return is_refused(opened(file, 0), wanted, error) && is_refused(copied(file), wanted, error)
        && is_refused(recovered(file), wanted, error);
}

static int are_right(const char *file) {
    return opened(file, 0) == SQR_OK && copied(file) == SQR_OK && recovered(file) == SQR_OK;
}

static int with_many_descriptors(int count) {
    const struct rlimit many = {(rlim_t)count + 100, (rlim_t)count + 100};
    if (setrlimit(RLIMIT_NOFILE, &many)) return SKIPPED;
    if (locked_first(thread_file) < 0) return 1;
    for (int i = 0; i < count; i++) if (dup(0) < 0) return 2;
    const int before = descriptors();
    for (int i = 0; i < 3; i++) if (!are_right(thread_file)) return 3;
    return descriptors() != before ? 4 : is_kept(thread_file, LOCKED) ? 0 : 5;
}

static int as_nobody(void) { return !setgid(NOBODY) && !setuid(NOBODY); }

static int without_threads(int nothing) {
    struct rlimit usual, none;
    (void)nothing;
    if (!as_nobody() || getrlimit(RLIMIT_NPROC, &usual)) return SKIPPED;
    none = (struct rlimit){0, usual.rlim_max};
    if (setrlimit(RLIMIT_NPROC, &none)) return SKIPPED;
    if (!are_right(thread_file)) return 1;
    if (locked_first(thread_file) < 0 || !are_refused(thread_file, SQR_SHARED_PROCESS, EAGAIN)) return 2;
    return !setrlimit(RLIMIT_NPROC, &usual) && is_kept(thread_file, LOCKED) ? 0 : 3;
}

/* The rights are those of the thread that calls: FILE is root's alone. */
static int by_rights(int is_of_thread) {
    if (getuid()) return SKIPPED;
    if (!are_right(thread_file) || chmod(thread_file, 0600)) return 1;
    if (is_of_thread) setfsuid(NOBODY);
    else if (!as_nobody()) return SKIPPED;
    if (!are_refused(thread_file, SQR_NOT_READABLE, EACCES)) return 2;
    if (is_of_thread) setfsuid(0);
    return is_of_thread && !are_right(thread_file) ? 3 : 0;
}

static int in_flight(int most) {
    const struct rlimit few = {(rlim_t)most, (rlim_t)most};
    struct sqr_path *all[200] = {NULL};
    uint32_t status = SQR_OK;
    int count = 0;
    if (!as_nobody() || setrlimit(RLIMIT_NOFILE, &few)) return SKIPPED;
    while (count < 199 && !(status = sqr_open_path(thread_file, SQR_FILES_ONLY, NULL, &all[count]))) count++;
    if (count < most / 2 || !is_refused(status, SQR_FILE_FAILED, ETOOMANYREFS) || all[count]) return 1;
    if (copied(thread_file)) return 2; /* it parks nothing */
    sqr_close_path(&all[0]);
    if (opened(thread_file, 0)) return 3;
    while (count) sqr_close_path(&all[--count]);
    return is_kept(thread_file, SHARED);
}

static int in_new_namespace(int nothing) {
    (void)nothing;
    if (locked_first(thread_file) < 0) return 1;
    if (unshare(CLONE_NEWPID)) return SKIPPED;
    if (!are_refused(thread_file, SQR_SHARED_PROCESS, EINVAL)) return 2; /* no thread may be made, and no process is */
    pid_t child = fork();
    if (!child) _exit(getpid() == 1 && are_refused(thread_file, SQR_SHARED_PROCESS, EINVAL) ? 3 : 0);
    return ended(child);
}

/* SIGTERM ends a process at once while it waits for a lock. */
static int while_waiting(int is_recovery) {
    struct flock pending = {.l_type = F_WRLCK, .l_whence = SEEK_SET, .l_start = 1073741824, .l_len = 1};
    struct timespec begun, over;
    int file = open(thread_file, O_RDWR), status = 0;
    if (file < 0 || fcntl(file, F_OFD_SETLK, &pending)) return 1;
    pid_t child = fork();
    if (!child) {
        struct sqr_options options = SQR_OPTIONS_INIT;
        struct sqr_path *path = NULL;
        options.wait = 20000;
        _exit(is_recovery ? (int)sqr_recover(thread_file, 0, &options, NULL)
                          : (int)sqr_open_path(thread_file, 0, &options, &path));
    }
    usleep(100000);
    clock_gettime(CLOCK_MONOTONIC, &begun);
    kill(child, SIGTERM);
    while (waitpid(child, &status, 0) < 0 && errno == EINTR) {}
    clock_gettime(CLOCK_MONOTONIC, &over);
    return WIFSIGNALED(status) && WTERMSIG(status) == SIGTERM && over.tv_sec - begun.tv_sec < 5 ? 0 : 2;
}

enum change { REPLACED, CUT, LENGTHENED };

static int changed(enum change how) { /* FILE, by a program without locks */
    static const char more[8192] = {1};
    if (how == REPLACED) return rename(out, thread_file);
    if (how == CUT) return truncate(thread_file, 0);
    int file = open(thread_file, O_WRONLY | O_APPEND);
    return file < 0 || write(file, more, sizeof more) != sizeof more || close(file);
}

/* What is open stays as it was: FILE is replaced by another, or a database in WAL mode that nobody has open is cut, or
   FILE gets more bytes at its end, which the log's size doesn't count. */
static int while_open(int how) {
    const int is_cut = how == CUT;
    char index[4200];
    uint8_t before[65536], after[65536];
    struct sqr_path *path = NULL;
    snprintf(index, sizeof index, "%s-shm", thread_file);
    if (copied(thread_file) || (is_cut && recovered(thread_file))) return 1;
    if (is_cut && (unlink(index) || truncate(thread_file, 32 << 20))) return 2;
    if (sqr_open_path(thread_file, SQR_FILES_ONLY, NULL, &path)) return 3;
    const struct sqr_files *files = sqr_path_files(path);
    const size_t len = files->db_len, last = len - 512;
    memcpy(before, files->db, 512), memcpy(before + 512, files->db + last, 512);
    if (changed((enum change)how)) return 4;
    memcpy(after, files->db, 512), memcpy(after + 512, files->db + last, 512);
    const int is_as_long = files->db_len == len;
    sqr_close_path(&path);
    if (memcmp(before, after, 1024) || !is_as_long) return 5;
    return opened(thread_file, 0) == (is_cut ? SQR_NOT_A_DATABASE : SQR_OK) ? 0 : 6;
}

static void is_well(int (*asked)(int), int with, const char *what) {
    const int answer = answered(asked, with);
    if (answer == SKIPPED) {
        printf("skipped: %s: the system or this user doesn't allow it here\n", what);
        return;
    }
    if (answer) fprintf(stderr, "%s: %d\n", what, answer);
    check(answer == 0, what);
}

static void for_all(const char *file) { /* every user may read and write it */
    char name[4200];
    for (int i = 0; i < 4; i++) {
        snprintf(name, sizeof name, "%s%s", file, ends[i]);
        if (chmod(name, 0666) && errno != ENOENT) check(0, "the modes of FILE");
    }
}

static int odd(const char *file) {
    thread_file = file;
    for_all(file);
    is_well(with_many_descriptors, 10000, "10,000 descriptors");
    is_well(without_threads, 0, "no thread may be made");
    is_well(in_flight, 60, "too many descriptors in flight");
    is_well(in_new_namespace, 0, "a new namespace of processes");
    is_well(while_waiting, 0, "SIGTERM while a path is to be opened");
    is_well(while_waiting, 1, "SIGTERM while one is to be recovered");
    is_well(by_rights, 1, "a thread's rights");
    is_well(by_rights, 0, "a process that has given up its rights");
    for_all(file);
    is_well(while_open, LENGTHENED, "a file that is lengthened");
    is_well(while_open, REPLACED, "a file that is replaced");
    is_well(while_open, CUT, "a file that is cut");
    return 0;
}

/* ---- what a task copies */

struct large {
    char from[4300];
    int is_over;
};

/* A database of 256 MiB whose pages are holes, but the first. */
static int make_large(const char *name) {
    static const uint8_t header[32] = "SQLite format 3\0\x10\0\1\1\0\x40\x20\x20\0\0\0\0\0\1\0";
    int file = open(name, O_RDWR | O_CREAT | O_TRUNC, 0600);
    if (file < 0) return 1;
    return write(file, header, sizeof header) != sizeof header || ftruncate(file, 256 << 20) || close(file);
}

static void *copies_large(void *with) {
    struct large *it = with;
    check(sqr_recover_to(it->from, out, SQR_AT, NULL, NULL) == SQR_OK, "a copy of a large file");
    __atomic_store_n(&it->is_over, 1, __ATOMIC_SEQ_CST);
    return NULL;
}

/* Who reads a pipe sees its end at once if its writer closes it while a call runs, which had copied all descriptors. */
static int pipe_ends(void) {
    static struct large it;
    char part[4300], byte;
    int ends_of[2], is_seen = 0;
    pthread_t other;
    snprintf(it.from, sizeof it.from, "%s.large", out);
    snprintf(part, sizeof part, "%s.sqrescue-part", out);
    unlink(out);
    check(!make_large(it.from) && !pipe2(ends_of, O_NONBLOCK), "a large file, and a pipe");
    if (pthread_create(&other, NULL, copies_large, &it)) return check(0, "a thread"), 0;
    while (access(part, F_OK) && !__atomic_load_n(&it.is_over, __ATOMIC_SEQ_CST)) usleep(50);
    close(ends_of[1]);
    while (!is_seen && !access(part, F_OK)) is_seen = read(ends_of[0], &byte, 1) == 0 && !access(part, F_OK);
    pthread_join(other, NULL);
    check(is_seen, "a pipe ends while a call runs");
    unlink(it.from);
    return 0;
}

/* ---- two versions */

struct version {
    void *at;
    uint32_t (*open)(const char *, uint32_t, const struct sqr_options *, struct sqr_path **);
    void (*close)(struct sqr_path **);
};

static struct version loaded(const char *name) {
    struct version it = {dlopen(name, RTLD_NOW | RTLD_LOCAL), NULL, NULL};
    if (!it.at) return it;
    *(void **)&it.open = dlsym(it.at, "sqr_open_path");
    *(void **)&it.close = dlsym(it.at, "sqr_close_path");
    return it;
}

static int two(const char *file, char **names) {
    check(locked_first(file) >= 0, "a lock of the process's own");
    const int before = descriptors();
    for (int i = 0; i < 50; i++) {
        struct version both[2] = {loaded(names[0]), loaded(names[1])};
        struct sqr_path *paths[2] = {NULL, NULL};
        check(both[0].open && both[1].open && both[0].open != both[1].open, "two versions are loaded");
        for (int k = 0; k < 2; k++) check(both[k].open(file, 0, NULL, &paths[k]) == SQR_OK, "each opens the path");
        both[i % 2].close(&paths[i % 2]);
        check(is_kept(file, SHARED), "the other's lock is there still");
        both[1 - i % 2].close(&paths[1 - i % 2]);
        check(!is_kept(file, SHARED) && is_kept(file, LOCKED), "and then the process's own alone");
        dlclose(both[0].at), dlclose(both[1].at);
    }
    check(descriptors() == before, "no descriptor is left");
    return 0;
}

/* ---- how much memory is taken */

static long own_memory(void) { /* the most so far, in KiB */
    struct rusage used;
    return getrusage(RUSAGE_SELF, &used) ? -1 : used.ru_maxrss;
}

static int size(const char *file) {
    const long before = own_memory();
    struct sqr_path *path = NULL;
    uint32_t said[5];
    for (int i = 0; i < 2; i++) {
        said[i] = sqr_open_path(file, i ? SQR_FILES_ONLY : 0, NULL, &path);
        sqr_close_path(&path);
    }
    said[2] = copied(file);
    unlink(out);
    said[3] = sqr_recover_to(file, out, SQR_AT, NULL, NULL);
    said[4] = recovered(file);
    for (int i = 0; i < 5; i++) printf("%s, ", sqr_status_name(said[i]));
    return printf("%ld KiB\n", own_memory() - before) < 0;
}

/* ---- without a task */

static void *sleeps(void *gate) {
    char byte;
    while (read(*(int *)gate, &byte, 1) < 0) {}
    return NULL;
}

static int alone(const char *file) {
    char name[4200];
    pthread_t other;
    int gate[2];
    each_call(file, 0);
    for (int i = 0; i < 4; i++) {
        snprintf(name, sizeof name, "%s%s", file, ends[i]);
        int fd = open(name, O_RDONLY);
        if (fd < 0) continue;
        check(opened(file, 0) == SQR_SHARED_PROCESS, "one of the files is open: a path isn't opened");
        check(copied(file) == SQR_SHARED_PROCESS && access(out, F_OK), "and no copy is made");
        check(recovered(file) == SQR_SHARED_PROCESS, "and nothing recovered");
        close(fd);
    }
    check(opened(file, 0) == SQR_OK, "none of them is open");
    check(!pipe(gate), "a pipe");
    const int error = pthread_create(&other, NULL, sleeps, gate);
    if (error == ENOSYS) return 0; /* no thread can be created at all */
    check(!error, "a second thread");
    check(opened(file, 0) == SQR_SHARED_PROCESS, "a second thread may open them");
    close(gate[1]);
    pthread_join(other, NULL);
    return 0;
}

/* Without a pair of sockets no lock can be kept for a path that is open. */
static int unparked(const char *file) {
    check(locked_first(file) >= 0, "a lock of the process's own");
    check(is_refused(opened(file, 0), SQR_SHARED_PROCESS, ENOSYS), "a path isn't opened, and errno says why");
    check(opened(file, SQR_NO_LOCK) == SQR_OK, "without locks it is");
    check(copied(file) == SQR_OK && recovered(file) == SQR_OK, "a copy, and a recovery, hold nothing open");
    check(is_kept(file, LOCKED), "the process's own lock is there still");
    return 0;
}

int main(int argc, char **argv) {
    if (argc > 2 && !strcmp(argv[1], "old")) return without_close_range(argv + 2);
    if (argc < 4) return 2;
    at_hand = argv[1];
    names_at(argv[3]);
    if (!strcmp(argv[1], "size")) return size(argv[2]);
    if (!strcmp(argv[1], "keeps")) keeps(argv[2]);
    if (!strcmp(argv[1], "hostile")) hostile(argv[2]);
    if (!strcmp(argv[1], "odd")) odd(argv[2]);
    if (!strcmp(argv[1], "pipe")) pipe_ends();
    if (!strcmp(argv[1], "two") && argc > 5) two(argv[2], argv + 4);
    if (!strcmp(argv[1], "alone")) alone(argv[2]);
    if (!strcmp(argv[1], "unparked")) unparked(argv[2]);
    return summed();
}
