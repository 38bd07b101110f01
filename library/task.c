/* task.c: see task.h. It decides nothing of a database. Not proved. */
#define _GNU_SOURCE
#include "files.h"
#include "../locks/raw.h"
#include <errno.h>
#include <limits.h>
#include <pthread.h>
#include <sched.h>
#include <signal.h>
#include <stdlib.h>
#include <string.h>
#include <sys/socket.h>
#include <time.h>

#define STACK (512 * 1024) /* bytes; the system gives a page when it is used */
#define MOST_STACK (64 * STACK)
#define UNSHARE 2 /* CLOSE_RANGE_UNSHARE */

enum { KEPT, SENT }; /* the ends of the socket: what is parked waits at KEPT */

struct sqr_task {
    sqr_body *body;
    struct sqr_call *call;
    int ends[2]; /* KEPT is the witness, too: the process has a lock on it. SENT is -1 where nothing is parked */
    int why;     /* errno, if there was no separate table */
    int is_done;
};

static int close_range_of(unsigned first, unsigned last, unsigned flags) {
    return (int)syscall(SYS_close_range, first, last, flags);
}

/* Asks for each descriptor of the table, by its number, until one is answered; -1 if /proc isn't there. It is never
   /proc/self/fd, which is the table of the main thread. */
static int for_each(int (*each)(int fd, const void *with), const void *with) {
    char entries[2048];
    int found = 0, folder = open("/proc/thread-self/fd", O_RDONLY | O_DIRECTORY | O_CLOEXEC);
    long length = 1;
    if (folder < 0) return -1;
    while (!found && (length = syscall(SYS_getdents64, folder, entries, sizeof entries)) > 0)
        for (long at = 0; !found && at < length;) {
            unsigned short step;
            memcpy(&step, entries + at + 16, sizeof step); /* struct linux_dirent64, getdents64(2) */
            const char *name = entries + at + 19;
            if (*name != '.' && atoi(name) != folder) found = each(atoi(name), with);
            at += step;
        }
    close(folder);
    return length < 0 ? -1 : found;
}

static int close_other(int fd, const void *with) {
    const int *ends = with;
    if (fd > 2 && fd != ends[KEPT] && fd != ends[SENT]) close(fd);
    return 0;
}

/* The highest number of these and of the standard streams. */
static unsigned highest_of(const int *ends) {
    const int high = ends[KEPT] > ends[SENT] ? ends[KEPT] : ends[SENT];
    return high > 2 ? (unsigned)high : 2;
}

/* Closes all but the standard streams and these, in the separate table. */
static void close_others(const int *ends) {
    const int other = ends[KEPT] < ends[SENT] ? ends[KEPT] : ends[SENT];
    const unsigned high = highest_of(ends), low = other > 2 ? (unsigned)other : 2;
    if (close_range_of(high + 1, UINT_MAX, 0)) {
        if (for_each(close_other, ends) < 0)
            for (long fd = sysconf(_SC_OPEN_MAX); --fd > 2;) close_other((int)fd, ends);
        return;
    }
    if (low > 3) close_range_of(3, low - 1, 0);
    if (high > low + 1) close_range_of(low + 1 > 3 ? low + 1 : 3, high - 1, 0);
}

static struct flock on_first_byte(void) {
    return (struct flock){.l_type = F_WRLCK, .l_whence = SEEK_SET, .l_start = 0, .l_len = 1};
}

/* Whether this isn't the table in which the witness was locked, whatever any call answered: its lock is then somebody
   else's. */
static int is_apart(int witness) {
    struct flock lock = on_first_byte();
    return !fcntl(witness, F_GETLK, &lock) && lock.l_type == F_WRLCK;
}

static int is_seen; /* close_range has given a task its own table here, so it may leave out what would be closed */

/* A task that parks nothing needs no descriptor but the streams: that the witness isn't there proves it then. */
static int goes_bare(const struct sqr_task *of) {
    return of->ends[SENT] < 0 && !close_range_of(3, UINT_MAX, UNSHARE)
        && syscall(SYS_fcntl, of->ends[KEPT], F_GETFD) < 0 && errno == EBADF;
}

/* Gets a separate table. The first call of a process closes nothing, since no descriptor has this number: Docker's
   profile refuses unshare, and allows that. Later ones copy no descriptor behind the socket. */
static int goes_apart(struct sqr_task *of) {
    if (__atomic_load_n(&is_seen, __ATOMIC_RELAXED)) {
        if (goes_bare(of)) return 1;
        close_range_of(highest_of(of->ends) + 1, UINT_MAX, UNSHARE);
    } else if (!close_range_of(UINT_MAX, UINT_MAX, UNSHARE) && is_apart(of->ends[KEPT]))
        __atomic_store_n(&is_seen, 1, __ATOMIC_RELAXED);
    if (is_apart(of->ends[KEPT])) return 1;
    if (!syscall(SYS_unshare, CLONE_FILES) && is_apart(of->ends[KEPT])) return 1;
    of->why = errno;
    return 0;
}

/* If a standard stream is closed in the process, no file gets its number, and so no message. */
static void fill_streams(void) {
    int fd;
    do fd = open("/", O_PATH | O_CLOEXEC); while (fd >= 0 && fd < 3);
    if (fd > 2) close(fd);
}

static void *run(void *with) {
    static const int faults[] = {SIGSEGV, SIGBUS, SIGFPE, SIGILL, SIGTRAP}, none[] = {-1, -1};
    struct sqr_task *of = with;
    sigset_t own;
    sigemptyset(&own);
    for (size_t i = 0; i < sizeof faults / sizeof *faults; i++) sigaddset(&own, faults[i]);
    pthread_sigmask(SIG_UNBLOCK, &own, NULL); /* all other signals are for the host's threads */
    if (!goes_apart(of)) return NULL;
    close_others(of->ends);
    fill_streams();
    of->body(of, of->call);
    close_others(none); /* the system may close the table after pthread_join */
    of->is_done = 1;
    return NULL;
}

/* Runs the task on a thread: 0, or why there is none. Without a thread it starts no process,
   which would be pid 1 after unshare(CLONE_NEWPID). */
static int on_thread(struct sqr_task *of) {
    pthread_attr_t how;
    pthread_t id;
    sigset_t all, before;
    int error = pthread_attr_init(&how);
    if (error) return error;
    sigfillset(&all);
    pthread_sigmask(SIG_SETMASK, &all, &before);
    error = EINVAL; /* of a stack that is too small for what the host's libraries have in each thread */
    for (size_t stack = STACK; error == EINVAL && stack <= MOST_STACK; stack *= 2) {
        error = pthread_attr_setstacksize(&how, stack);
        if (!error) error = pthread_create(&id, &how, run, of);
    }
    pthread_sigmask(SIG_SETMASK, &before, NULL);
    pthread_attr_destroy(&how);
    if (!error) error = pthread_join(id, NULL);
    return error ? error : of->is_done ? 0 : of->why ? of->why : EPERM;
}

/* How many threads the process has; 0 if /proc isn't there. */
static unsigned long threads(void) {
    struct stat found;
    return stat("/proc/self/task", &found) || found.st_nlink < 3 ? 0 : (unsigned long)found.st_nlink - 2;
}

static int leads_there(int fd, const void *with) {
    const struct stat *of = with;
    struct stat found;
    return !fstat(fd, &found) && found.st_dev == of->st_dev && found.st_ino == of->st_ino;
}

/* Whether the files of a path may be opened and closed in the process's own table: it has one thread, and no descriptor
   that leads to one of them. The thread that was no task ends a moment after it was joined. */
static int may_do_without(const char *path) {
    static const char *const ends[] = {"", "-wal", "-journal", "-shm"};
    char name[PATH_MAX + 16];
    struct stat found;
    for (int tries = 0; threads() != 1; tries++) {
        if (tries == 100 || !threads()) return 0;
        nanosleep(&(struct timespec){0, 100000}, NULL);
    }
    for (size_t i = 0; i < sizeof ends / sizeof *ends; i++) {
        sqr_file_name(name, path, ends[i]);
        if (!stat(name, &found) && for_each(leads_there, &found)) return 0;
    }
    return 1;
}

static int above_streams(int fd) { /* the same by another number than the standard streams have */
    if (fd < 0 || fd > 2) return fd;
    int other = (int)syscall(SYS_fcntl, fd, F_DUPFD_CLOEXEC, 3);
    close(fd);
    return other;
}

/* Makes the witness, which is an end of the socket where something is to be parked, and locks it: 0, or an error. */
static int witness(struct sqr_task *of, int is_parked) {
    struct flock lock = on_first_byte();
    if (!is_parked) of->ends[KEPT] = (int)syscall(SYS_socket, AF_UNIX, SOCK_DGRAM | SOCK_CLOEXEC, 0);
    else if (syscall(SYS_socketpair, AF_UNIX, SOCK_SEQPACKET | SOCK_CLOEXEC, 0, of->ends)) return errno;
    of->ends[KEPT] = above_streams(of->ends[KEPT]);
    of->ends[SENT] = above_streams(of->ends[SENT]);
    if (of->ends[KEPT] < 0 || (is_parked && of->ends[SENT] < 0)) return errno;
    return fcntl(of->ends[KEPT], F_SETLK, &lock) ? errno : 0;
}

static int is_for_want_of_room(int error) {
    return error == EMFILE || error == ENFILE || error == ENOMEM || error == ENOBUFS;
}

static uint32_t run_once(sqr_body *body, struct sqr_call *call, const char *path, struct sqr_park *park) {
    struct sqr_task of = {.body = body, .call = call, .ends = {-1, -1}};
    int error = witness(&of, park != NULL);
    call->status = SQR_OK, call->is_held_up = 0;
    if (is_for_want_of_room(error)) call->status = sqr_file_status(error);
    else {
        if (!error) error = on_thread(&of);
        if (error && (of.ends[SENT] >= 0 || !park) && may_do_without(path)) body(&of, call), of.is_done = 1;
        else if (error) call->status = SQR_SHARED_PROCESS | (uint32_t)error << 8;
    }
    if (of.ends[SENT] >= 0) close(of.ends[SENT]);
    if (park && of.is_done && !call->status) *park = (struct sqr_park){of.ends[KEPT], getpid()};
    else if (of.ends[KEPT] >= 0) close(of.ends[KEPT]);
    return call->status;
}

uint32_t sqr_call_run(sqr_body *body, struct sqr_call *call, const char *path, struct sqr_park *park, uint64_t wait) {
    const uint64_t end = sqr_file_now() + wait;
    int cancel;
    uint32_t status;
    pthread_setcancelstate(PTHREAD_CANCEL_DISABLE, &cancel);
    for (;;) {
        status = run_once(body, call, path, park);
        if (!call->is_held_up || sqr_file_now() >= end) break;
        nanosleep(&(struct timespec){0, 1000000}, NULL);
    }
    pthread_setcancelstate(cancel, NULL);
    return status;
}

int sqr_call_begun(void) {
    pthread_testcancel();
    return errno;
}

uint32_t sqr_call_ended(uint32_t status, int before) {
    errno = status >> 8 ? (int)(status >> 8) : before;
    return status & 0xff;
}

int sqr_task_park(struct sqr_task *task, const int *fds, size_t count) {
    union {
        struct cmsghdr head;
        char room[CMSG_SPACE(2 * sizeof(int))];
    } control = {.room = {0}};
    char byte = 0;
    struct iovec one = {&byte, 1};
    struct msghdr message = {.msg_iov = &one, .msg_iovlen = 1, .msg_control = &control};
    if (count > 2) return errno = EINVAL, -1;
    message.msg_controllen = CMSG_SPACE(count * sizeof *fds);
    control.head.cmsg_level = SOL_SOCKET, control.head.cmsg_type = SCM_RIGHTS;
    control.head.cmsg_len = CMSG_LEN(count * sizeof *fds);
    memcpy(CMSG_DATA(&control.head), fds, count * sizeof *fds);
    return syscall(SYS_sendmsg, task->ends[SENT], &message, MSG_NOSIGNAL | MSG_DONTWAIT) == 1 ? 0 : -1;
}

void sqr_park_drop(struct sqr_park *park) {
    const int before = errno;
    char byte;
    if (park->socket >= 0) { /* by calls that aren't points of cancellation */
        if (park->owner == getpid()) syscall(SYS_recvfrom, park->socket, &byte, 1, MSG_DONTWAIT, NULL, NULL);
        close(park->socket);
    }
    *park = (struct sqr_park)SQR_PARK_INIT;
    errno = before;
}
