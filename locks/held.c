/* held.c: carries out the plan of SQLite's locks that sqr_lock_step, which is proved, gives step by step. It decides
   nothing: a step is carried out here, and said what it came to. Not proved. */
#define _GNU_SOURCE
#include "held.h"
#include "raw.h"
#include "sqlocks.h"
#include <errno.h>
#include <limits.h>
#include <stdio.h>
#include <string.h>
#include <sys/stat.h>
#include <time.h>

struct attempt {
    struct sqr_held *held;
    const char *path;
    struct timespec end;
    int why; /* errno, if FILE couldn't be opened, or no descriptor was left; otherwise 0 */
};

static int is_for_want_of_room(int error) {
    return error == EMFILE || error == ENFILE;
}

static int opened(const char *path, const char *behind, int how) { /* a regular file, or -1 */
    char name[PATH_MAX + 8];
    struct stat found;
    int length = snprintf(name, sizeof name, "%s%s", path, behind);
    if (length < 0 || (size_t)length >= sizeof name) return errno = ENAMETOOLONG, -1;
    int fd = open(name, how | O_NOFOLLOW | O_NONBLOCK | O_NOCTTY | O_CLOEXEC);
    if (fd >= 0 && fd <= 2) { /* the number of a standard stream that is closed */
        int other = (int)syscall(SYS_fcntl, fd, F_DUPFD_CLOEXEC, 3);
        close(fd);
        fd = other;
    }
    if (fd >= 0 && fstat(fd, &found) == 0 && S_ISREG(found.st_mode)) return fd;
    if (fd >= 0) close(fd), errno = EINVAL;
    return -1;
}

static void closed(int *fd) {
    if (*fd >= 0) close(*fd);
    *fd = -1;
}

static uint8_t open_file(struct attempt *of, uint32_t is_of_index) {
    struct sqr_held *held = of->held;
    closed(&held->index);
    if (!is_of_index) {
        closed(&held->file);
        held->file = opened(of->path, "", held->want ? O_RDWR : O_RDONLY);
        of->why = held->file >= 0 ? 0 : errno;
        return held->file >= 0 ? SQR_GIVEN : SQR_MISSING;
    }
    if ((held->index = opened(of->path, "-shm", O_RDWR)) >= 0) return SQR_GIVEN;
    if (is_for_want_of_room(errno)) of->why = errno;
    if (errno == ENOENT) return SQR_MISSING;
    if ((errno == EACCES || errno == EPERM || errno == EROFS)
        && (held->index = opened(of->path, "-shm", O_RDONLY)) >= 0) return SQR_REFUSED;
    return SQR_UNSUPPORTED;
}

static uint8_t lock(const struct sqr_held *held, const struct sqr_lock_step *step) {
    struct flock at = {.l_type = step->kind == SQR_GIVE ? F_UNLCK : step->is_exclusive ? F_WRLCK : F_RDLCK,
        .l_whence = SEEK_SET, .l_start = (off_t)step->start, .l_len = (off_t)step->count};
    int answer;
    do answer = fcntl(step->is_of_index ? held->index : held->file, F_OFD_SETLK, &at);
    while (answer && errno == EINTR);
    if (answer == 0) return SQR_GIVEN;
    return errno == EAGAIN || errno == EACCES ? SQR_REFUSED : SQR_UNSUPPORTED;
}

static uint8_t look_for_folder(const struct attempt *of) {
    char name[PATH_MAX + 8];
    struct stat found;
    int length = snprintf(name, sizeof name, "%s.lock", of->path);
    if (length < 0 || (size_t)length >= sizeof name || lstat(name, &found)) return SQR_GIVEN;
    return S_ISDIR(found.st_mode) ? SQR_REFUSED : SQR_GIVEN;
}

static uint8_t compare(const struct attempt *of) {
    struct stat here, there;
    return fstat(of->held->file, &here) == 0 && stat(of->path, &there) == 0 && here.st_dev == there.st_dev
        && here.st_ino == there.st_ino ? SQR_GIVEN : SQR_REFUSED;
}

static uint8_t look(struct attempt *of) {
    uint8_t index[136], header[32], frame[24];
    size_t is_there = 0;
    if (pread(of->held->index, index, sizeof index, 0) != sizeof index) return SQR_REFUSED;
    int log = opened(of->path, "-wal", O_RDONLY);
    if (log < 0 && is_for_want_of_room(errno)) of->why = errno;
    if (log >= 0) {
        off_t place = (off_t)sqr_index_place(index, sizeof index);
        is_there = pread(log, header, sizeof header, 0) == sizeof header
            && pread(log, frame, sizeof frame, place) == sizeof frame;
        close(log);
    }
    return sqr_index_names(index, sizeof index, header, is_there * sizeof header, frame, is_there * sizeof frame)
        ? SQR_GIVEN : SQR_REFUSED;
}

static uint8_t ask(const struct sqr_held *held, const struct sqr_lock_step *step) {
    struct flock at = {.l_type = step->is_exclusive ? F_WRLCK : F_RDLCK, .l_whence = SEEK_SET,
        .l_start = (off_t)step->start, .l_len = (off_t)step->count};
    if (fcntl(held->file, F_OFD_GETLK, &at)) return SQR_UNSUPPORTED;
    return at.l_type == F_UNLCK ? SQR_GIVEN : SQR_REFUSED;
}

/* The first bytes of a file, and zeros behind its end. Whether they could be read. */
static int read_front(int fd, uint8_t *out, size_t len) {
    size_t at = 0;
    ssize_t more = 1;
    memset(out, 0, len);
    while (at < len && more) {
        more = pread(fd, out + at, len - at, (off_t)at);
        if (more < 0 && errno != EINTR) return 0;
        if (more > 0) at += (size_t)more;
    }
    return 1;
}

/* What FILE-journal is now. Whether there is such a file; one that can't be read has no inode. */
static int journal_is(struct attempt *of, struct sqr_journal_seen *seen) {
    struct stat found;
    memset(seen, 0, sizeof *seen);
    int journal = opened(of->path, "-journal", O_RDONLY);
    if (journal < 0 && is_for_want_of_room(errno)) of->why = errno;
    if (journal < 0) return errno != ENOENT;
    if (fstat(journal, &found) == 0 && read_front(journal, seen->header, sizeof seen->header)) {
        seen->device = found.st_dev;
        seen->inode = found.st_ino;
        seen->length = (uint64_t)found.st_size;
    }
    close(journal);
    return 1;
}

static uint8_t look_at_journal(struct attempt *of) {
    struct sqr_journal_seen *seen = &of->held->journal;
    if (!journal_is(of, seen)) return SQR_REFUSED;
    if (!seen->inode) return SQR_GIVEN;
    return sqr_journal_is_hot(seen->header, sizeof seen->header, seen->length) ? SQR_GIVEN : SQR_REFUSED;
}

static uint8_t compare_journal(struct attempt *of) {
    struct sqr_journal_seen now;
    if (!journal_is(of, &now)) return SQR_REFUSED;
    if (!now.inode || !of->held->journal.inode) return SQR_GIVEN; /* what can't be read didn't change by that */
    return memcmp(&now, &of->held->journal, sizeof now) ? SQR_REFUSED : SQR_GIVEN;
}

static uint8_t wait_a_moment(const struct timespec *end) {
    struct timespec now, pause = {0, 1000000};
    if (clock_gettime(CLOCK_MONOTONIC, &now) || now.tv_sec > end->tv_sec
        || (now.tv_sec == end->tv_sec && now.tv_nsec >= end->tv_nsec)) return SQR_REFUSED;
    nanosleep(&pause, NULL);
    return SQR_GIVEN;
}

/* Carries out what comes next, and whether there is more to come. */
static int carried_out(struct attempt *of, struct sqr_lock_step *step) {
    struct sqr_held *held = of->held;
    uint8_t answer = SQR_GIVEN;
    if (held->count == SQR_HOLD_STEPS || sqr_lock_step(held->want, held->answers, held->count, step)) {
        step->kind = SQR_END;
        return 0;
    }
    switch (step->kind) {
        case SQR_OPEN: answer = open_file(of, step->is_of_index); break;
        case SQR_TAKE: case SQR_GIVE: answer = lock(held, step); break;
        case SQR_COMPARE: answer = compare(of); break;
        case SQR_LOOK: answer = look(of); break;
        case SQR_WAIT: answer = wait_a_moment(&of->end); break;
        case SQR_ASK: answer = ask(held, step); break;
        case SQR_LOOK_AT_JOURNAL: answer = look_at_journal(of); break;
        case SQR_COMPARE_JOURNAL: answer = compare_journal(of); break;
        case SQR_LOOK_FOR_FOLDER: answer = look_for_folder(of); break;
        default: break;
    }
    held->answers[held->count++] = answer;
    if (step->kind == SQR_WAIT && answer == SQR_GIVEN) held->count = 0;
    return step->kind < SQR_GO;
}

static void release(struct sqr_held *held) { /* also where another process has them, by fork */
    struct flock all = {.l_type = F_UNLCK, .l_whence = SEEK_SET};
    if (held->index >= 0) fcntl(held->index, F_OFD_SETLK, &all);
    if (held->file >= 0) fcntl(held->file, F_OFD_SETLK, &all);
    closed(&held->index);
    closed(&held->file);
    held->count = 0;
}

enum sqr_hold_answer sqr_hold(struct sqr_held *held, const char *path, uint32_t want, uint64_t milliseconds) {
    static const enum sqr_hold_answer reasons[] = {SQR_HELD_IN_USE, SQR_HELD_NO_LOCKS, SQR_HELD_FAILED};
    struct attempt of = {.held = held, .path = path};
    struct sqr_lock_step step = {.kind = SQR_END};
    enum sqr_hold_answer answer = SQR_HELD_NO_MEMORY;
    *held = (struct sqr_held){.file = -1, .index = -1, .want = want};
    if (clock_gettime(CLOCK_MONOTONIC, &of.end) == 0) {
        of.end.tv_sec += (time_t)(milliseconds / 1000);
        of.end.tv_nsec += (long)(milliseconds % 1000) * 1000000;
        if (of.end.tv_nsec >= 1000000000) of.end.tv_sec++, of.end.tv_nsec -= 1000000000;
    }
    while (carried_out(&of, &step)) {}
    if (step.kind == SQR_GO) return SQR_HELD;
    if (step.kind == SQR_GO_UNLOCKED) answer = held->file < 0 ? SQR_HELD_NO_FILE : SQR_HELD_NO_LOCKS;
    else if (step.kind == SQR_GIVE_UP) answer = reasons[step.reason];
    if (answer != SQR_HELD_NO_FILE && is_for_want_of_room(of.why)) answer = SQR_HELD_NO_ROOM;
    release(held);
    errno = of.why;
    return answer;
}

void sqr_give_back(struct sqr_held *held) {
    struct attempt of = {.held = held};
    struct sqr_lock_step step = {.kind = SQR_GIVE};
    while (held->file >= 0 && step.kind != SQR_END) carried_out(&of, &step);
    release(held);
}
