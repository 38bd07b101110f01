/* files.c: opens a database file and the logs beside it, and has their bytes. It decides nothing of a database. Not
   proved. */
#define _GNU_SOURCE
#include "files.h"
#include "../locks/raw.h"
#include "../locks/sqlocks.h"
#include <errno.h>
#include <limits.h>
#include <stdlib.h>
#include <string.h>
#include <sys/mman.h>
#include <time.h>

static uint32_t with_error(uint32_t status, int error) {
    return status | (uint32_t)error << 8;
}

uint32_t sqr_file_status(int error) {
    switch (error) {
    case ENOENT: case ENOTDIR: return with_error(SQR_NOT_THERE, error);
    case EACCES: case EPERM: return with_error(SQR_NOT_READABLE, error);
    case EISDIR: return with_error(SQR_FOLDER, error);
    case ENOMEM: return SQR_NO_MEMORY;
    default: return with_error(SQR_FILE_FAILED, error);
    }
}

uint32_t sqr_file_unwritten(int error) {
    switch (error) {
    case EACCES: case EPERM: case EROFS: case ETXTBSY: return with_error(SQR_NOT_WRITABLE, error);
    case ENOSPC: case EDQUOT: case EFBIG: return with_error(SQR_DISK_FULL, error);
    case EEXIST: return with_error(SQR_ALREADY_THERE, error);
    default: return sqr_file_status(error);
    }
}

void sqr_file_name(char *name, const char *path, const char *end) {
    stpcpy(stpcpy(name, path), end);
}

uint64_t sqr_file_now(void) {
    struct timespec at = {0, 0};
    clock_gettime(CLOCK_MONOTONIC, &at);
    return (uint64_t)at.tv_sec * 1000 + (uint64_t)at.tv_nsec / 1000000;
}

uint32_t sqr_file_asked(const char *path, uint32_t flags, uint32_t known, const struct sqr_options *options, char *real,
                        struct sqr_asked *asked) {
    if (!path) return SQR_MISUSE;
    if (flags & ~known) return SQR_UNKNOWN_OPTIONS;
    if (options && (options->size < sizeof options->size || options->size > 1024)) return SQR_UNKNOWN_OPTIONS;
    uint32_t status = sqr_options_read(flags, sqr_bytes(options), options ? options->size : 0, asked);
    if (status) return status;
    return realpath(path, real) ? SQR_OK : sqr_file_status(errno);
}

static uint32_t kind_of(const struct stat *found) {
    return S_ISREG(found->st_mode) ? SQR_OK : S_ISDIR(found->st_mode) ? SQR_FOLDER : SQR_NOT_A_FILE;
}

/* Why FILE couldn't be opened: where it was to be written too, a file that can be read isn't unreadable. */
static uint32_t unopened(const char *path, uint32_t want, int error) {
    if (want && !faccessat(AT_FDCWD, path, R_OK, AT_EACCESS)) return sqr_file_unwritten(error);
    return sqr_file_status(error);
}

uint32_t sqr_file_hold(struct sqr_held *held, const char *path, uint32_t want, uint32_t flags) {
    struct stat found;
    if (stat(path, &found)) return sqr_file_status(errno);
    uint32_t status = kind_of(&found);
    if (status) return status;
    if (flags & SQR_NO_LOCK) {
        held->file = open(path, (want ? O_RDWR : O_RDONLY) | O_NOFOLLOW | O_NONBLOCK | O_NOCTTY | O_CLOEXEC);
        return held->file < 0 ? unopened(path, want, errno) : SQR_OK;
    }
    switch (sqr_hold(held, path, want, 0)) {
    case SQR_HELD: return SQR_OK;
    case SQR_HELD_IN_USE: return SQR_IN_USE;
    case SQR_HELD_NO_LOCKS: return SQR_NO_LOCKS;
    case SQR_HELD_NO_FILE: return unopened(path, want, errno);
    case SQR_HELD_NO_ROOM: return sqr_file_status(errno);
    case SQR_HELD_NO_MEMORY: return SQR_NO_MEMORY;
    case SQR_HELD_FAILED: return SQR_NOT_WRITABLE;
    default: return SQR_FILE_FAILED;
    }
}

void sqr_file_let_go(struct sqr_held *held, int is_locked) {
    if (is_locked) sqr_give_back(held);
    else if (held->file >= 0) close(held->file);
    held->file = held->index = -1;
}

uint32_t sqr_file_again(int file, const char *path, int *fd, struct stat *found) {
    struct stat of;
    *fd = open(path, O_RDONLY | O_NOFOLLOW | O_NONBLOCK | O_NOCTTY | O_CLOEXEC);
    if (*fd < 0) return sqr_file_status(errno);
    uint32_t status = fstat(*fd, found) || fstat(file, &of) ? sqr_file_status(errno) : SQR_OK;
    if (!status && (of.st_dev != found->st_dev || of.st_ino != found->st_ino)) status = SQR_IN_USE;
    if (status) close(*fd), *fd = -1;
    return status;
}

uint32_t sqr_file_log(int file, const char *path, const char *end, int how, int *fd, struct stat *found) {
    char name[PATH_MAX + 16];
    struct stat of;
    sqr_file_name(name, path, end);
    *fd = -1;
    if (lstat(name, found)) return errno == ENOENT ? SQR_OK : sqr_file_status(errno);
    if (!S_ISREG(found->st_mode)) return SQR_NOT_A_FILE; /* a link too: SQLite wouldn't look beside what it leads to */
    *fd = open(name, how | O_NOFOLLOW | O_NONBLOCK | O_NOCTTY | O_CLOEXEC);
    if (*fd < 0) return errno == ENOENT ? SQR_OK : errno == ELOOP ? SQR_NOT_A_FILE : sqr_file_status(errno);
    uint32_t status = fstat(*fd, found) || fstat(file, &of) ? sqr_file_status(errno) : kind_of(found);
    if (!status && of.st_dev == found->st_dev && of.st_ino == found->st_ino) status = SQR_NOT_A_FILE;
    if (status) close(*fd), *fd = -1;
    return status;
}

/* The whole of a file from its front, or as much as there is. */
static uint32_t read_all(int fd, uint8_t *out, size_t *len) {
    size_t at = 0;
    while (at < *len) {
        ssize_t more = pread(fd, out + at, *len - at, (off_t)at);
        if (more == 0) break;
        if (more < 0 && errno != EINTR) return sqr_file_status(errno);
        if (more > 0) at += (size_t)more;
    }
    *len = at;
    return SQR_OK;
}

uint32_t sqr_file_is_hot(int journal, uint64_t len, uint8_t *header, int *is_hot) {
    size_t has = SQR_JOURNAL_HEADER;
    uint32_t status = read_all(journal, header, &has);
    *is_hot = !status && sqr_journal_is_hot(header, has, len);
    return status;
}

/* Whether a path leads to something that isn't an empty regular file. */
static uint32_t look_for(const char *path, int *is_there) {
    struct stat found;
    *is_there = !stat(path, &found);
    if (*is_there) *is_there = !S_ISREG(found.st_mode) || found.st_size;
    else if (errno != ENOENT && errno != ENOTDIR && errno != ENAMETOOLONG && errno != ELOOP) return SQR_SUPER_JOURNAL;
    return SQR_OK;
}

uint32_t sqr_file_super(const struct sqr_opened *journal, size_t *len) {
    char path[513]; /* SQLite accepts 512 bytes */
    int is_there = 1;
    *len = journal->len;
    if (*len <= SQR_JOURNAL_HEADER) return SQR_OK; /* of a journal that isn't hot no more than this is read */
    const uint32_t names = sqr_super_path(sqr_bytes(journal->bytes), journal->len, (uint8_t *)path, sizeof path);
    if (names == SQR_SUPER_NONE) return SQR_OK;
    if (names == SQR_SUPER_NAMED && *path != '/') return SQR_SUPER_JOURNAL;
    uint32_t status = names == SQR_SUPER_NAMED ? look_for(path, &is_there) : SQR_OK;
    *len = is_there ? journal->len - 8 : 0;
    return status;
}

uint32_t sqr_file_bytes(int fd, size_t len, int is_copy, struct sqr_opened *out) {
    if (len == 0) return SQR_OK;
    if (len > PTRDIFF_MAX) return SQR_TOO_LARGE;
    if (is_copy && len > SQR_COPIED) return sqr_file_aside(fd, len, out);
    out->is_copy = out->is_heap = is_copy;
    out->bytes = is_copy ? malloc(len) : mmap(NULL, len, PROT_READ, MAP_SHARED, fd, 0);
    if (!out->bytes || out->bytes == MAP_FAILED) {
        out->bytes = NULL;
        return is_copy ? SQR_NO_MEMORY : sqr_file_status(errno);
    }
    out->len = len;
    return is_copy ? read_all(fd, out->bytes, &out->len) : SQR_OK;
}

void sqr_file_give_back(struct sqr_opened *it) {
    if (it->bytes && it->is_heap) free(it->bytes);
    else if (it->bytes) munmap(it->bytes, it->len);
    memset(it, 0, sizeof *it);
}
