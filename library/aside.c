/* aside.c: copies a file that no lock keeps as it is. A long one becomes a file without a name, so that it takes no
   memory; its holes stay holes. It decides nothing of a database. Not proved. */
#define _GNU_SOURCE
#include "files.h"
#include "../locks/raw.h"
#include <errno.h>
#include <limits.h>
#include <stdio.h>
#include <stdlib.h>
#include <string.h>
#include <sys/statvfs.h>
#include <sys/vfs.h>
#include <time.h>

#define AT_ONCE 65536 /* bytes */
#define BLOCK 4096    /* as many zeros, or what is left of a piece, become a hole */

/* Whether a file system says rightly where holes are: ext4, XFS or tmpfs. Others have called fresh data a hole. */
static int knows_holes(int fd) {
    struct statfs disk;
    return !fstatfs(fd, &disk) && (disk.f_type == 0xef53 || disk.f_type == 0x58465342 || disk.f_type == 0x01021994);
}

struct sqr_data sqr_file_data(int fd, off_t at, off_t len) {
    struct sqr_data it = {at, len};
    if (at >= len || !knows_holes(fd)) return it;
    it.at = (off_t)syscall(SYS_lseek, fd, at, SEEK_DATA);
    if (it.at < 0 && errno == ENXIO) it.at = len;
    if (it.at < 0) it.at = at;
    else if (it.at < len) it.end = (off_t)syscall(SYS_lseek, fd, it.at, SEEK_HOLE);
    if (it.at > len) it.at = len;
    if (it.end <= it.at || it.end > len) it.end = len;
    return it;
}

/* A file for writing and reading that has no name, or -1. */
static int nameless(const char *folder) {
    char name[PATH_MAX + 64];
    struct timespec now = {0, 0};
    int fd = sqr_raw_open(folder, O_TMPFILE | O_EXCL | O_RDWR | O_CLOEXEC, 0600);
    if (fd >= 0 || (errno != EOPNOTSUPP && errno != EISDIR && errno != EINVAL)) return fd;
    clock_gettime(CLOCK_REALTIME, &now);
    snprintf(name, sizeof name, "%s/sqrescue-%ld-%lld", folder, syscall(SYS_gettid),
             (long long)now.tv_sec * 1000000000 + now.tv_nsec);
    fd = sqr_raw_open(name, O_RDWR | O_CREAT | O_EXCL | O_NOFOLLOW | O_NOCTTY | O_CLOEXEC, 0600);
    if (fd >= 0) unlink(name);
    return fd;
}

/* Whether what a file takes is less than half of what is left for another: a copy isn't to fill the disk. */
static int has_room(int from, int to) {
    struct stat file;
    struct statvfs disk;
    if (fstat(from, &file) || fstatvfs(to, &disk)) return 0;
    return (uint64_t)file.st_blocks * 512 / disk.f_frsize <= disk.f_bavail / 2;
}

static int is_zeros(const uint8_t *bytes, size_t len) {
    static const uint8_t zeros[BLOCK] = {0};
    return !memcmp(bytes, zeros, len);
}

uint32_t sqr_file_put(int fd, const uint8_t *bytes, size_t len, uint64_t at) {
    uint32_t status = SQR_OK;
    for (size_t from = 0, end = 0; !status && from < len; from = end) {
        int are_zeros = is_zeros(bytes + from, len - from < BLOCK ? len - from : BLOCK);
        while (end < len && is_zeros(bytes + end, len - end < BLOCK ? len - end : BLOCK) == are_zeros)
            end = len - end < BLOCK ? len : end + BLOCK;
        if (!are_zeros) status = sqr_file_write(fd, bytes + from, end - from, at + from);
    }
    return status;
}

/* Copies the first `len` bytes. SQR_IN_USE if the file has become shorter. */
static uint32_t copied(int from, int to, size_t len, uint8_t *buffer) {
    uint32_t status = SQR_OK;
    struct sqr_data it = sqr_file_data(from, 0, (off_t)len);
    for (; !status && it.at < it.end; it = it.at < it.end ? it : sqr_file_data(from, it.at, (off_t)len)) {
        ssize_t more = pread(from, buffer, it.end - it.at < AT_ONCE ? (size_t)(it.end - it.at) : AT_ONCE, it.at);
        if (more < 0 && errno == EINTR) continue;
        if (more <= 0) return more ? sqr_file_status(errno) : SQR_IN_USE;
        status = sqr_file_put(to, buffer, (size_t)more, (uint64_t)it.at);
        it.at += more;
    }
    if (!status && ftruncate(to, (off_t)len)) status = sqr_file_unwritten(errno);
    return status;
}

static uint32_t copied_to(const char *folder, int fd, size_t len, uint8_t *buffer, struct sqr_opened *out) {
    int to = nameless(folder);
    if (to < 0 && (errno == ENOENT || errno == ENOTDIR)) errno = EROFS;
    if (to < 0) return sqr_file_unwritten(errno);
    uint32_t status = has_room(fd, to) ? copied(fd, to, len, buffer) : sqr_file_unwritten(ENOSPC);
    if (!status) status = sqr_file_bytes(to, len, 0, out);
    close(to);
    return status;
}

uint32_t sqr_file_aside(int fd, size_t len, struct sqr_opened *out) {
    const char *const folders[] = {out->folder, "/var/tmp", "/tmp"};
    uint8_t *buffer = malloc(AT_ONCE);
    if (!buffer) return SQR_NO_MEMORY;
    uint32_t status = SQR_NOT_WRITABLE;
    for (size_t i = 0; i < 3 && ((status & 0xff) == SQR_NOT_WRITABLE || (status & 0xff) == SQR_DISK_FULL); i++)
        if (folders[i]) status = copied_to(folders[i], fd, len, buffer, out);
    free(buffer);
    out->is_copy = !status;
    return status;
}

uint32_t sqr_file_has(int fd, const struct sqr_opened *copy, int *has) {
    uint8_t again[4096];
    struct stat now;
    const off_t len = (off_t)copy->len;
    *has = 1;
    struct sqr_data it = sqr_file_data(fd, 0, len);
    for (; *has && it.at < it.end; it = it.at < it.end ? it : sqr_file_data(fd, it.at, len)) {
        size_t count = it.end - it.at < (off_t)sizeof again ? (size_t)(it.end - it.at) : sizeof again;
        ssize_t more = pread(fd, again, count, it.at);
        if (more < 0 && errno == EINTR) continue;
        if (more < 0) return sqr_file_status(errno);
        *has = more > 0 && !memcmp(again, copy->bytes + it.at, (size_t)more);
        it.at += more;
    }
    if (fstat(fd, &now)) return sqr_file_status(errno);
    *has = *has && now.st_size >= len && now.st_nlink > 0;
    return SQR_OK;
}
