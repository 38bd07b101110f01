/* raw.h: the calls on descriptors as the system has them, past whoever wraps them in the process. License: MIT.

   A call by path of the C library runs in a task with a separate table of descriptors (library/task.h). A thread
   sanitizer, or a recorder that is preloaded, knows one table alone: it would mix up files that have equal numbers in
   two. So it sees none of these calls. On x86-64 the structs of Linux and of its C libraries are equal. */
#ifndef RAW_H
#define RAW_H
#include <fcntl.h>
#include <sys/stat.h>
#include <sys/syscall.h>
#include <unistd.h>

static inline int sqr_raw_open(const char *path, int how, mode_t mode) { /* the mode counts with O_CREAT alone */
    return (int)syscall(SYS_openat, AT_FDCWD, path, how, mode);
}

static inline int sqr_raw_close(int fd) { return (int)syscall(SYS_close, fd); }

static inline int sqr_raw_lock(int fd, int what, struct flock *lock) { return (int)syscall(SYS_fcntl, fd, what, lock); }

static inline int sqr_raw_stat(int fd, struct stat *found) { return (int)syscall(SYS_fstat, fd, found); }

static inline ssize_t sqr_raw_read(int fd, void *out, size_t len, off_t at) {
    return (ssize_t)syscall(SYS_pread64, fd, out, len, at);
}

static inline ssize_t sqr_raw_write(int fd, const void *bytes, size_t len, off_t at) {
    return (ssize_t)syscall(SYS_pwrite64, fd, bytes, len, at);
}

static inline int sqr_raw_cut(int fd, off_t len) { return (int)syscall(SYS_ftruncate, fd, len); }

static inline int sqr_raw_sync(long what, int fd) { return (int)syscall(what, fd); }

#define open(path, how) sqr_raw_open(path, how, 0)
#define close(fd) sqr_raw_close(fd)
#define fcntl(fd, what, lock) sqr_raw_lock(fd, what, lock)
#define fstat(fd, found) sqr_raw_stat(fd, found)
#define pread(fd, out, len, at) sqr_raw_read(fd, out, len, at)
#define pwrite(fd, bytes, len, at) sqr_raw_write(fd, bytes, len, at)
#define ftruncate(fd, len) sqr_raw_cut(fd, len)
#define fsync(fd) sqr_raw_sync(SYS_fsync, fd)
#define syncfs(fd) sqr_raw_sync(SYS_syncfs, fd)
#endif
