/* memory.c: the system reads the bytes for us, so that an error is an answer and no signal: by process_vm_readv(2), or
   through a pipe if that is forbidden. Not proved. */
#define _GNU_SOURCE
#include "memory.h"
#include <errno.h>
#include <fcntl.h>
#include <stdint.h>
#include <sys/uio.h>
#include <unistd.h>

static ssize_t by_system(void *to, const void *from, size_t len) {
    const struct iovec into = {to, len}, of = {(void *)(uintptr_t)from, len};
    return process_vm_readv(getpid(), &into, 1, &of, 1, 0);
}

int vfs_may_read(void) {
    const char from = 1;
    char to = 0;
    return by_system(&to, &from, 1) == 1;
}

/* All that was just written to the pipe. */
static int taken(int end, uint8_t *to, size_t len) {
    while (len > 0) {
        const ssize_t n = read(end, to, len);
        if (n < 0 && errno == EINTR) continue;
        if (n <= 0) return -1;
        to += n, len -= (size_t)n;
    }
    return 0;
}

static int by_pipe(uint8_t *to, const uint8_t *from, size_t len) {
    const size_t most = 65536; /* what a pipe holds; a smaller one takes less at once */
    int ends[2], failed = 0;
    if (pipe2(ends, O_CLOEXEC | O_NONBLOCK)) return -1;
    while (len > 0 && !failed) {
        const ssize_t n = write(ends[1], from, len < most ? len : most);
        if (n < 0 && errno == EINTR) continue;
        failed = n <= 0 || taken(ends[0], to, (size_t)n);
        if (!failed) to += n, from += n, len -= (size_t)n;
    }
    const int error = errno;
    close(ends[0]);
    close(ends[1]);
    errno = error;
    return failed ? -1 : 0;
}

static int copy_part(uint8_t *to, const uint8_t *from, size_t len) {
    const ssize_t n = by_system(to, from, len);
    if (n == (ssize_t)len) return 0;
    if (n < 0 && (errno == EPERM || errno == ENOSYS || errno == EACCES)) return by_pipe(to, from, len);
    if (n >= 0) errno = EFAULT;
    return -1;
}

int vfs_copy(void *to, const void *from, size_t len) {
    const size_t most = 1073741824; /* a call of the system copies less than twice as much */
    for (size_t done = 0; done < len;) {
        const size_t part = len - done < most ? len - done : most;
        if (copy_part((uint8_t *)to + done, (const uint8_t *)from + done, part)) return -1;
        done += part;
    }
    return 0;
}
