/* Loaded into a program, kills it before the call of this number that writes to a file or sets its length, counted from
   `ends_before(number)`, or else from its start by the number that ENDS names. 0 counts nothing. */
#include <signal.h>
#include <stdlib.h>
#include <sys/syscall.h>
#include <sys/types.h>
#include <unistd.h>

static long left;

void ends_before(long number) { left = number; }

__attribute__((constructor)) static void begin(void) {
    const char *text = getenv("ENDS");
    if (text) left = atol(text);
}

static void count(void) {
    if (left && !--left) kill(getpid(), SIGKILL);
}

ssize_t pwrite64(int file, const void *bytes, size_t length, off_t at) {
    count();
    return syscall(SYS_pwrite64, file, bytes, length, at);
}

ssize_t pwrite(int file, const void *bytes, size_t length, off_t at) { return pwrite64(file, bytes, length, at); }

int ftruncate64(int file, off_t length) {
    count();
    return (int)syscall(SYS_ftruncate, file, length);
}

int ftruncate(int file, off_t length) { return ftruncate64(file, length); }
