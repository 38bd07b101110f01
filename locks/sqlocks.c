/* sqlocks.c: takes SQLite's own locks on a database, and starts the proved program that reads or recovers it. It
   decides nothing: the program says by its hidden word --locks what the words ask for, and held.c takes it. The locks
   stay with the open files over execv, and go with the process. The program sees them in /proc/self/fdinfo. Where the
   program says that the words name several files, this starts itself for one after another. Not proved. */
#define _GNU_SOURCE
#include "held.h"
#include <errno.h>
#include <fcntl.h>
#include <limits.h>
#include <spawn.h>
#include <stdio.h>
#include <stdlib.h>
#include <string.h>
#include <sys/wait.h>
#include <unistd.h>

static char program[PATH_MAX + 64];

static _Noreturn void fails(const char *what) {
    fprintf(stderr, "sqrescue: %s: %s\n", what, strerror(errno));
    exit(3);
}

static int kept(int fd) { /* the same by a number that is none of the standard streams */
    if (fd < 0 || fd > 2) return fd;
    int other = fcntl(fd, F_DUPFD, 3);
    close(fd);
    return other;
}

/* The words for a program of this name, with two more; they end in a null. */
static char **words_with(char *name, char **words, const char *first, const char *second) {
    int count = 0, at = 0;
    while (words[count]) count++;
    char **all = calloc((size_t)count + 3, sizeof *all);
    if (!all) fails("no memory");
    all[at++] = name;
    if (first) all[at++] = (char *)first, all[at++] = (char *)second;
    for (int i = 1; i < count; i++) all[at++] = words[i];
    return all;
}

/* Becomes the program, with two words more. */
static _Noreturn void start(char **words, const char *first, const char *second) {
    execv(program, words_with(program, words, first, second));
    fails(program);
}

/* Starts the program beside this one, with its standard output to a pipe. */
static pid_t started(char **words, const int ends[2]) {
    posix_spawn_file_actions_t how;
    pid_t child;
    errno = posix_spawn_file_actions_init(&how);
    if (!errno) errno = posix_spawn_file_actions_adddup2(&how, ends[1], 1);
    if (!errno) errno = posix_spawn_file_actions_addclose(&how, ends[0]);
    if (!errno) errno = posix_spawn_file_actions_addclose(&how, ends[1]);
    if (errno) fails("no memory");
    errno = posix_spawn(&child, program, &how, NULL, words_with(program, words, "--locks", "1"), environ);
    if (errno) fails(program);
    posix_spawn_file_actions_destroy(&how);
    return child;
}

static int ended(pid_t child) { /* how it ended */
    int status;
    while (waitpid(child, &status, 0) < 0 && errno == EINTR) {}
    return status;
}

static size_t asked(char **words, char *out, size_t room) { /* what the program says to --locks; ends where it fails */
    int ends[2];
    if (pipe(ends) || (ends[0] = kept(ends[0])) < 0 || (ends[1] = kept(ends[1])) < 0) fails("pipe");
    pid_t child = started(words, ends);
    close(ends[1]);
    size_t length = 0;
    ssize_t more;
    while (length < room && (more = read(ends[0], out + length, room - length)) != 0) {
        if (more > 0) length += (size_t)more;
        else if (errno != EINTR) fails("pipe");
    }
    close(ends[0]);
    int status = ended(child);
    if (WIFEXITED(status) && WEXITSTATUS(status) == 0) return length;
    if (!WIFEXITED(status)) fprintf(stderr, "sqrescue: %s failed\n", program);
    exit(WIFEXITED(status) ? WEXITSTATUS(status) : 3);
}

static _Noreturn void go(char **words, const struct sqr_held *held) { /* the program gets the descriptors */
    char numbers[32];
    if (fcntl(held->file, F_SETFD, 0) || (held->index >= 0 && fcntl(held->index, F_SETFD, 0))) fails("fcntl");
    snprintf(numbers, sizeof numbers, "%d,%d", held->file, held->index);
    start(words, "--held", numbers);
}

/* Starts itself for each of so many files, one after another. The greatest status; of a check that is to judge all, 1
   for damage if there is some. */
static int each(char **words, unsigned count, int is_complete) {
    int greatest = 0, is_damaged = 0;
    for (unsigned k = 1; k <= count; k++) {
        char number[16];
        pid_t child;
        snprintf(number, sizeof number, "%u", k);
        char **all = words_with(words[0], words, "--one", number);
        errno = posix_spawn(&child, "/proc/self/exe", NULL, NULL, all, environ);
        if (errno) fails("/proc/self/exe");
        free(all);
        int status = ended(child);
        if (!WIFEXITED(status)) return 128 + WTERMSIG(status);
        if (WEXITSTATUS(status) > greatest) greatest = WEXITSTATUS(status);
        if (WEXITSTATUS(status) == 1) is_damaged = 1;
    }
    return is_complete && is_damaged ? 1 : greatest;
}

int main(int argc, char **words) {
    static char said[PATH_MAX + 64];
    static const char beside[] = "/../libexec/sqrescue/sqrescue";
    (void)argc;
    ssize_t named = readlink("/proc/self/exe", program, PATH_MAX);
    if (named <= 0 || named >= PATH_MAX) fails("/proc/self/exe");
    program[named] = 0;
    strcpy(strrchr(program, '/'), beside);
    size_t length = asked(words, said, sizeof said - 1);
    unsigned want, seconds, count;
    int from = 0;
    if (length < 2 || said[length - 1] != '\n') start(words, NULL, NULL);
    said[length - 1] = 0;
    if (sscanf(said, "each %u", &count) == 1) return each(words, count, strstr(said, " complete") != NULL);
    char *line = said; /* of one of several files the name stands before each line, and a colon */
    while (line && (sscanf(line, "%u %u%n", &want, &seconds, &from) != 2 || line[from] != ' '))
        if ((line = strstr(line, ": "))) line += 2;
    if (!line || strlen(line + from) > PATH_MAX) start(words, NULL, NULL);
    size_t before = (size_t)(line - said);
    for (char *p = line; before && (p = strchr(p, '\n')); p++) /* a name of several lines */
        if (!strncmp(p + 1, said, before)) memmove(p + 1, p + 1 + before, strlen(p + 1 + before) + 1);
    struct sqr_held held;
    switch (sqr_hold(&held, line + from + 1, want, (uint64_t)seconds * 1000)) {
        case SQR_HELD: go(words, &held);
        case SQR_HELD_IN_USE: start(words, "--refused", "in-use");
        case SQR_HELD_NO_LOCKS: start(words, "--refused", "no-locks");
        case SQR_HELD_FAILED: start(words, "--refused", "file-failed");
        case SQR_HELD_NO_MEMORY: errno = ENOMEM, fails("no memory");
        case SQR_HELD_NO_ROOM: fails(line + from + 1);
        default: start(words, NULL, NULL);
    }
}
