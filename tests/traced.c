/* traced WHAT: programs that tests/traced records, each by its name. They work in the folder that they start in, and
   write marks to $SQCRASH_MARKS. */
#define _GNU_SOURCE
#include <fcntl.h>
#include <linux/aio_abi.h>
#include <linux/falloc.h>
#include <linux/filter.h>
#include <linux/seccomp.h>
#include <pthread.h>
#include <signal.h>
#include <stdio.h>
#include <stdlib.h>
#include <string.h>
#include <sys/mman.h>
#include <sys/mount.h>
#include <sys/prctl.h>
#include <sys/ptrace.h>
#include <sys/sendfile.h>
#include <sys/stat.h>
#include <sys/syscall.h>
#include <sys/uio.h>
#include <sys/wait.h>
#include <unistd.h>

enum { ROUNDS = 6, THREADS = 4 };

static int marks, folder;
static char bytes[8192];

static void mark(const char *line) {
    if (write(marks, line, strlen(line)) < 0 || write(marks, "\n", 1) < 0) exit(1);
}

static int open_new(const char *name, int flags) {
    int file = open(name, O_RDWR | O_CREAT | flags, 0644);
    if (file < 0) exit(1);
    return file;
}

/* ---- Stores. */

/* A log that grows by records of two parts, and is replaced by a short one at times. */
static void store(void) {
    int log = open_new("log", 0), next;
    off_t end = 0;
    fsync(log), fsync(folder);
    for (int i = 0; i < ROUNDS; i++) {
        struct iovec parts[2] = { { bytes, 20 }, { bytes + 20, 44 } };
        memset(bytes, 'a' + i, 64);
        end += pwritev(log, parts, 2, end);
        fdatasync(log);
        mark("commit");
        if (i % 3 < 2) continue;
        next = open_new("next", O_TRUNC);
        pwrite(next, bytes, 64, 0), fsync(next);
        rename("next", "log"), fsync(folder);
        close(log);
        log = next, end = 64;
    }
}

/* Each kind of call that moves bytes or changes a length. */
static void places(void) {
    int file = open_new("one", 0), other = open_new("two", O_APPEND), synced = open_new("three", O_DSYNC);
    struct iovec parts[2] = { { bytes, 3 }, { bytes + 3, 4 } };
    off_t from = 0, to = 9000;
    memset(bytes, 'x', sizeof bytes);
    write(file, bytes, 700), lseek(file, 50, SEEK_SET), write(file, "fifty", 5), writev(file, parts, 2);
    write(other, "end", 3), pwrite(other, "end", 3, 0), pwritev2(file, parts, 2, 0, RWF_APPEND);
    write(synced, bytes, 600), pwritev2(file, parts, 2, 100, RWF_HIPRI);
    mark("commit");
    ftruncate(file, 400), truncate("two", 2), fallocate(other, 0, 0, 5000);
    fallocate(other, FALLOC_FL_KEEP_SIZE, 0, 90000), fallocate(other, FALLOC_FL_KEEP_SIZE, 100, 10);
    sendfile(file, synced, &from, 300), copy_file_range(synced, &from, file, &to, 100, 0);
    fsync(file), fsync(other), fsync(folder);
    mark("commit");
    unlink("none"), unlink("one"), write(file, "gone", 4), close(file);
    open_new("one", O_TRUNC), open_new("two", O_TRUNC), rename("two", "one");
    sync();
    mark("commit");
}

static void holes(void) {
    int file = open_new("file", 0);
    write(file, memset(bytes, 'x', sizeof bytes), sizeof bytes);
    fallocate(file, FALLOC_FL_PUNCH_HOLE | FALLOC_FL_KEEP_SIZE, 1000, 500);
    fallocate(file, FALLOC_FL_ZERO_RANGE, 8000, 500);
}

static void streams(void) {
    FILE *file = fopen("file", "w+"), *lines = fopen(getenv("SQCRASH_MARKS"), "a");
    for (int i = 0; i < 3; i++) {
        fprintf(file, "row %d\n", i);
        fflush(file), fsync(fileno(file));
        fprintf(lines, "commit %d\n", i), fflush(lines);
    }
}

static long call(long number, long a, long b, long c, long d) { /* not by the C library */
    register long fourth __asm__("r10") = d;
    long answer = number;
    __asm__ volatile("syscall" : "+a"(answer) : "D"(a), "S"(b), "d"(c), "r"(fourth) : "rcx", "r11", "memory");
    return answer;
}

static void raw(void) {
    long file = call(SYS_open, (long)"file", O_RDWR | O_CREAT, 0644, 0);
    for (long i = 0; i < 3; i++) {
        memset(bytes, 'a' + (int)i, 512);
        call(SYS_pwrite64, file, (long)bytes, 512, 512 * i), call(SYS_fsync, file, 0, 0, 0);
        call(SYS_write, marks, (long)"commit\n", 7, 0);
    }
}

static void forks(void) {
    int file = open_new("file", 0);
    for (int i = 0; i < 20; i++) {
        pid_t child = fork();
        if (child == 0) {
            memset(bytes, 'a' + i, 512);
            pwrite(file, bytes, 512, 512L * i), fdatasync(file);
            mark("commit");
            _exit(0);
        }
        waitpid(child, NULL, 0);
    }
}

static int shared;
static long rounds = 60;

static void *work(void *which) {
    unsigned random = (unsigned)(long)which * 7919 + 1;
    char name[32], to[32], own[3000];
    snprintf(name, sizeof name, "new%ld", (long)which);
    for (long i = 0; i < rounds; i++) {
        random = random * 1103515245 + 12345;
        size_t count = 1 + random / 65536 % 2999;
        memset(own, 'a' + random / 65536 % 26, count);
        snprintf(to, sizeof to, "file%ld", i % 5);
        switch (random / 65536 % 7) {
        case 0: case 1: pwrite(shared, own, count, random / 256 % 100000); break;
        case 2: write(shared, own, count); break; /* at the place that all threads share */
        case 3: fsync(shared); break;
        case 4: close(open_new(name, O_TRUNC)), rename(name, to); break;
        case 5: unlink(to); break;
        case 6: mark("at work"); break;
        }
    }
    return NULL;
}

static void threads(void) {
    pthread_t all[THREADS];
    shared = open_new("shared", 0);
    for (long i = 0; i < THREADS; i++) pthread_create(&all[i], NULL, work, (void *)i);
    for (int i = 0; i < THREADS; i++) pthread_join(all[i], NULL);
}

static void endless(void) {
    rounds = 1L << 40;
    threads();
}

static void bad_buffer(void) {
    int file = open_new("file", 0);
    write(file, "begin", 5);
    if (pwrite(file, (void *)8, 100, 9000) != -1) exit(1);
}

/* A descriptor's number that another file takes, unseen by the C library. */
static void stale(void) {
    int file = open_new("file", 0), other;
    write(file, "one", 3), fsync(file);
    mark("commit");
    pwrite(file, "two", 3, 0);
    syscall(SYS_close_range, file, file, 0);
    other = memfd_create("cache", 0);
    if (other != file) exit(1);
    fsync(other);
    mark("commit");
}

/* ---- Waits. */

static int ends[2];

static void *move(void *file) {
    splice(ends[0], NULL, *(int *)file, NULL, 100, 0);
    return NULL;
}

static void waits(void) { /* a call inside waits for what another thread does to a file of the folder */
    int file = open_new("file", 0), other = open_new("other", 0);
    pthread_t thread;
    if (pipe(ends)) exit(1);
    pthread_create(&thread, NULL, move, &file);
    usleep(300000);
    write(other, "other", 5), write(ends[1], "through", 7);
    pthread_join(thread, NULL);
}

static void goes_on(void) { /* a process stays after the command */
    int file = open_new("file", 0), state = open("../state", O_WRONLY | O_CREAT | O_APPEND, 0644);
    write(file, "one", 3), fsync(file);
    mark("commit");
    if (fork()) _exit(3);
    while (access("../stop", F_OK)) pwrite(file, "two", 3, 0), usleep(20000);
    write(state, "went on", 7);
}

static void signalled(void) {
    write(open_new("file", 0), "one", 3);
    mark("commit");
    raise(SIGKILL);
}

/* ---- What is refused, or isn't to be seen. */

static void make_folder(void) { mkdir("sub", 0755); }
static void below(void) { write(open_new("there/file", 0), "new", 3); }
static void change_below(void) { pwrite(open("there/old", O_RDWR), "new", 3, 0); }
static void unlink_below(void) { unlink("there/old"); }
static void rename_below(void) { open_new("file", 0), rename("file", "there/new"); }
static void make_link(void) { open_new("file", 0), link("file", "other"); }
static void make_symlink(void) { symlink("file", "other"); }
static void comes(void) { close(open_new("../file", 0)), rename("../file", "file"); }
static void leaves(void) { close(open_new("file", 0)), rename("file", "../file"); }
static void set_ring(void) {
    char parameters[120] = "";
    printf("%ld\n", syscall(SYS_io_uring_setup, 4, parameters));
}
static void be_traced(void) { ptrace(PTRACE_TRACEME, 0, NULL, NULL); }
static void mounts(void) { mount("none", "/none", "none", 0, NULL); }
static void take_away(void) { rmdir("../store"); }
static void undumpable(void) { write(open_new("file", 0), "1", 1), prctl(PR_SET_DUMPABLE, 0), open_new("other", 0); }

static void exchange(void) {
    open_new("file", 0), open_new("other", 0);
    syscall(SYS_renameat2, AT_FDCWD, "file", AT_FDCWD, "other", RENAME_EXCHANGE);
}
static void synced_write(void) {
    int file = open_new("file", 0);
    write(file, bytes, 512), write(open("file", O_WRONLY | O_SYNC | O_APPEND), bytes, 512);
}
/* Stores in a map, and each call before which they have to be recorded. The letters say in which order. */
static void map(void) {
    int file = open_new("file", 0), other = open_new("other", 0);
    ftruncate(file, 8192), fsync(file), fsync(folder);
    char *map = mmap(NULL, 8192, PROT_READ, MAP_SHARED, file, 0);
    mprotect(map, 8192, PROT_READ | PROT_WRITE);
    memset(map, 'a', 10), msync(map, 8192, MS_SYNC);
    memset(map, 'b', 10), mark("commit");
    memset(map, 'c', 10), fsync(other);
    memset(map, 'd', 10), fsync(file);
    memset(map, 'e', 10), rename("other", "moved");
    memset(map, 'f', 10), pwrite(file, "g", 1, 0);
    memset(map + 5000, 'h', 10), ftruncate(file, 4096);
    memset(map + 4000, 'i', 96), ftruncate(file, 8192);
    memset(map + 4000, 'j', 192), munmap(map, 8192), close(file);
}
static void sync_map(void) { /* of one page of two */
    int file = open_new("file", 0);
    ftruncate(file, 8192);
    msync(mmap(NULL, 8192, PROT_READ, MAP_SHARED, file, 0), 4096, MS_SYNC);
}
static void collapse(void) {
    int file = open_new("file", 0);
    ftruncate(file, 65536);
    if (fallocate(file, FALLOC_FL_COLLAPSE_RANGE, 0, 4096)) exit(4);
}
static void submit(void) {
    aio_context_t context = 0;
    struct iocb one = { .aio_fildes = (unsigned)open_new("file", 0), .aio_lio_opcode = IOCB_CMD_PWRITE,
                        .aio_buf = (unsigned long)bytes, .aio_nbytes = 10 }, *all[1] = { &one };
    if (syscall(SYS_io_setup, 4, &context)) exit(4);
    syscall(SYS_io_submit, context, 1, all);
}
static void old_call(void) { /* a write by the numbers of 32 bits */
    char *low = mmap((void *)0x10000000, 4096, PROT_READ | PROT_WRITE, MAP_PRIVATE | MAP_ANONYMOUS | MAP_FIXED, -1, 0);
    long answer = 4;
    __asm__ volatile("int $0x80" : "+a"(answer) : "b"(open_new("file", 0)), "c"(low), "d"(3) : "memory");
    if (answer < 0) exit(4);
}
static void listen_to_calls(void) {
    struct sock_filter one = { BPF_RET | BPF_K, 0, 0, SECCOMP_RET_ALLOW };
    struct sock_fprog program = { 1, &one };
    prctl(PR_SET_NO_NEW_PRIVS, 1, 0, 0, 0);
    if (syscall(SYS_seccomp, SECCOMP_SET_MODE_FILTER, SECCOMP_FILTER_FLAG_NEW_LISTENER, &program) < 0) exit(4);
}
static void twice(void) {
    write(open_new("file", 0), "one", 3);
    mark("commit"), mark("commit");
}

#define ONE(name) { #name, name }
static const struct { const char *name; void (*run)(void); } ALL[] = {
    ONE(store), ONE(places), ONE(holes), ONE(streams), ONE(raw), ONE(forks), ONE(threads), ONE(endless),
    ONE(bad_buffer), ONE(stale), ONE(waits), ONE(goes_on), ONE(signalled), ONE(make_folder), ONE(below),
    ONE(change_below), ONE(unlink_below), ONE(rename_below), ONE(make_link), ONE(make_symlink), ONE(comes),
    ONE(leaves), ONE(set_ring), ONE(be_traced), ONE(mounts), ONE(take_away), ONE(undumpable), ONE(exchange),
    ONE(synced_write), ONE(map), ONE(sync_map), ONE(collapse), ONE(submit), ONE(old_call),
    ONE(listen_to_calls), ONE(twice),
};

int main(int count, char **words) {
    marks = open(getenv("SQCRASH_MARKS"), O_WRONLY | O_CREAT | O_APPEND, 0644);
    folder = open(".", O_RDONLY);
    for (size_t i = 0; count == 2 && i < sizeof ALL / sizeof *ALL; i++) {
        if (strcmp(words[1], ALL[i].name)) continue;
        ALL[i].run();
        return 0;
    }
    return 2;
}
