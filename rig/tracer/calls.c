/* The system calls that stop at their entry, and the filter that makes them stop. */
#include "tracer.h"
#include <linux/audit.h>
#include <linux/filter.h>
#include <linux/fs.h>
#include <linux/seccomp.h>
#include <stddef.h>
#include <sys/mman.h>
#include <sys/prctl.h>

enum { DESCRIPTOR, PATH, X32 = 0x40000000 };

#define ALL NONE, 0

const struct kind KINDS[] = {
    { SYS_write, "write", ask_write, DESCRIPTOR, ALL },
    { SYS_pwrite64, "pwrite", ask_write, DESCRIPTOR, ALL },
    { SYS_writev, "writev", ask_write, DESCRIPTOR, ALL },
    { SYS_pwritev, "pwritev", ask_write, DESCRIPTOR, ALL },
    { SYS_pwritev2, "pwritev2", ask_write, DESCRIPTOR, ALL },
    { SYS_sendfile, "sendfile", ask_write, DESCRIPTOR, ALL },
    { SYS_copy_file_range, "copy_file_range", ask_write, DESCRIPTOR, ALL },
    { SYS_splice, "splice", ask_write, DESCRIPTOR, ALL },
    { SYS_ftruncate, "ftruncate", ask_ftruncate, DESCRIPTOR, ALL },
    { SYS_truncate, "truncate", ask_truncate, PATH, ALL },
    { SYS_fallocate, "fallocate", ask_room, DESCRIPTOR, ALL },
    { SYS_fsync, "fsync", ask_fsync, DESCRIPTOR, ALL },
    { SYS_fdatasync, "fdatasync", ask_fsync, DESCRIPTOR, ALL },
    { SYS_syncfs, "syncfs", ask_sync, DESCRIPTOR, ALL },
    { SYS_sync, "sync", ask_sync, DESCRIPTOR, ALL },
    { SYS_open, "open", ask_open, PATH, 1, O_CREAT | O_TRUNC },
    { SYS_openat, "open", ask_open, PATH, 2, O_CREAT | O_TRUNC },
    { SYS_openat2, "open", ask_open, PATH, ALL },
    { SYS_creat, "creat", ask_open, PATH, ALL },
    { SYS_open_by_handle_at, "open_by_handle_at", ask_handle, DESCRIPTOR, 2, O_TRUNC },
    { SYS_unlink, "unlink", ask_unlink, PATH, ALL },
    { SYS_unlinkat, "unlink", ask_unlink, PATH, ALL },
    { SYS_rmdir, "rmdir", ask_unlink, PATH, ALL },
    { SYS_rename, "rename", ask_rename, PATH, ALL },
    { SYS_renameat, "rename", ask_rename, PATH, ALL },
    { SYS_renameat2, "rename", ask_rename, PATH, ALL },
    { SYS_link, "link", ask_link, PATH, ALL },
    { SYS_linkat, "link", ask_link, PATH, ALL },
    { SYS_symlink, "symlink", ask_new, PATH, ALL },
    { SYS_symlinkat, "symlink", ask_new, PATH, ALL },
    { SYS_mkdir, "mkdir", ask_new, PATH, ALL },
    { SYS_mkdirat, "mkdir", ask_new, PATH, ALL },
    { SYS_mknod, "mknod", ask_new, PATH, ALL },
    { SYS_mknodat, "mknod", ask_new, PATH, ALL },
    { SYS_mmap, "mmap", ask_mmap, DESCRIPTOR, 3, MAP_SHARED },
    { SYS_msync, "msync", ask_msync, DESCRIPTOR, 2, MS_SYNC },
    { SYS_ioctl, "ioctl", ask_ioctl, DESCRIPTOR, ALL }, /* of COMMANDS */
    { SYS_io_uring_setup, "io_uring_setup", ask_uring, DESCRIPTOR, ALL },
    { SYS_io_submit, "io_submit", ask_submit, DESCRIPTOR, ALL },
    { SYS_mount, "mount", ask_unseen, DESCRIPTOR, ALL },
    { SYS_move_mount, "move_mount", ask_unseen, DESCRIPTOR, ALL },
    { SYS_ptrace, "ptrace", ask_unseen, DESCRIPTOR, ALL },
    { SYS_seccomp, "seccomp", ask_unseen, DESCRIPTOR, 1, SECCOMP_FILTER_FLAG_NEW_LISTENER },
    { NONE, "a call of 32 bits", ask_unseen, DESCRIPTOR, ALL },
};
const int KIND_COUNT = sizeof KINDS / sizeof *KINDS;

/* Commands of ioctl that change a file's bytes: clones, atomic writes of f2fs, room of XFS, moves of ext4. */
static const uint32_t COMMANDS[] = {
    FICLONE, FICLONERANGE, 0xf501, 0xf502, 0xf503, 0xf504,
    0x40305828, 0x4030582a, 0x4030582b, 0x40305839, 0xc028660f, 0x6611,
};

const struct kind *find_kind(int number) {
    for (int i = 0; i < KIND_COUNT; i++) if (KINDS[i].number == number) return &KINDS[i];
    return NULL;
}

/* ---- The filter. */

static struct sock_filter filter[512];
static unsigned short filter_count;

static void add(uint16_t code, uint32_t value, uint8_t if_so, uint8_t if_not) {
    filter[filter_count++] = (struct sock_filter){ code, if_so, if_not, value };
}

static void add_load(size_t at) { add(BPF_LD | BPF_W | BPF_ABS, (uint32_t)at, 0, 0); }
static void add_answer(uint32_t answer) { add(BPF_RET | BPF_K, answer, 0, 0); }

/* The number of the call is loaded already. The 1 in the answer says that it is one of x86-64; others have a 2. */
static void add_kind(const struct kind *kind) {
    if (kind->number == NONE || kind->number == SYS_ioctl) return;
    add(BPF_JMP | BPF_JEQ | BPF_K, (uint32_t)kind->number, 0, kind->argument == NONE ? 1 : 4);
    if (kind->argument != NONE) {
        add_load(offsetof(struct seccomp_data, args) + 8 * (size_t)kind->argument);
        add(BPF_JMP | BPF_JSET | BPF_K, kind->bits, 1, 0);
        add_answer(SECCOMP_RET_ALLOW);
    }
    add_answer(SECCOMP_RET_TRACE | 1);
}

static void make_filter(void) {
    add_load(offsetof(struct seccomp_data, arch));
    add(BPF_JMP | BPF_JEQ | BPF_K, AUDIT_ARCH_X86_64, 1, 0);
    add_answer(SECCOMP_RET_TRACE | 2);
    add_load(offsetof(struct seccomp_data, nr));
    add(BPF_JMP | BPF_JSET | BPF_K, X32, 0, 1);
    add_answer(SECCOMP_RET_TRACE | 2);
    for (int i = 0; i < KIND_COUNT; i++) add_kind(&KINDS[i]);
    add(BPF_JMP | BPF_JEQ | BPF_K, SYS_ioctl, 1, 0);
    add_answer(SECCOMP_RET_ALLOW);
    add_load(offsetof(struct seccomp_data, args) + 8);
    for (size_t i = 0; i < sizeof COMMANDS / sizeof *COMMANDS; i++) {
        add(BPF_JMP | BPF_JEQ | BPF_K, COMMANDS[i], 0, 1);
        add_answer(SECCOMP_RET_TRACE | 1);
    }
    add_answer(SECCOMP_RET_ALLOW);
}

/* Makes the calls of this process, and of all that it starts, stop for its tracer. Without the right to do so alone, no
   program that it starts gets rights by its file. */
int install_filter(void) {
    make_filter();
    struct sock_fprog program = { filter_count, filter };
    if (!syscall(SYS_seccomp, SECCOMP_SET_MODE_FILTER, 0, &program)) return 1;
    prctl(PR_SET_NO_NEW_PRIVS, 1, 0, 0, 0);
    return !syscall(SYS_seccomp, SECCOMP_SET_MODE_FILTER, 0, &program);
}
