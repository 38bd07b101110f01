/* Calls whose effect isn't seen: they are refused by name, and made. */
#include "tracer.h"
#include <linux/aio_abi.h>

enum { MOST_SUBMITTED = 65536 };

int no_uring;

enum answer ask_uring(struct call *call) {
    if (no_uring) return FAIL;
    refuse(UNSEEN, NULL, call->kind->text, "", "calls by a ring aren't seen; --no-uring answers ENOSYS instead");
    return PASS;
}

/* Asynchronous writes and syncs go on after the call. */
enum answer ask_submit(struct call *call) {
    for (uint64_t i = 0; i < call->args[1] && i < MOST_SUBMITTED; i++) {
        uint64_t at;
        struct iocb one;
        struct seen seen;
        if (!read_memory(call->thread, call->args[2] + 8 * i, &at, sizeof at)) break;
        if (!read_memory(call->thread, at, &one, sizeof one)) break;
        if (one.aio_lio_opcode == IOCB_CMD_PREAD || one.aio_lio_opcode == IOCB_CMD_PREADV) continue;
        if (!look(call->thread, (int)one.aio_fildes, &seen)) continue;
        struct file *file = file_to_change(call, &seen.state);
        if (file) refuse(UNSEEN, file, call->kind->text, name_in_text(file), "it goes on after the call");
    }
    return PASS;
}

enum answer ask_unseen(struct call *call) {
    const char *why = call->number == SYS_ptrace ? "a traced program can't trace another"
        : call->number == SYS_seccomp ? "a listener may make calls for the program"
        : call->number == NONE ? "calls of 32 bits and of x32 aren't seen"
        : "paths may lead elsewhere after it";
    refuse(UNSEEN, NULL, call->kind->text, "", why);
    return PASS;
}
