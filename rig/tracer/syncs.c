/* Calls that make a file, or the folder, durable. sync_file_range promises nothing, so nothing is recorded. */
#include "tracer.h"

static void end_fsync(struct call *call, int64_t answer) {
    int is_data = call->number == SYS_fdatasync;
    if (answer == KILLED) return;
    if (call->file) put(SYNC, call->file->number, 0, answer, (uint64_t)is_data, 0, NULL);
    else put(FOLDER_SYNC, 0, 0, answer, (uint64_t)is_data, 0, NULL);
}

enum answer ask_fsync(struct call *call) {
    struct seen seen;
    call->end = end_fsync;
    if (!look(call->thread, (int)call->args[0], &seen)) return PASS;
    call->file = find_file(&seen.state);
    return (call->file && !call->file->below) || is_top(&seen.state) ? ENTER : PASS;
}

static void end_sync(struct call *call, int64_t answer) {
    (void)call;
    if (answer < 0) return;
    for (int i = 0; i < file_count; i++) if (files[i] && files[i]->is_dirty) put(SYNC, i, 0, 0, 0, 0, NULL);
    put(FOLDER_SYNC, 0, 0, 0, 0, 0, NULL);
}

/* sync; and syncfs of the file system that the folder is in. */
enum answer ask_sync(struct call *call) {
    struct seen seen;
    struct stat state;
    call->end = end_sync;
    if (call->number == SYS_sync) return ENTER;
    if (!look(call->thread, (int)call->args[0], &seen) || fstat(top, &state)) return PASS;
    return seen.state.st_dev == state.st_dev ? ENTER : PASS;
}
