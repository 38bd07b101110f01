/* Marks: lines that the program writes to the path in $SQCRASH_MARKS. */
#include "tracer.h"

const char *marks_path;
static dev_t marks_device;
static ino_t marks_inode;

/* The path of the marks leads to this file. */
void learn_marks(const struct stat *state) {
    marks_device = state->st_dev;
    marks_inode = state->st_ino;
}

int is_marks(const struct stat *state) {
    return marks_inode && state->st_dev == marks_device && state->st_ino == marks_inode;
}

/* Whether the path of the marks leads to this file now. A new file may have the inode's number of old marks. */
int meet_marks(const struct stat *state) {
    struct stat is;
    int leads = marks_path && !stat(marks_path, &is) && is.st_dev == state->st_dev && is.st_ino == state->st_ino;
    if (leads) learn_marks(state);
    else if (is_marks(state)) marks_inode = 0;
    return leads;
}

/* What the program hands to the call; NULL if the kernel takes it from another file. */
static char *lines_of(struct call *call, size_t *count) {
    if (call->number == SYS_sendfile || call->number == SYS_splice || call->number == SYS_copy_file_range) {
        refuse(UNSEEN, NULL, call->kind->text, marks_path, "a mark that isn't written by the program");
        return NULL;
    }
    return bytes_of_call(call, count);
}

static void end_mark(struct call *call, int64_t answer) {
    size_t count = 0;
    if (answer <= 0) return;
    if (call->count > (uint64_t)answer) call->count = (uint64_t)answer;
    char *lines = lines_of(call, &count);
    if (lines) put_marks(call->thread, lines, count);
    free(lines);
}

/* A mark to a pipe or a terminal, whose call may wait for another thread: it is recorded at the call's entry. */
void record_mark(struct call *call) {
    size_t count = 0;
    char *lines = lines_of(call, &count);
    if (lines) put_marks(call->thread, lines, count);
    free(lines);
}

enum answer ask_mark(struct call *call, const struct seen *seen) {
    call->end = end_mark;
    return S_ISREG(seen->state.st_mode) ? ENTER : RECORD;
}
