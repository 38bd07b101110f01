/* Calls that open a file by its path, and make or cut it. */
#include "tracer.h"

static int flags_of(struct call *call, int *flags) {
    uint64_t how = 0; /* the first number of struct open_how */
    switch (call->number) {
    case SYS_open: *flags = (int)call->args[1]; break;
    case SYS_creat: *flags = O_CREAT | O_TRUNC | O_WRONLY; break;
    case SYS_openat: *flags = (int)call->args[2]; break;
    default:
        if (!read_memory(call->thread, call->args[2], &how, sizeof how)) return 0;
        *flags = (int)how;
    }
    return (*flags & (O_CREAT | O_TRUNC)) != 0;
}

static void put_made(struct file *file, const char *name) {
    int number = name_of(name);
    put(MAKE, file->number, number, 0, 0, 0, NULL);
    lead(number, file);
}

/* What an open left whose thread can't be asked any more. */
static void end_killed(struct call *call) {
    struct stat state;
    if (call->to.folder < 0 || fstatat(call->to.folder, call->to.last, &state, 0) || !S_ISREG(state.st_mode)) return;
    struct file *file = find_file(&state);
    if (file && !file->below && call->was_there && call->was.st_size > 0 && state.st_size == 0) {
        put(CUT, file->number, 0, 0, 0, 0, NULL);
    }
    if (!file && call->to.is_ours && !call->to.is_there) put_made(add_file(&state), call->to.last);
}

/* The path that the kernel has of a descriptor's file; answers its last part, and puts what the rest leads to into
   `folder`. NULL if there is none. */
static const char *last_part(struct thread *thread, int descriptor, char *path, struct stat *folder) {
    char link[64];
    snprintf(link, sizeof link, "/proc/%d/fd/%d", thread->id, descriptor);
    ssize_t length = readlink(link, path, PATH_MAX - 1);
    if (length <= 0) return NULL;
    path[length] = 0;
    char *slash = strrchr(path, '/');
    if (!slash) return NULL;
    *slash = 0;
    return stat(slash == path ? "/" : path, folder) ? NULL : slash + 1;
}

/* A file that isn't known: a new one, or one of elsewhere. */
static void meet(struct call *call, const struct stat *state, int descriptor) {
    char path[PATH_MAX], below[PATH_MAX + NAME_MAX];
    struct stat folder;
    int is_new = !call->was_there || call->was.st_dev != state->st_dev || call->was.st_ino != state->st_ino;
    const char *last = last_part(call->thread, descriptor, path, &folder);
    struct file *place = last ? find_file(&folder) : NULL;
    if (!last) end_killed(call); /* its process has just been killed */
    if (!last || !is_wanted(last)) return;
    if (place && place->below) {
        snprintf(below, sizeof below, "%s/%s", place->below, last);
        refuse(BELOW, NULL, call->kind->text, below, NULL);
    } else if (is_top(&folder) && is_new) put_made(add_file(state), last);
    else if (is_top(&folder)) refuse(MADE, NULL, call->kind->text, last, NULL);
}

static void end_open(struct call *call, int64_t answer) {
    struct seen seen;
    if (answer < 0 && answer != KILLED) return;
    if (answer == KILLED || !look(call->thread, (int)answer, &seen)) { /* or closed already by another thread */
        end_killed(call);
        return;
    }
    if (!S_ISREG(seen.state.st_mode) || seen.state.st_nlink == 0) return;
    struct file *file = find_file(&seen.state);
    if (!file && meet_marks(&seen.state)) return;
    if (!file) meet(call, &seen.state, (int)answer);
    else if (!(call->flags & O_TRUNC) || !call->was.st_size) return;
    else if (file->below) refuse(BELOW, NULL, call->kind->text, file->below, NULL);
    else put(CUT, file->number, file->name < 0 ? 0 : file->name, 0, 0, 0, NULL);
}

/* That a name is or isn't there may change before the call is made, unless it is made alone. So it passes only if
   neither its file nor its folder is of the recorded ones. */
enum answer ask_open(struct call *call) {
    char path[PATH_MAX + 64];
    int is_at = call->number == SYS_openat || call->number == SYS_openat2;
    int at = is_at ? (int)call->args[0] : AT_FDCWD;
    uint64_t path_at = call->args[is_at];
    if (!flags_of(call, &call->flags) || !path_here(call->thread, at, path_at, path, sizeof path)) return PASS;
    call->end = end_open;
    call->was_there = !stat(path, &call->was);
    if (call->was_there && !S_ISREG(call->was.st_mode)) return PASS; /* a pipe may be waited for */
    side_open(call->thread, at, path_at, &call->to);
    if (!call->was_there || call->flags & O_TRUNC) return ENTER;
    return call->to.is_ours || call->to.below || find_file(&call->was) ? ENTER : PASS;
}

/* Which file a handle is of can't be seen before the call. */
enum answer ask_handle(struct call *call) {
    refuse(UNSEEN, NULL, call->kind->text, "", "it cuts a file that isn't named");
    return PASS;
}
