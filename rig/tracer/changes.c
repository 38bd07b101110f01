/* Calls by which names go, change or come. */
#include "tracer.h"
#include <stdio.h>

#ifndef RENAME_NOREPLACE
#define RENAME_NOREPLACE 1
#endif

static const char *whole_name(const struct side *side, char *to, size_t room) { /* the path below the folder */
    if (!side->below || !side->below->below) return side->last;
    snprintf(to, room, "%s/%s", side->below->below, side->last);
    return to;
}

static int is_same(const struct stat *one, const struct stat *other) {
    return one->st_dev == other->st_dev && one->st_ino == other->st_ino;
}

/* What has the name after the call. */
static int is_there(const struct side *side, struct stat *state) {
    return !fstatat(side->folder, side->last, state, AT_SYMLINK_NOFOLLOW);
}

static int is_of_folder(const struct side *side) { /* it is in the folder, or in one of its folders */
    return side->is_ours || side->below;
}

static int leads_to_top(const struct side *side) {
    return side->is_there && is_top(&side->state);
}

static void refuse_top(struct call *call) {
    refuse(UNSEEN, NULL, call->kind->text, top_path, "the folder itself was taken away");
}

/* ---- Names that go. */

static int is_rmdir(const struct call *call) {
    return call->number == SYS_rmdir || (call->number == SYS_unlinkat && call->args[2] & AT_REMOVEDIR);
}

static void end_unlink(struct call *call, int64_t answer) {
    struct stat state;
    char path[PATH_MAX + NAME_MAX];
    const struct side *from = &call->from;
    if (answer == KILLED) answer = from->is_there && !is_there(from, &state) ? 0 : -EINTR;
    if (leads_to_top(from) || is_rmdir(call) || !from->is_ours) {
        if (answer == 0 && leads_to_top(from)) refuse_top(call);
        else if (answer == 0) refuse(BELOW, NULL, call->kind->text, whole_name(from, path, sizeof path), NULL);
        return;
    }
    if (from->is_there && !S_ISREG(from->state.st_mode)) return;
    int name = name_of(from->last);
    struct file *file = names[name].file;
    put(UNLINK, 0, name, answer, 0, 0, NULL);
    if (answer < 0) {
        unpin(file);
        return;
    }
    if (!file) refuse(MADE, NULL, call->kind->text, from->last, NULL);
    lead(name, NULL);
    let_go(file);
}

enum answer ask_unlink(struct call *call) {
    int is_at = call->number == SYS_unlinkat;
    call->end = end_unlink;
    if (!side_open(call->thread, is_at ? (int)call->args[0] : AT_FDCWD, call->args[is_at], &call->from)) return PASS;
    if (!is_of_folder(&call->from) && !leads_to_top(&call->from)) return PASS;
    if (call->from.is_ours && call->from.is_there) pin(find_file(&call->from.state), &call->from);
    return ENTER;
}

/* ---- Names that change. */

static void put_renamed(struct call *call, int64_t answer) {
    int from = name_of(call->from.last), to = name_of(call->to.last);
    struct file *file = names[from].file, *old = names[to].file;
    put(RENAME, 0, from, answer, (uint64_t)to, 0, NULL);
    if (answer < 0) {
        unpin(old);
        return;
    }
    lead(from, NULL);
    lead(to, file);
    let_go(old);
}

static void end_rename(struct call *call, int64_t answer) {
    struct stat state;
    char path[PATH_MAX + NAME_MAX];
    const struct side *from = &call->from, *to = &call->to;
    int number = known_name(from->last);
    if (answer == KILLED) answer = is_there(to, &state) && is_same(&state, &from->state) ? 0 : -EINTR;
    if (leads_to_top(from)) {
        if (answer == 0) refuse_top(call);
    } else if (from->below || to->below) {
        const struct side *side = from->below ? from : to;
        if (answer == 0) refuse(BELOW, NULL, call->kind->text, whole_name(side, path, sizeof path), NULL);
    } else if (!from->is_ours || !to->is_ours || call->flags & ~RENAME_NOREPLACE
               || (answer == 0 && (number < 0 || !names[number].file))) {
        if (answer == 0) refuse(LINK, NULL, call->kind->text, from->is_ours ? from->last : to->last, NULL);
    } else if (strcmp(from->last, to->last)) put_renamed(call, answer);
}

enum answer ask_rename(struct call *call) {
    const uint64_t *args = call->args;
    int is_at = call->number != SYS_rename;
    call->end = end_rename;
    call->flags = call->number == SYS_renameat2 ? (int)args[4] : 0;
    if (!side_open(call->thread, is_at ? (int)args[0] : AT_FDCWD, args[is_at], &call->from)) return PASS;
    if (!side_open(call->thread, is_at ? (int)args[2] : AT_FDCWD, args[is_at ? 3 : 1], &call->to)) return PASS;
    if (!is_of_folder(&call->from) && !is_of_folder(&call->to) && !leads_to_top(&call->from)) return PASS;
    if (call->to.is_ours && call->to.is_there) pin(find_file(&call->to.state), &call->to);
    return ENTER;
}

/* ---- Names that come. */

static void end_link(struct call *call, int64_t answer) {
    struct stat state;
    char path[PATH_MAX + NAME_MAX];
    const struct side *side = is_of_folder(&call->from) ? &call->from : &call->to;
    if (answer == KILLED) answer = !call->to.is_there && is_there(&call->to, &state) ? 0 : -EINTR;
    if (answer == 0) refuse(LINK, NULL, call->kind->text, whole_name(side, path, sizeof path), NULL);
}

enum answer ask_link(struct call *call) {
    const uint64_t *args = call->args;
    int is_at = call->number != SYS_link;
    call->end = end_link;
    side_open(call->thread, is_at ? (int)args[0] : AT_FDCWD, args[is_at ? 1 : 0], &call->from);
    if (!side_open(call->thread, is_at ? (int)args[2] : AT_FDCWD, args[is_at ? 3 : 1], &call->to)) return PASS;
    return is_of_folder(&call->from) || is_of_folder(&call->to) ? ENTER : PASS;
}

static int makes_file(const struct call *call) { /* mknod of a regular file */
    if (call->number != SYS_mknod && call->number != SYS_mknodat) return 0;
    int kind = (int)call->args[call->number == SYS_mknodat ? 2 : 1] & S_IFMT;
    return kind == 0 || kind == S_IFREG;
}

static void end_new(struct call *call, int64_t answer) {
    struct stat state;
    char path[PATH_MAX + NAME_MAX];
    int is_now = is_there(&call->to, &state);
    if (answer == KILLED) answer = !call->to.is_there && is_now ? 0 : -EINTR;
    if (answer < 0 || !is_now) return;
    const char *name = whole_name(&call->to, path, sizeof path);
    if (call->to.below || S_ISDIR(state.st_mode)) refuse(BELOW, NULL, call->kind->text, name, NULL);
    else if (S_ISLNK(state.st_mode)) refuse(LINK, NULL, call->kind->text, name, NULL);
    else if (makes_file(call)) {
        struct file *file = add_file(&state);
        int number = name_of(name);
        put(MAKE, file->number, number, 0, 0, 0, NULL);
        lead(number, file);
    }
}

/* mkdir, symlink and mknod; pipes and sockets aren't recorded. */
enum answer ask_new(struct call *call) {
    const uint64_t *args = call->args;
    uint64_t path_at = args[0];
    int at = AT_FDCWD;
    call->end = end_new;
    if (call->number == SYS_symlink) path_at = args[1];
    if (call->number == SYS_symlinkat) at = (int)args[1], path_at = args[2];
    if (call->number == SYS_mkdirat || call->number == SYS_mknodat) at = (int)args[0], path_at = args[1];
    if (!side_open(call->thread, at, path_at, &call->to)) return PASS;
    return is_of_folder(&call->to) ? ENTER : PASS;
}
