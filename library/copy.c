/* copy.c: makes a new file with what a recovery would leave of a database. It decides nothing of a database: the path
   is opened as sqr_open_path opens it, and what is written are the pages of sqr_plan's view, or the file as it stands.
   The new file is made under another name, and gets its own once it is whole and durable. Not proved. */
#define _GNU_SOURCE
#include "files.h"
#include "../locks/raw.h"
#include <errno.h>
#include <limits.h>
#include <stdio.h>
#include <stdlib.h>
#include <string.h>

#define AT_ONCE 65536 /* bytes; no page is longer */

struct part { /* a file that is made, by the name that it has meanwhile */
    int fd;
    const char *to;
    char name[PATH_MAX + 16];
};

struct copied { /* what is copied: the pages of a view, or where it has none the file's bytes */
    struct sqr_call call;
    const char *path, *to, *folder; /* the folder of OUT */
    uint32_t flags, at;
    struct sqr_path from;
    uint64_t *places;
    struct sqr_plan plan;
    const struct sqr_view *view;
    struct sqr_recovered found;
};

struct run { /* bytes of FILE that are still to be read */
    uint64_t at;
    size_t len;
    uint8_t *to;
};

static int are_same(const struct stat *a, const struct stat *b) {
    return a->st_dev == b->st_dev && a->st_ino == b->st_ino;
}

static const char *last_of(const char *path) {
    const char *slash = strrchr(path, '/');
    return slash ? slash + 1 : path;
}

static void folder_of(char *folder, const char *path) { /* into PATH_MAX + 16 bytes; "" ends in no slash */
    const size_t len = (size_t)(last_of(path) - path);
    memcpy(folder, path, len);
    strcpy(folder + len, ".");
}

static int are_in_one_folder(const char *path, const char *other) { /* also where the system doesn't say */
    char here[PATH_MAX + 16], there[PATH_MAX + 16];
    struct stat a, b;
    folder_of(here, path);
    folder_of(there, other);
    return stat(here, &a) || stat(there, &b) || are_same(&a, &b);
}

/* Whether SQLite takes what lies at a path for a log, or FILE-shm, of the database at another. */
static int is_log_of(const char *to, const char *path) {
    static const char *const ends[] = {"-wal", "-journal", "-shm"};
    char name[PATH_MAX + 16];
    for (size_t i = 0; i < sizeof ends / sizeof *ends; i++) {
        sqr_file_name(name, last_of(path), ends[i]);
        if (!strcmp(name, last_of(to))) return are_in_one_folder(to, path);
    }
    return 0;
}

/* Whether a file is one of those of the database at a path. */
static int is_of(const struct stat *found, const char *path) {
    static const char *const ends[] = {"", "-wal", "-journal", "-shm"};
    char name[PATH_MAX + 16];
    struct stat other;
    for (size_t i = 0; i < sizeof ends / sizeof *ends; i++) {
        sqr_file_name(name, path, ends[i]);
        if (!lstat(name, &other) && are_same(found, &other)) return 1;
    }
    return 0;
}

/* Opens the file under its first name, in place of what a call that was stopped left there: 0, or errno. If the
   name comes and goes, others write the same OUT; EAGAIN if that doesn't end. */
static int open_part(struct part *part, const char *path, mode_t mode) {
    struct stat found;
    for (int tries = 0; tries < 100; tries++) {
        part->fd = sqr_raw_open(part->name, O_WRONLY | O_CREAT | O_EXCL | O_NOFOLLOW | O_NOCTTY | O_CLOEXEC, mode);
        if (part->fd >= 0) return 0;
        if (errno != EEXIST) return errno;
        if (lstat(part->name, &found)) {
            if (errno != ENOENT) return errno;
        } else if (is_of(&found, path)) return EEXIST;
        else if (unlink(part->name) && errno != ENOENT) return errno;
    }
    return EAGAIN;
}

/* The name meanwhile is OUT.sqrescue-part, or where that is too long or a file of the database .sqrescue-part. */
static uint32_t begin(struct part *part, const char *path, mode_t mode) {
    struct stat found;
    if (lstat(part->to, &found) == 0) return SQR_ALREADY_THERE;
    if (errno != ENOENT) return sqr_file_unwritten(errno);
    sqr_file_name(part->name, part->to, ".sqrescue-part");
    int error = open_part(part, path, mode);
    if (error == ENAMETOOLONG || error == EEXIST) {
        folder_of(part->name, part->to);
        strcat(part->name, "sqrescue-part"); /* the folder ends in a point */
        error = open_part(part, path, mode);
    }
    if (error == EAGAIN) return SQR_IN_USE;
    return error ? sqr_file_unwritten(error) : SQR_OK;
}

static int is_open_as(int fd, const struct stat *found) {
    struct stat own;
    return !fstat(fd, &own) && are_same(&own, found);
}

/* Whether the file still has its name meanwhile, and no other call has taken that. */
static int is_at(const struct part *part) {
    struct stat there;
    return !lstat(part->name, &there) && is_open_as(part->fd, &there);
}

/* Makes the new name durable. If the folder can't be opened or synced, all of its file system is. */
static uint32_t sync_folder(const struct part *part) {
    char folder[PATH_MAX + 16];
    folder_of(folder, part->to);
    int error = EINVAL, fd = open(folder, O_RDONLY | O_DIRECTORY | O_CLOEXEC);
    if (fd >= 0) {
        error = fsync(fd) ? errno : 0;
        close(fd);
    }
    if (error == EINVAL || error == ENOSYS || error == EOPNOTSUPP) error = syncfs(part->fd) ? errno : 0;
    return error ? sqr_file_unwritten(error) : SQR_OK;
}

/* Gives the open file a second name; by the first it could be another call's. Not by /proc/self/fd, which has the
   files of the main thread. */
static int linked(const struct part *part) {
    char own[48];
    snprintf(own, sizeof own, "/proc/thread-self/fd/%d", part->fd);
    int answer = linkat(AT_FDCWD, own, AT_FDCWD, part->to, AT_SYMLINK_FOLLOW);
    if (!answer || errno != ENOENT || !access("/proc/thread-self/fd", F_OK)) return answer;
    return link(part->name, part->to);
}

/* Gives the file its name, which nothing may have; only where the system has no links, what comes there between the
   look and the renaming is replaced. */
static uint32_t end(const struct part *part) {
    struct stat found;
    if (!is_at(part)) return SQR_IN_USE;
    if (linked(part) == 0) unlink(part->name);
    else if (errno == ENOENT) return is_at(part) ? sqr_file_unwritten(ENOENT) : SQR_IN_USE;
    else if (errno != EPERM && errno != EOPNOTSUPP && errno != EMLINK) return sqr_file_unwritten(errno);
    else if (lstat(part->to, &found) == 0) return SQR_ALREADY_THERE;
    else if (rename(part->name, part->to)) return sqr_file_unwritten(errno);
    uint32_t status = sync_folder(part);
    if (status && lstat(part->to, &found) == 0 && is_open_as(part->fd, &found)) unlink(part->to);
    return status;
}

/* Bytes of FILE, with zeros for those that it doesn't have. If malloc hasn't a copy of them they are read: FILE needs
   no memory then, and an error of the disk is a status. */
static uint32_t take(const struct sqr_path *from, struct run *run) {
    const struct sqr_opened *db = &from->db;
    while (run->len) {
        ssize_t more = 0;
        if (!db->is_heap) more = pread(from->held.file, run->to, run->len, (off_t)run->at);
        else if (run->at < db->len) {
            more = (ssize_t)(db->len - run->at < run->len ? db->len - run->at : run->len);
            memcpy(run->to, db->bytes + run->at, (size_t)more);
        }
        if (more < 0 && errno != EINTR) return sqr_file_status(errno);
        if (more == 0) {
            memset(run->to, 0, run->len);
            run->len = 0;
        }
        if (more > 0) run->to += more, run->len -= (size_t)more, run->at += (uint64_t)more;
    }
    return SQR_OK;
}

/* Writes so many pages of the view, from this one on, to the buffer. Those that lie one after another in FILE are read
   at once. */
static uint32_t take_pages(const struct copied *it, uint32_t page, size_t count, uint8_t *buffer) {
    const size_t each = it->view->page_size;
    struct run run = {0, 0, buffer};
    uint32_t status = SQR_OK;
    for (size_t i = 0; !status && i < count; i++) {
        struct sqr_place place = {0, 0};
        status = sqr_page_place(it->view, page + (uint32_t)i, &place);
        const int is_next = !status && !place.is_of_log && run.len && place.at == run.at + run.len;
        if (!status && !is_next) status = take(&it->from, &run);
        if (status) break;
        if (place.is_of_log) status = sqr_page(it->view, page + (uint32_t)i, buffer + i * each, each);
        else if (is_next) run.len += each;
        else run = (struct run){place.at, each, buffer + i * each};
    }
    return status ? status : take(&it->from, &run);
}

static uint32_t put_pages(int fd, const struct copied *it, uint8_t *buffer) {
    const size_t each = it->view->page_size, at_once = AT_ONCE / each;
    const uint32_t pages = it->view->pages;
    uint32_t status = SQR_OK;
    for (uint32_t done = 0, count; !status && done < pages; done += count) {
        count = pages - done < at_once ? pages - done : (uint32_t)at_once;
        status = take_pages(it, done + 1, count, buffer);
        if (!status) status = sqr_file_put(fd, buffer, count * each, (uint64_t)done * each);
    }
    return status;
}

/* FILE as it stands. Its holes aren't read, unless it was copied before: it may have other holes since then. */
static uint32_t put_file(int fd, const struct copied *it, uint8_t *buffer) {
    const off_t all = (off_t)it->from.files.db_len;
    uint32_t status = SQR_OK;
    for (struct sqr_data next = {0, 0}; !status && next.at < all;) {
        if (it->from.db.is_heap) next.end = all;
        else if (next.at == next.end) next = sqr_file_data(it->from.held.file, next.at, all);
        const size_t len = next.end - next.at < AT_ONCE ? (size_t)(next.end - next.at) : AT_ONCE;
        status = take(&it->from, &(struct run){(uint64_t)next.at, len, buffer});
        if (!status) status = sqr_file_put(fd, buffer, len, (uint64_t)next.at);
        next.at += (off_t)len;
    }
    return status;
}

/* The whole file, durable. */
static uint32_t put_all(int fd, const struct copied *it) {
    uint8_t *buffer = malloc(AT_ONCE);
    if (!buffer) return SQR_NO_MEMORY;
    const uint64_t len = it->view ? (uint64_t)it->view->pages * it->view->page_size : it->from.files.db_len;
    uint32_t status = it->view ? put_pages(fd, it, buffer) : put_file(fd, it, buffer);
    free(buffer);
    if (!status && (ftruncate(fd, (off_t)len) || fsync(fd))) status = sqr_file_unwritten(errno);
    return status;
}

static uint32_t make(const struct copied *it) {
    struct part part = {.fd = -1, .to = it->to};
    struct stat file;
    if (is_log_of(it->to, it->path)) return SQR_MISUSE;
    if (fstat(it->from.held.file, &file)) return sqr_file_status(errno);
    uint32_t status = begin(&part, it->path, file.st_mode & 0777);
    if (status) return status;
    status = put_all(part.fd, it);
    if (!status) status = sqr_path_kept(&it->from);
    if (!status) status = end(&part);
    if (status && is_at(&part)) unlink(part.name);
    close(part.fd);
    return status;
}

/* What is to be copied: at a commit, or at 0, the view that the path is opened with; otherwise what the plan leaves. */
static uint32_t look(struct copied *it) {
    const int is_past = (it->flags & SQR_AT) != 0;
    const uint32_t how = is_past ? it->flags : (it->flags & (SQR_NO_LOCK | SQR_ANY)) | SQR_FILES_ONLY;
    it->from.db.folder = it->from.wal.folder = it->from.journal.folder = it->folder;
    uint32_t status = sqr_path_begin(&it->from, it->path, how, it->at);
    it->call.is_held_up = status == SQR_IN_USE;
    if (status) return status;
    if (is_past) {
        const uint32_t recovery = it->at ? SQR_RECOVERY_FOLD : SQR_RECOVERY_NONE;
        it->view = &it->from.view;
        it->found = (struct sqr_recovered){recovery, it->view->page_size, it->view->pages};
        return SQR_OK;
    }
    status = sqr_file_plan(&it->from.files, &it->places, &it->plan, &it->found);
    if (status) return status;
    const uint32_t recovery = it->plan.recovery;
    if (recovery == SQR_RECOVERY_FOLD || recovery == SQR_RECOVERY_ROLL_BACK) it->view = &it->plan.view;
    sqr_path_let_write(&it->from, &it->plan.view);
    return SQR_OK;
}

static void copy_once(struct sqr_task *task, struct sqr_call *call) {
    struct copied *it = (struct copied *)call;
    (void)task;
    call->status = look(it);
    if (!call->status) call->status = make(it);
    if (call->status && sqr_path_kept(&it->from)) call->status = SQR_IN_USE, call->is_held_up = 1;
    sqr_path_end(&it->from);
    free(it->places);
    it->places = NULL;
}

static uint32_t copied(struct copied *it, const char *path, const struct sqr_options *options) {
    struct sqr_asked asked = {0, 0};
    char real[PATH_MAX], folder[PATH_MAX + 16];
    uint32_t status = sqr_file_asked(path, it->flags, SQR_NO_LOCK | SQR_AT | SQR_ANY, options, real, &asked);
    folder_of(folder, it->to);
    it->path = real, it->at = asked.at, it->folder = folder;
    if (!status) status = sqr_call_run(copy_once, &it->call, real, NULL, asked.wait);
    it->path = it->folder = NULL; /* both end here */
    return status;
}

uint32_t sqr_recover_to(const char *path, const char *to, uint32_t flags, const struct sqr_options *options,
                        struct sqr_recovered *out) {
    struct copied it = {.to = to, .flags = flags, .from = SQR_PATH_INIT, .plan = SQR_PLAN_INIT};
    const int before = sqr_call_begun();
    if (!to) return SQR_MISUSE;
    if (!*to) return sqr_call_ended(sqr_file_status(ENOENT), before);
    if (strnlen(to, PATH_MAX) == PATH_MAX) return sqr_call_ended(sqr_file_status(ENAMETOOLONG), before);
    uint32_t status = copied(&it, path, options);
    if (!status && out) *out = it.found;
    return sqr_call_ended(status, before);
}
