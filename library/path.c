/* path.c: opens a database by its path for the calls of sqrescue.h. It decides nothing of a database: it leads links to
   their file, takes SQLite's locks by the proved plan (locks/held.c), maps FILE and its logs or copies them where no
   lock keeps them as they are, cuts the log where the proved reading of FILE-shm says, and hands the bytes to the calls
   over memory. Not proved. */
#define _GNU_SOURCE
#include "files.h"
#include "../locks/raw.h"
#include "../locks/sqlocks.h"
#include <errno.h>
#include <limits.h>
#include <stdlib.h>
#include <string.h>

enum how { UNLOCKED, FRONT, SCANNED, SCANNED_ALONE, NO_INDEX, NO_JOURNAL }; /* which locks are held; beside no FILE-shm,
                                                                         whether a journal is current */

uint64_t sqr_index_end(const uint8_t *index, size_t len);

static const struct sqr_view no_view = SQR_VIEW_INIT;
static const struct sqr_files no_files = {(const uint8_t *)"", 0, (const uint8_t *)"", 0, (const uint8_t *)"", 0};

static int is_there(const char *path, const char *end) {
    char name[PATH_MAX + 16];
    struct stat found;
    sqr_file_name(name, path, end);
    return lstat(name, &found) == 0 || errno != ENOENT;
}

/* Which locks the plan came to: what it would give back first, and for a log that is scanned, whether the last that
   was asked before is that no connection is live. Byte 1073742337 of FILE says that no journal is current. */
static uint32_t how_held(const struct sqr_held *held, enum how *how) {
    struct sqr_lock_step back, before;
    if (sqr_lock_step(held->want, held->answers, held->count, &back)
        || sqr_lock_step(held->want, held->answers, held->count - 2, &before)) return SQR_NO_MEMORY;
    if (!back.is_of_index) *how = back.start == 1073742337 ? NO_JOURNAL : NO_INDEX;
    else if (back.start == 123) *how = FRONT;
    else *how = before.kind == SQR_GIVE && before.start == 128 ? SCANNED_ALONE : SCANNED;
    return SQR_OK;
}

/* How many bytes of the log count by FILE-shm. Refused where FILE-shm is being written. */
static uint32_t front_of(int index, int log, size_t *len) {
    uint8_t head[136], header[32], frame[24];
    struct stat found;
    for (int tries = 0; tries < 100; tries++) {
        if (pread(index, head, sizeof head, 0) != sizeof head) return SQR_IN_USE;
        off_t place = (off_t)sqr_index_place(head, sizeof head);
        size_t has = log >= 0 && pread(log, header, sizeof header, 0) == sizeof header
            && pread(log, frame, sizeof frame, place) == sizeof frame;
        *len = (size_t)sqr_index_end(head, sizeof head);
        if (!sqr_index_names(head, sizeof head, header, has * sizeof header, frame, has * sizeof frame)) continue;
        if (*len == 0 || (fstat(log, &found) == 0 && (uint64_t)found.st_size >= *len)) return SQR_OK;
    }
    return SQR_IN_USE;
}

static uint32_t read_wal(struct sqr_path *of, const char *path, enum how how) {
    struct stat found;
    int fd;
    uint32_t status = sqr_file_log(of->held.file, path, "-wal", O_RDONLY, &fd, &found);
    if (status) return status;
    size_t len = fd < 0 ? 0 : (size_t)found.st_size;
    if (how == FRONT) status = front_of(of->held.index, fd, &len);
    if (!status && fd >= 0) status = sqr_file_bytes(fd, len, how >= NO_INDEX, &of->wal);
    if (fd >= 0) close(fd);
    return status;
}

/* Whether a connection is about to write (RESERVED, os.h): it has written nothing to FILE, which SHARED keeps, so its
   journal doesn't count (lockingv3, 'Dealing with hot journals'). We ask about the lock, and never lock it. */
static int is_reserved(const struct sqr_path *of) {
    struct flock at = {.l_type = F_WRLCK, .l_whence = SEEK_SET, .l_start = 1073741825, .l_len = 1};
    return of->is_locked && !fcntl(of->held.file, F_OFD_GETLK, &at) && at.l_type != F_UNLCK;
}

/* Whether a hot journal with this header is current. Beside no FILE-shm the plan has asked that: it is if the plan says
   so, and it is as it was looked at. */
static int is_current(const struct sqr_path *of, const uint8_t *header, const struct stat *found, enum how how) {
    const struct sqr_journal_seen *seen = &of->held.journal;
    if (how == NO_JOURNAL) return 0;
    if (how != NO_INDEX) return !is_reserved(of);
    if (!seen->inode) return 1; /* it couldn't be read then */
    return seen->device == found->st_dev && seen->inode == found->st_ino && seen->length == (uint64_t)found->st_size
        && !memcmp(header, seen->header, sizeof seen->header);
}

/* A hot journal is copied, since a connection that reads from before its writer died may write and cut it. If a second
   reading of all of it finds other bytes it is a live writer's, as above. The header alone doesn't tell: over the
   records of an earlier transaction (persist) half of a record may be copied whose sum, which is over each 200th byte,
   is right all the same. */
static uint32_t read_hot(struct sqr_path *of, int fd, const struct stat *found) {
    int has = 1;
    uint32_t status = sqr_file_bytes(fd, (size_t)found->st_size, 1, &of->journal);
    if (!status) status = sqr_file_has(fd, &of->journal, &has);
    if (!status && !has) sqr_file_give_back(&of->journal);
    return status;
}

/* The header says whether a journal is hot (sqr_journal_is_hot). Of one that isn't, or that isn't current, nothing else
   is ever read. */
static uint32_t read_journal(struct sqr_path *of, const char *path, enum how how) {
    struct stat found;
    uint8_t header[SQR_JOURNAL_HEADER];
    int fd, is_hot = 0;
    uint32_t status = sqr_file_log(of->held.file, path, "-journal", O_RDONLY, &fd, &found);
    if (status || fd < 0) return status;
    const size_t len = found.st_size < SQR_JOURNAL_HEADER ? (size_t)found.st_size : SQR_JOURNAL_HEADER;
    status = sqr_file_is_hot(fd, (uint64_t)found.st_size, header, &is_hot);
    if (!status && !is_hot) status = sqr_file_bytes(fd, len, 1, &of->journal);
    else if (!status && is_current(of, header, &found, how)) status = read_hot(of, fd, &found);
    close(fd);
    return status;
}

/* FILE may change while SHARED alone is held if it is in WAL mode, or has such a log. A short one is copied then, and
   one of which an earlier commit is asked for, since more than its header is read soon. A longer one is unchanged as
   long as there is no FILE-shm, since SHARED keeps all from deleting that. */
static uint32_t read_file(struct sqr_path *of, const char *path, enum how how, uint32_t flags) {
    struct stat found;
    uint8_t version = 0;
    int fd;
    uint32_t status = sqr_file_again(of->held.file, path, &fd, &found);
    if (status) return status;
    int may_change = how >= NO_INDEX && (is_there(path, "-wal") || pread(fd, &version, 1, 19) != 1 || version == 2);
    const int is_read = found.st_size <= SQR_COPIED || (flags & SQR_AT && of->wal.len);
    status = sqr_file_bytes(fd, (size_t)found.st_size, may_change && is_read, &of->db);
    close(fd);
    if (status || !may_change || of->db.is_heap) return status;
    of->index = malloc(strlen(path) + sizeof "-shm");
    if (!of->index) return SQR_NO_MEMORY;
    sqr_file_name(of->index, path, "-shm");
    return SQR_OK;
}

/* A handle has a copy of such a FILE, which is made once it isn't refused. */
static uint32_t settle(struct sqr_path *of) {
    struct sqr_opened copy = {NULL, 0, 0, 0, NULL};
    if (!of->copies || !of->index || !of->db.len || of->db.is_copy) return SQR_OK;
    uint32_t status = sqr_file_bytes(of->held.file, of->db.len, 1, &copy);
    if (status) return status;
    of->files.db = copy.bytes;
    if (of->view.db == of->db.bytes) of->view.db = copy.bytes;
    sqr_file_give_back(&of->db);
    of->db = copy;
    return SQR_OK;
}

uint32_t sqr_path_kept(const struct sqr_path *of) {
    struct stat found;
    if (!of->index) return SQR_OK;
    return lstat(of->index, &found) && errno == ENOENT ? SQR_OK : SQR_IN_USE;
}

static uint32_t open_view(struct sqr_path *of, uint32_t flags, uint32_t at) {
    uint32_t page_size = 0, pages = MOST_PAGES, status = SQR_OK;
    if (!(flags & SQR_AT)) status = sqr_size(&of->files, &page_size, &pages);
    if (status) return status;
    of->places = calloc((size_t)pages + 1, sizeof *of->places);
    if (!of->places) return SQR_NO_MEMORY;
    if (flags & SQR_AT) return sqr_open_at(&of->files, at, of->places, pages, &of->view);
    return sqr_open(&of->files, of->places, pages, &of->view);
}

/* Where no connection is live, one may come once WRITE is given back, and go on behind the front of the log: that alone
   stays as it is then. */
void sqr_path_let_write(struct sqr_path *of, struct sqr_view *view) {
    struct sqr_wal log = {0, 0, 0, 0, 0, 0};
    struct sqr_frame none = {0, 0};
    struct flock write = {.l_type = F_UNLCK, .l_whence = SEEK_SET, .l_start = 120, .l_len = 1};
    if (!of->is_alone || of->held.count == SQR_HOLD_STEPS) return;
    uint32_t status = sqr_wal_scan(of->files.wal, of->files.wal_len, &none, 0, &log);
    if (status != SQR_OK && status != SQR_NO_ROOM) return;
    size_t end = log.front ? 32 + (size_t)log.front * (24 + (size_t)log.page_size) : 0;
    of->files.wal_len = end;
    if (view->log == of->files.wal && view->log_len > end) view->log_len = end;
    if (fcntl(of->held.index, F_OFD_SETLK, &write) == 0) of->held.answers[of->held.count++] = SQR_GIVEN;
    of->is_alone = 0;
}

uint32_t sqr_path_begin(struct sqr_path *of, const char *path, uint32_t flags, uint32_t at) {
    enum how how = UNLOCKED;
    uint32_t status = sqr_file_hold(&of->held, path, 0, flags);
    if (status) return status;
    of->is_locked = !(flags & SQR_NO_LOCK);
    if (of->is_locked) status = how_held(&of->held, &how);
    if (!status) status = read_wal(of, path, how);
    if (!status) status = read_journal(of, path, how);
    if (!status) status = read_file(of, path, how, flags);
    if (!status && how >= NO_INDEX && is_there(path, "-shm")) status = SQR_IN_USE;
    if (status) return status;
    size_t counts = of->journal.len;
    if (flags & SQR_SUPER_JOURNAL_LOOK) status = sqr_file_super(&of->journal, &counts);
    if (status) return status;
    of->files = (struct sqr_files)SQR_FILES(of->db.bytes, of->db.len, of->wal.bytes, of->wal.len, of->journal.bytes,
                                            counts);
    of->is_alone = how == SCANNED_ALONE;
    if (!(flags & SQR_FILES_ONLY)) status = open_view(of, flags, at);
    if (!status) status = settle(of);
    if (sqr_path_kept(of)) return SQR_IN_USE;
    if (of->copies) free(of->index), of->index = NULL;
    if (!status && !(flags & SQR_FILES_ONLY)) sqr_path_let_write(of, &of->view);
    return status;
}

static void forget(struct sqr_path *of) {
    free(of->index);
    free(of->places);
    sqr_file_give_back(&of->journal);
    sqr_file_give_back(&of->wal);
    sqr_file_give_back(&of->db);
    *of = (struct sqr_path)SQR_PATH_INIT;
}

void sqr_path_end(struct sqr_path *of) {
    sqr_file_let_go(&of->held, of->is_locked);
    forget(of);
}

struct opening {
    struct sqr_call call;
    struct sqr_path *of;
    const char *path;
    uint32_t flags, at;
};

/* The locks are parked, and stay when the descriptors are closed here. FILE-shm's will be given back first. */
static uint32_t park(struct sqr_task *task, struct sqr_held *held) {
    const int fds[] = {held->file, held->index};
    uint32_t status = sqr_task_park(task, fds, held->index < 0 ? 1 : 2) ? sqr_file_status(errno) : SQR_OK;
    if (status) return status;
    if (held->index >= 0) close(held->index);
    close(held->file);
    held->file = held->index = -1;
    return SQR_OK;
}

static void open_once(struct sqr_task *task, struct sqr_call *call) {
    struct opening *it = (struct opening *)call;
    uint32_t status = sqr_path_begin(it->of, it->path, it->flags, it->at);
    if (!status && it->of->is_locked) status = park(task, &it->of->held);
    else if (!status) sqr_file_let_go(&it->of->held, 0);
    if (status) sqr_path_end(it->of);
    call->status = status;
    call->is_held_up = status == SQR_IN_USE;
}

static uint32_t opened(const char *path, uint32_t flags, const struct sqr_options *options, struct sqr_path **handle) {
    struct opening it = {.path = NULL, .flags = flags};
    struct sqr_asked asked = {0, 0};
    char real[PATH_MAX];
    uint32_t status = sqr_file_asked(path, flags, UINT32_MAX, options, real, &asked);
    if (status) return status;
    it.of = malloc(sizeof *it.of);
    if (!it.of) return SQR_NO_MEMORY;
    *it.of = (struct sqr_path)SQR_PATH_INIT;
    it.of->copies = 1;
    it.path = real, it.at = asked.at;
    struct sqr_park kept = SQR_PARK_INIT;
    status = sqr_call_run(open_once, &it.call, real, flags & SQR_NO_LOCK ? NULL : &kept, asked.wait);
    it.of->park = kept;
    if (status) free(it.of);
    else *handle = it.of;
    return status;
}

uint32_t sqr_open_path(const char *path, uint32_t flags, const struct sqr_options *options, struct sqr_path **handle) {
    const int before = sqr_call_begun();
    if (!handle) return SQR_MISUSE;
    *handle = NULL;
    return sqr_call_ended(opened(path, flags, options, handle), before);
}

void sqr_close_path(struct sqr_path **handle) {
    if (!handle || !*handle) return;
    sqr_park_drop(&(*handle)->park);
    forget(*handle);
    free(*handle);
    *handle = NULL;
}

const struct sqr_view *sqr_path_view(const struct sqr_path *handle) {
    return handle ? &handle->view : &no_view;
}

const struct sqr_files *sqr_path_files(const struct sqr_path *handle) {
    return handle ? &handle->files : &no_files;
}
