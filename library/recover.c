/* recover.c: recovers a database by its path, in its place. It decides nothing of a database: it takes the locks of a
   recovery by the proved plan (locks/held.c), hands the bytes of FILE and its logs to sqr_plan, and carries out one
   step after another of sqr_plan_next, both of which are proved. Not proved. */
#define _GNU_SOURCE
#include "files.h"
#include "../locks/raw.h"
#include <errno.h>
#include <limits.h>
#include <stdlib.h>

#define AT_ONCE 65536 /* bytes; no page is longer */

enum { WAL, JOURNAL };

struct log {
    int fd, is_writable;
    struct stat found;
    struct sqr_opened bytes;
};

struct recovery {
    struct sqr_call call;
    const char *path;
    uint32_t flags;
    struct sqr_recovered found;
    struct sqr_held held;
    int is_locked;
    struct sqr_opened db;
    struct log logs[2];
    uint64_t *places;
    uint8_t *buffer; /* AT_ONCE bytes */
    struct sqr_plan plan;
};

uint32_t sqr_file_write(int fd, const uint8_t *bytes, size_t len, uint64_t at) {
    while (len) {
        ssize_t more = pwrite(fd, bytes, len, (off_t)at);
        if (more == 0) return SQR_FILE_FAILED;
        if (more < 0 && errno != EINTR) return sqr_file_unwritten(errno);
        if (more > 0) bytes += more, len -= (size_t)more, at += (uint64_t)more;
    }
    return SQR_OK;
}

static uint32_t plan_within(const struct sqr_files *files, size_t room, uint64_t **places, struct sqr_plan *plan) {
    free(*places);
    *places = calloc(room + 1, sizeof **places);
    return *places ? sqr_plan(files, *places, room, plan) : SQR_NO_MEMORY;
}

/* There is room for as many of the smallest pages as the files have bytes for, so that the log is scanned once; where
   the database has more, which are zeros then, sqr_size says how many. */
uint32_t sqr_file_plan(const struct sqr_files *files, uint64_t **places, struct sqr_plan *plan,
                       struct sqr_recovered *found) {
    const size_t pages = (files->db_len + files->wal_len + files->journal_len) / 512;
    uint32_t status = plan_within(files, pages < MOST_PAGES ? pages : MOST_PAGES, places, plan);
    if (status == SQR_NO_ROOM) {
        status = sqr_size(files, &found->page_size, &found->pages);
        if (!status) status = plan_within(files, found->pages, places, plan);
    }
    if (status) return status;
    *found = (struct sqr_recovered){plan->recovery, plan->view.page_size, plan->view.pages};
    if (!found->pages && sqr_size(files, &found->page_size, &found->pages) == SQR_NO_MEMORY) return SQR_NO_MEMORY;
    return SQR_OK;
}

/* Reads the first `read` bytes of a file but its holes, so that an error of the disk is a status, and then maps it. */
static uint32_t map(int fd, size_t len, size_t read, uint8_t *buffer, struct sqr_opened *out) {
    struct sqr_data it = sqr_file_data(fd, 0, (off_t)read);
    for (; it.at < it.end; it = it.at < it.end ? it : sqr_file_data(fd, it.at, (off_t)read)) {
        const size_t left = (size_t)(it.end - it.at);
        ssize_t more = pread(fd, buffer, left < AT_ONCE ? left : AT_ONCE, it.at);
        if (more < 0 && errno != EINTR) return sqr_file_status(errno);
        if (more == 0) return SQR_FILE_FAILED;
        if (more > 0) it.at += more;
    }
    return sqr_file_bytes(fd, len, 0, out);
}

/* A log that may not be written is opened for reading, since it may be none that counts. */
static uint32_t read_log(struct recovery *of, const char *path, int which) {
    static const char *const ends[] = {"-wal", "-journal"};
    struct log *log = &of->logs[which];
    uint32_t status = sqr_file_log(of->held.file, path, ends[which], O_RDWR, &log->fd, &log->found);
    log->is_writable = !status;
    if ((status & 0xff) == SQR_NOT_READABLE || status >> 8 == EROFS)
        status = sqr_file_log(of->held.file, path, ends[which], O_RDONLY, &log->fd, &log->found);
    if (status || log->fd < 0) return status;
    const size_t len = (size_t)log->found.st_size;
    uint8_t header[SQR_JOURNAL_HEADER];
    int is_hot = 1;
    if (which == JOURNAL) status = sqr_file_is_hot(log->fd, len, header, &is_hot);
    if (status) return status;
    if (is_hot) return map(log->fd, len, len, of->buffer, &log->bytes);
    return sqr_file_bytes(log->fd, len < SQR_JOURNAL_HEADER ? len : SQR_JOURNAL_HEADER, 1, &log->bytes);
}

static uint32_t read_files(struct recovery *of, const char *path) {
    struct stat db;
    int fd;
    const struct log *wal = &of->logs[WAL], *journal = &of->logs[JOURNAL];
    uint32_t status = read_log(of, path, WAL);
    if (!status) status = read_log(of, path, JOURNAL);
    if (status) return status;
    if (wal->fd >= 0 && journal->fd >= 0 && wal->found.st_dev == journal->found.st_dev
        && wal->found.st_ino == journal->found.st_ino) return SQR_NOT_A_FILE;
    status = sqr_file_again(of->held.file, path, &fd, &db);
    if (status) return status;
    const size_t len = (size_t)db.st_size;
    status = map(fd, len, len < AT_ONCE ? len : AT_ONCE, of->buffer, &of->db);
    close(fd);
    return status;
}

/* A step, but a page. */
static uint32_t change(int fd, const struct sqr_step *step) {
    static const uint8_t zeros[32] = {0};
    int answer;
    switch (step->kind) {
    case SQR_STEP_ZEROS: return step->len > sizeof zeros ? SQR_MISUSE : sqr_file_write(fd, zeros, step->len, step->at);
    case SQR_STEP_LENGTH: do answer = ftruncate(fd, (off_t)step->len); while (answer && errno == EINTR); break;
    case SQR_STEP_SYNC: do answer = fsync(fd); while (answer && errno == EINTR); break;
    default: return SQR_MISUSE;
    }
    return answer ? sqr_file_unwritten(errno) : SQR_OK;
}

/* Carries out all steps, one after another. Pages that lie one behind the other are written by one call. */
static uint32_t carry_out(struct recovery *of) {
    const struct log *log = &of->logs[of->plan.recovery == SQR_RECOVERY_ROLL_BACK ? JOURNAL : WAL];
    struct sqr_step step = {0, 0, 0, 0, 0};
    uint64_t at = 0;
    size_t len = 0;
    uint32_t status = of->plan.recovery == SQR_RECOVERY_NONE || log->is_writable ? SQR_OK : SQR_NOT_WRITABLE;
    while (!status && sqr_plan_next(&of->plan, &step)) {
        int is_page = step.kind == SQR_STEP_PAGE;
        if (len && !(is_page && step.at == at + len && step.len <= AT_ONCE - len))
            status = sqr_file_write(of->held.file, of->buffer, len, at), len = 0;
        if (status) break;
        if (!len) at = step.at;
        if (!is_page) status = change(step.is_of_log ? log->fd : of->held.file, &step);
        else status = sqr_page(&of->plan.view, step.page, of->buffer + len, step.len), len += step.len;
    }
    return status;
}

static uint32_t recover(struct recovery *of) {
    of->buffer = malloc(AT_ONCE);
    if (!of->buffer) return SQR_NO_MEMORY;
    uint32_t status = read_files(of, of->path);
    if (status) return status;
    const struct sqr_opened *db = &of->db, *wal = &of->logs[WAL].bytes, *journal = &of->logs[JOURNAL].bytes;
    size_t counts = journal->len;
    if (of->flags & SQR_SUPER_JOURNAL_LOOK) status = sqr_file_super(journal, &counts);
    if (status) return status;
    const struct sqr_files files = SQR_FILES(db->bytes, db->len, wal->bytes, wal->len, journal->bytes, counts);
    status = sqr_file_plan(&files, &of->places, &of->plan, &of->found);
    return status ? status : carry_out(of);
}

static void give_back(struct recovery *of) {
    free(of->places);
    free(of->buffer);
    sqr_file_give_back(&of->db);
    for (int which = WAL; which <= JOURNAL; which++) {
        sqr_file_give_back(&of->logs[which].bytes);
        if (of->logs[which].fd >= 0) close(of->logs[which].fd);
    }
    sqr_file_let_go(&of->held, of->is_locked);
}

static void recover_once(struct sqr_task *task, struct sqr_call *call) {
    struct recovery *of = (struct recovery *)call;
    (void)task;
    call->status = sqr_file_hold(&of->held, of->path, 1, of->flags);
    call->is_held_up = call->status == SQR_IN_USE;
    if (call->status) return;
    of->is_locked = !(of->flags & SQR_NO_LOCK);
    call->status = recover(of);
    give_back(of);
}

uint32_t sqr_recover(const char *path, uint32_t flags, const struct sqr_options *options, struct sqr_recovered *out) {
    struct recovery of = {.held = {.file = -1, .index = -1}, .logs = {{.fd = -1}, {.fd = -1}}, .plan = SQR_PLAN_INIT};
    struct sqr_asked asked = {0, 0};
    char real[PATH_MAX];
    const int before = sqr_call_begun();
    uint32_t status = sqr_file_asked(path, flags, SQR_NO_LOCK | SQR_ANY, options, real, &asked);
    of.path = real, of.flags = flags;
    if (!status) status = sqr_call_run(recover_once, &of.call, real, NULL, asked.wait);
    if (!status && out) *out = of.found;
    return sqr_call_ended(status, before);
}
