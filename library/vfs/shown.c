/* shown.c: opens FILE by the C library, and copies what is to be read without locks. Which database FILE and its logs
   define is the library's answer. A FILE in rollback mode is copied before the library reads anything of it, unless it
   is longer than `copy=`: so a program that cuts it meanwhile causes an error, and no signal. Not proved. */
#define _GNU_SOURCE
#include "shown.h"
#include "memory.h"
#include <errno.h>
#include <stdlib.h>
#include <string.h>
#include <sys/stat.h>

#define HEADER 100       /* bytes of a database's header (fileformat2, 1.3) */
#define MOST 1073741824U /* bytes of a database, without VFS_LARGE */

/* ---- parts */

/* These bytes in memory of malloc's. */
static uint32_t duplicate(const uint8_t *from, size_t len, uint8_t **out) {
    *out = malloc(len + 1);
    if (!*out) return SQR_NO_MEMORY;
    return vfs_copy(*out, from, len) ? SQR_FILE_FAILED : SQR_OK;
}

static uint32_t opened(const struct vfs_asked *asked, uint32_t flags, struct vfs_shown *it) {
    struct sqr_options options = SQR_OPTIONS_INIT;
    options.wait = asked->wait;
    options.at = asked->at;
    if (asked->flags & VFS_NO_LOCK) flags |= SQR_NO_LOCK;
    return sqr_open_path(asked->file, flags, &options, &it->path);
}

/* The page size that a header names in its bytes 16 and 17 (fileformat2, 1.3.2); 0 if it is none. */
static uint32_t named_size(const uint8_t *header) {
    const uint32_t named = (uint32_t)header[16] << 8 | header[17], size = named == 1 ? 65536 : named;
    return size >= 512 && !(size & (size - 1)) ? size : 0;
}

/* Whether FILE begins as a database: by its first 16 bytes and its page size. */
static int is_database(const struct sqr_files *files) {
    uint8_t front[18];
    if (files->db_len < HEADER || vfs_copy(front, files->db, sizeof front)) return 0;
    return !memcmp(front, "SQLite format 3", 16) && named_size(front);
}

/* The page size that the current log names, if it has a commit or a record, or else FILE's header, or else the log; 0
   if none of them does. */
static uint32_t size_of(const struct sqr_files *files) {
    struct sqr_wal wal = {0, 0, 0, 0, 0, 0};
    struct sqr_journal journal = {0, 0, 0, 0, 0, 0};
    struct sqr_frame no_frame = {0, 0};
    struct sqr_record no_record = {0, 0};
    sqr_wal_scan(files->wal, files->wal_len, &no_frame, 0, &wal);
    sqr_journal_scan(files->journal, files->journal_len, &no_record, 0, &journal);
    if (journal.page_size) return journal.page_size;
    if (wal.front || files->db_len < HEADER) return wal.page_size;
    const uint32_t size = named_size(files->db);
    return size ? size : wal.page_size;
}

/* Writes to a header what SQLite looks at before it reads anything else (fileformat2, 1.3.1 to 1.3.5): the first 16
   bytes, the page size, and bytes 18 to 23. The reserved space stays if it leaves 480 bytes of a page. */
static void mend(uint8_t *header, uint32_t size) {
    memcpy(header, "SQLite format 3", 16);
    header[16] = (uint8_t)(size >> 8);
    header[17] = size == 65536;
    header[18] = header[19] = 1;
    if (size - header[20] < 480) header[20] = 0;
    memcpy(header + 21, "\x40\x20\x20", 3);
}

/* The pages of the database at a commit; 0 if there is no such commit. */
static uint32_t pages_at(const struct sqr_files *files, uint32_t frame, uint32_t *pages) {
    struct sqr_commit none = {0, 0, 0}, *commits;
    uint32_t count = 0, status = sqr_wal_commits(files->wal, files->wal_len, &none, 0, &count);
    *pages = 0;
    if (status != SQR_NO_ROOM) return status == SQR_NO_MEMORY ? status : SQR_OK;
    commits = calloc(count, sizeof *commits);
    if (!commits) return SQR_NO_MEMORY;
    status = sqr_wal_commits(files->wal, files->wal_len, commits, count, &count);
    for (uint32_t i = 0; !status && i < count; i++)
        if (commits[i].frame == frame) *pages = commits[i].pages;
    free(commits);
    return status;
}

static uint32_t view_of(const struct vfs_asked *asked, const struct sqr_files *files, struct vfs_shown *it) {
    uint32_t size, pages, status;
    status = asked->has_at ? pages_at(files, asked->at, &pages) : sqr_size(files, &size, &pages);
    if (status) return status;
    it->places = calloc((size_t)pages + 1, sizeof *it->places);
    if (!it->places) return SQR_NO_MEMORY;
    if (asked->has_at) return sqr_open_at(files, asked->at, it->places, pages, &it->view);
    return sqr_open(files, it->places, pages, &it->view);
}

/* ---- ways to show it */

static uint32_t open_files(const struct vfs_asked *asked, struct vfs_shown *it, uint32_t *which) {
    const uint32_t status = opened(asked, SQR_FILES_ONLY, it);
    return status ? status : sqr_log(sqr_path_files(it->path), which);
}

/* Whether all is copied: a FILE in rollback mode whose writers would wait for our lock, up to the length that is asked;
   one whose header is damaged; and any FILE if its map can't be read without a signal. */
static int is_to_copy(const struct vfs_asked *asked, const struct sqr_files *files, uint32_t which) {
    uint8_t version = 0; /* the read version of the header: 2 in WAL mode (fileformat2, 1.3.3) */
    if (asked->flags & VFS_HEADER || !vfs_may_read()) return 1;
    if (which == SQR_WAL || files->db_len > asked->copy) return 0;
    return files->db_len <= 19 || vfs_copy(&version, files->db + 19, 1) || version != 2; /* a copy says if it fails */
}

/* Copies FILE and the current log, and gives the locks back. A damaged header is put right in the copy. */
static uint32_t show_copies(const struct vfs_asked *asked, struct vfs_shown *it, uint32_t which) {
    struct sqr_files files = *sqr_path_files(it->path);
    if (which != SQR_WAL) files.wal_len = 0;
    if (which != SQR_JOURNAL) files.journal_len = 0;
    uint32_t status = duplicate(files.db, files.db_len, &it->db);
    if (!status && which == SQR_JOURNAL) status = duplicate(files.journal, files.journal_len, &it->log);
    else if (!status) status = duplicate(files.wal, files.wal_len, &it->log);
    if (status) return status;
    files = (struct sqr_files)SQR_FILES(it->db, files.db_len, it->log, files.wal_len, it->log, files.journal_len);
    sqr_close_path(&it->path);
    if (asked->flags & VFS_HEADER) {
        const uint32_t size = asked->page_size ? asked->page_size : size_of(&files);
        if (size && files.db_len >= HEADER) mend(it->db, size);
    }
    return view_of(asked, &files, it);
}

/* With a log in WAL mode the library opens the view itself: so it lets others write as soon as it has read the log. */
static uint32_t show_logged(const struct vfs_asked *asked, struct vfs_shown *it, uint32_t *which) {
    const uint32_t status = opened(asked, asked->has_at ? SQR_AT : 0, it);
    if (status) return status;
    it->view = *sqr_path_view(it->path);
    return sqr_log(sqr_path_files(it->path), which);
}

static int is_there(const char *file, const char *end) {
    char name[PATH_MAX + 16];
    struct stat found;
    stpcpy(stpcpy(name, file), end);
    return !stat(name, &found);
}

static uint32_t show(const struct vfs_asked *asked, struct vfs_shown *it, uint32_t *which) {
    const int is_logged = is_there(asked->file, "-wal") || is_there(asked->file, "-shm");
    uint32_t status;
    if (is_logged && !(asked->flags & VFS_HEADER) && vfs_may_read()) {
        status = show_logged(asked, it, which);
        if (status || !is_to_copy(asked, sqr_path_files(it->path), *which)) return status;
        vfs_hide(it); /* the log is empty */
    }
    status = open_files(asked, it, which);
    if (status) return status;
    if (is_to_copy(asked, sqr_path_files(it->path), *which)) return show_copies(asked, it, *which);
    if (*which != SQR_WAL) return view_of(asked, sqr_path_files(it->path), it);
    vfs_hide(it); /* a log has come */
    return show_logged(asked, it, which);
}

/* A FILE that the library finds too large, though no log is current: its bytes are the database. If not FILE but the
   count in its header is too large, SQLite finds the database malformed. */
static uint32_t show_file(const struct vfs_asked *asked, struct vfs_shown *it) {
    uint32_t which = SQR_NO_LOG, status = open_files(asked, it, &which);
    if (status) return status;
    const struct sqr_files *files = sqr_path_files(it->path);
    if (which != SQR_NO_LOG || (files->db_len > MOST && !(asked->flags & VFS_LARGE))) return SQR_TOO_LARGE;
    if (!is_database(files)) return SQR_NOT_A_DATABASE;
    it->view.db = files->db;
    it->view.db_len = files->db_len;
    it->is_file = 1;
    if (!is_to_copy(asked, files, which)) return SQR_OK;
    status = duplicate(files->db, files->db_len, &it->db);
    it->view.db = it->db;
    sqr_close_path(&it->path);
    return status;
}

uint32_t vfs_show(const struct vfs_asked *asked, struct vfs_shown *out) {
    uint32_t which = SQR_NO_LOG;
    *out = (struct vfs_shown){.view = SQR_VIEW_INIT};
    uint32_t status = show(asked, out, &which);
    out->is_file = which == SQR_NO_LOG || (asked->has_at && asked->at == 0);
    if (status == SQR_TOO_LARGE && !asked->at && !(asked->flags & VFS_HEADER)) {
        vfs_hide(out);
        status = show_file(asked, out);
    }
    if (status) {
        const int error = errno;
        vfs_hide(out);
        errno = error;
    }
    return status;
}

void vfs_hide(struct vfs_shown *it) {
    sqr_close_path(&it->path);
    free(it->places);
    free(it->log);
    free(it->db);
    *it = (struct vfs_shown){.view = SQR_VIEW_INIT};
}
