/* commits.c: sqrescue_error(), and the table sqrescue_commits('FILE'). Not proved. */
#define _GNU_SOURCE
#include "asked.h"
#include "sqrescue.h"
#include "vfs.h"
#include <sqlite3ext.h>
#include <stdlib.h>
#include <string.h>
SQLITE_EXTENSION_INIT3

enum column { FRAME, PAGES, KNOWN, FILE_NAME };

struct cursor {
    sqlite3_vtab_cursor base;
    struct sqr_commit *commits;
    uint8_t *known;
    uint32_t count, at;
    char *file;
};

/* ---- the commits of a FILE */

static void forget(struct cursor *it) {
    free(it->commits);
    free(it->known);
    sqlite3_free(it->file);
    it->commits = NULL, it->known = NULL, it->file = NULL;
    it->count = it->at = 0;
}

static uint32_t read_commits(const struct sqr_files *files, struct cursor *it) {
    struct sqr_commit none = {0, 0, 0};
    uint32_t which = SQR_NO_LOG, count = 0, status = sqr_log(files, &which);
    if (status || which != SQR_WAL) return status;
    status = sqr_wal_commits(files->wal, files->wal_len, &none, 0, &count);
    if (status != SQR_NO_ROOM) return status;
    it->commits = calloc(count, sizeof *it->commits);
    it->known = calloc(count, 1);
    if (!it->commits || !it->known) return SQR_NO_MEMORY;
    status = sqr_wal_commits(files->wal, files->wal_len, it->commits, count, &count);
    if (!status) status = sqr_known_commits(files, it->known, count, &count);
    if (!status) it->count = count;
    return status;
}

static uint32_t open_and_read(const char *file, struct cursor *it) {
    struct sqr_options options = SQR_OPTIONS_INIT;
    struct sqr_path *path = NULL;
    options.wait = 0;
    uint32_t status = sqr_open_path(file, SQR_FILES_ONLY, &options, &path);
    if (status) return status;
    status = read_commits(sqr_path_files(path), it);
    sqr_close_path(&path);
    return status;
}

/* ---- the table */

static int connect(sqlite3 *db, void *none, int count, const char *const *words, sqlite3_vtab **out, char **error) {
    (void)none, (void)count, (void)words, (void)error;
    const int code = sqlite3_declare_vtab(db, "CREATE TABLE commits(frame, pages, known, file HIDDEN)");
    if (code != SQLITE_OK) return code;
    sqlite3_vtab_config(db, SQLITE_VTAB_DIRECTONLY); /* not for a view in the database that is looked at */
    *out = sqlite3_malloc(sizeof **out);
    if (!*out) return SQLITE_NOMEM;
    memset(*out, 0, sizeof **out);
    return SQLITE_OK;
}

static int disconnect(sqlite3_vtab *it) {
    sqlite3_free(it);
    return SQLITE_OK;
}

/* The table needs its argument, the FILE. */
static int best_index(sqlite3_vtab *it, sqlite3_index_info *info) {
    (void)it;
    for (int i = 0; i < info->nConstraint; i++) {
        const struct sqlite3_index_constraint *at = &info->aConstraint[i];
        if (at->iColumn != FILE_NAME || at->op != SQLITE_INDEX_CONSTRAINT_EQ || !at->usable) continue;
        info->aConstraintUsage[i].argvIndex = 1;
        info->aConstraintUsage[i].omit = 1;
        info->idxNum = 1;
        info->estimatedCost = 1000;
        return SQLITE_OK;
    }
    for (int i = 0; i < info->nConstraint; i++)
        if (info->aConstraint[i].iColumn == FILE_NAME) return SQLITE_CONSTRAINT; /* in another order of the join */
    return SQLITE_OK;
}

static int open_cursor(sqlite3_vtab *table, sqlite3_vtab_cursor **out) {
    (void)table;
    struct cursor *it = sqlite3_malloc(sizeof *it);
    if (!it) return SQLITE_NOMEM;
    memset(it, 0, sizeof *it);
    *out = &it->base;
    return SQLITE_OK;
}

static int close_cursor(sqlite3_vtab_cursor *cursor) {
    forget((struct cursor *)cursor);
    sqlite3_free(cursor);
    return SQLITE_OK;
}

static int fail(sqlite3_vtab *table, int code, const char *text) {
    sqlite3_free(table->zErrMsg);
    table->zErrMsg = sqlite3_mprintf("%s", text);
    return code;
}

static int filter(sqlite3_vtab_cursor *cursor, int index, const char *plan, int count, sqlite3_value **values) {
    struct cursor *it = (struct cursor *)cursor;
    (void)plan;
    forget(it);
    const char *file = index == 1 && count == 1 ? (const char *)sqlite3_value_text(values[0]) : NULL;
    if (!file || strlen(file) != (size_t)sqlite3_value_bytes(values[0]))
        return fail(cursor->pVtab, SQLITE_ERROR, "sqrescue_commits needs the path of a FILE: sqrescue_commits('FILE')");
    it->file = sqlite3_mprintf("%s", file);
    if (!it->file) return SQLITE_NOMEM;
    const uint32_t status = open_and_read(file, it);
    if (!status) {
        vfs_no_reason();
        return SQLITE_OK;
    }
    const int code = vfs_refused(file, status, NULL, NULL);
    return fail(cursor->pVtab, code, vfs_reason());
}

static int next(sqlite3_vtab_cursor *cursor) {
    ((struct cursor *)cursor)->at++;
    return SQLITE_OK;
}

static int is_at_end(sqlite3_vtab_cursor *cursor) {
    const struct cursor *it = (const struct cursor *)cursor;
    return it->at >= it->count;
}

static int column(sqlite3_vtab_cursor *cursor, sqlite3_context *to, int number) {
    const struct cursor *it = (const struct cursor *)cursor;
    switch (number) {
    case FRAME: sqlite3_result_int64(to, it->commits[it->at].frame); break;
    case PAGES: sqlite3_result_int64(to, it->commits[it->at].pages); break;
    case KNOWN: sqlite3_result_int(to, it->known[it->at]); break;
    default: sqlite3_result_text(to, it->file, -1, SQLITE_TRANSIENT);
    }
    return SQLITE_OK;
}

static int rowid(sqlite3_vtab_cursor *cursor, sqlite3_int64 *out) {
    const struct cursor *it = (const struct cursor *)cursor;
    *out = it->commits[it->at].frame;
    return SQLITE_OK;
}

/* Without xCreate it is a table of its own in each connection, and no schema can name it. */
static const sqlite3_module module = {
    .iVersion = 1, .xConnect = connect, .xBestIndex = best_index, .xDisconnect = disconnect, .xOpen = open_cursor,
    .xClose = close_cursor, .xFilter = filter, .xNext = next, .xEof = is_at_end, .xColumn = column, .xRowid = rowid};

/* ---- the function */

static void tell_reason(sqlite3_context *to, int count, sqlite3_value **values) {
    (void)count, (void)values;
    if (vfs_reason()) sqlite3_result_text(to, vfs_reason(), -1, SQLITE_TRANSIENT);
}

int vfs_add_functions(sqlite3 *db) {
    const int how = SQLITE_UTF8 | SQLITE_DIRECTONLY;
    const int code = sqlite3_create_function(db, "sqrescue_error", 0, how, NULL, tell_reason, NULL, NULL);
    return code == SQLITE_OK ? sqlite3_create_module(db, "sqrescue_commits", &module, NULL) : code;
}
