/* vfs.c: sqrescuevfs.so, an extension of SQLite: `file:ledger.db?vfs=sqrescue&at=4` opens the database of a FILE and
   its logs at a commit, for reading. Nothing is written, and SQLite never looks at a log: its answers come from
   opening.c. Not proved. License: MIT. */
#define _GNU_SOURCE
#include "opening.h"
#include "sqrescue.h"
#include "vfs.h"
#include <sqlite3ext.h>
#include <stdlib.h>
#include <string.h>
SQLITE_EXTENSION_INIT1

#define NAME "sqrescue"
#define COMMIT 13      /* bytes of "/@4294967295" and the zero after it */
#define OLDEST 3032000 /* of SQLite, which has sqlite3_uri_key */

struct file {
    sqlite3_file base;
    struct vfs_opening *opening;
    char *name;
};

static sqlite3_vfs *below; /* what was SQLite's default when this was loaded; it opens temporary files */
static sqlite3_vfs vfs;

/* ---- a database that is open */

static int file_close(sqlite3_file *it) {
    struct file *file = (struct file *)it;
    vfs_close(file->opening);
    sqlite3_free(file->name);
    return SQLITE_OK;
}

/* The database has its log in it, so it is in rollback mode (fileformat2, 1.3.3): of the bytes 18 and 19 a 2 is a 1. */
static void show_rollback_mode(uint8_t *bytes, int len, sqlite3_int64 at) {
    for (sqlite3_int64 i = 18; i <= 19; i++)
        if (i >= at && i - at < len && bytes[i - at] == 2) bytes[i - at] = 1;
}

static int file_read(sqlite3_file *it, void *to, int len, sqlite3_int64 at) {
    struct file *file = (struct file *)it;
    if (len < 0 || at < 0) return SQLITE_IOERR_READ;
    const enum vfs_answer answer = vfs_read(file->opening, to, (uint64_t)len, (uint64_t)at);
    if (answer == VFS_FAILED) return vfs_unread(file->name);
    show_rollback_mode(to, len, at);
    return answer == VFS_SHORT ? SQLITE_IOERR_SHORT_READ : SQLITE_OK;
}

static int file_size(sqlite3_file *it, sqlite3_int64 *size) {
    *size = (sqlite3_int64)vfs_length(((struct file *)it)->opening);
    return SQLITE_OK;
}

static int file_write(sqlite3_file *it, const void *from, int len, sqlite3_int64 at) {
    (void)it, (void)from, (void)len, (void)at;
    return SQLITE_READONLY;
}

static int file_truncate(sqlite3_file *it, sqlite3_int64 size) {
    (void)it, (void)size;
    return SQLITE_READONLY;
}

static int file_sync(sqlite3_file *it, int flags) {
    (void)it, (void)flags;
    return SQLITE_OK;
}

static int file_lock(sqlite3_file *it, int level) {
    (void)it;
    return level > SQLITE_LOCK_SHARED ? SQLITE_READONLY : SQLITE_OK;
}

static int file_unlock(sqlite3_file *it, int level) {
    (void)it, (void)level;
    return SQLITE_OK;
}

static int file_reserved(sqlite3_file *it, int *is_reserved) {
    (void)it;
    *is_reserved = 0;
    return SQLITE_OK;
}

static int file_control(sqlite3_file *it, int what, void *value) {
    (void)it;
    if (what != SQLITE_FCNTL_VFSNAME) return SQLITE_NOTFOUND;
    *(char **)value = sqlite3_mprintf("%s", NAME);
    return *(char **)value ? SQLITE_OK : SQLITE_NOMEM;
}

static int file_sector(sqlite3_file *it) {
    (void)it;
    return 4096;
}

static int file_character(sqlite3_file *it) {
    (void)it;
    return SQLITE_IOCAP_IMMUTABLE;
}

/* Version 1 has no shared memory, and no xFetch: SQLite gets copies alone. */
static const sqlite3_io_methods methods = {
    .iVersion = 1, .xClose = file_close, .xRead = file_read, .xWrite = file_write, .xTruncate = file_truncate,
    .xSync = file_sync, .xFileSize = file_size, .xLock = file_lock, .xUnlock = file_unlock,
    .xCheckReservedLock = file_reserved, .xFileControl = file_control, .xSectorSize = file_sector,
    .xDeviceCharacteristics = file_character};

/* ---- names */

/* What a name asks for, or SQLite's code for why it is refused. */
static int read_name(const char *name, struct vfs_asked *asked) {
    const char *why, *key;
    const uint32_t status = vfs_read_name(name, asked, &why, &key);
    return status ? vfs_refused(name, status, why, key) : SQLITE_OK;
}

/* The full path of FILE. If what is below finds none, the path as it is: the library says why when it is opened. */
static int full_path_of(const char *file, int room, char *out) {
    const int code = room > 0 ? below->xFullPathname(below, file, room, out) : SQLITE_CANTOPEN;
    if (code == SQLITE_OK || code == SQLITE_OK_SYMLINK) return code;
    if ((int)strlen(file) >= room) return vfs_refused(file, SQR_NOT_THERE, "the path is too long", NULL);
    memcpy(out, file, strlen(file) + 1);
    return SQLITE_OK;
}

/* The full path of FILE, with the commit at its end: so SQLite's shared cache never mixes commits. */
static int full_path(sqlite3_vfs *it, const char *name, int room, char *out) {
    (void)it;
    struct vfs_asked *asked = malloc(sizeof *asked);
    if (!asked) return SQLITE_NOMEM;
    int code = read_name(name, asked);
    if (code == SQLITE_OK) {
        code = full_path_of(asked->file, room - COMMIT, out);
        const size_t len = code == SQLITE_OK || code == SQLITE_OK_SYMLINK ? strlen(out) : 0;
        if (len && asked->has_at) sqlite3_snprintf(COMMIT, out + len, "/@%u", (unsigned)asked->at);
    }
    free(asked);
    return code;
}

/* SQLite is told that no log is there. */
static int is_there(sqlite3_vfs *it, const char *name, int flags, int *out) {
    static const char *const ends[] = {"-wal", "-journal"};
    const size_t len = strlen(name);
    (void)it;
    *out = 0;
    for (int i = 0; i < 2; i++)
        if (len >= strlen(ends[i]) && !strcmp(name + len - strlen(ends[i]), ends[i])) return SQLITE_OK;
    return below->xAccess(below, name, flags, out);
}

static int delete_none(sqlite3_vfs *it, const char *name, int is_durable) {
    (void)it, (void)name, (void)is_durable;
    return SQLITE_READONLY;
}

static int open_file(const char *name, struct file *file) {
    struct vfs_asked *asked = malloc(sizeof *asked);
    if (!asked) return SQLITE_NOMEM;
    int code = read_name(name, asked);
    if (code == SQLITE_OK) {
        const uint32_t status = vfs_open(asked, &file->opening);
        if (status) code = vfs_refused(name, status, NULL, NULL);
    }
    free(asked);
    if (code != SQLITE_OK) return code;
    file->name = sqlite3_mprintf("%s", name);
    if (!file->name) {
        vfs_close(file->opening);
        return SQLITE_NOMEM;
    }
    vfs_no_reason();
    return SQLITE_OK;
}

/* A main database is opened here, temporary files by what is below, and nothing else: no journal lies beside FILE. */
static int open_any(sqlite3_vfs *it, const char *name, sqlite3_file *opened, int flags, int *out_flags) {
    const int temporary =
        SQLITE_OPEN_TEMP_DB | SQLITE_OPEN_TRANSIENT_DB | SQLITE_OPEN_TEMP_JOURNAL | SQLITE_OPEN_SUBJOURNAL;
    struct file *file = (struct file *)opened;
    (void)it;
    if (flags & temporary) return below->xOpen(below, name, opened, flags, out_flags);
    memset(file, 0, sizeof *file);
    if (!(flags & SQLITE_OPEN_MAIN_DB) || !name) return SQLITE_READONLY;
    const int code = open_file(name, file);
    if (code != SQLITE_OK) return code;
    file->base.pMethods = &methods;
    if (out_flags) *out_flags = (flags & ~(SQLITE_OPEN_READWRITE | SQLITE_OPEN_CREATE)) | SQLITE_OPEN_READONLY;
    return SQLITE_OK;
}

/* ---- what the VFS below does */

static void *load_library(sqlite3_vfs *it, const char *name) {
    (void)it;
    return below->xDlOpen(below, name);
}

static void say_load_error(sqlite3_vfs *it, int len, char *out) {
    (void)it;
    below->xDlError(below, len, out);
}

static void (*find_symbol(sqlite3_vfs *it, void *library, const char *name))(void) {
    (void)it;
    return below->xDlSym(below, library, name);
}

static void close_library(sqlite3_vfs *it, void *library) {
    (void)it;
    below->xDlClose(below, library);
}

static int draw(sqlite3_vfs *it, int len, char *out) {
    (void)it;
    return below->xRandomness(below, len, out);
}

static int wait_for(sqlite3_vfs *it, int microseconds) {
    (void)it;
    return below->xSleep(below, microseconds);
}

static int now(sqlite3_vfs *it, double *out) {
    (void)it;
    return below->xCurrentTime(below, out);
}

static int now_in_milliseconds(sqlite3_vfs *it, sqlite3_int64 *out) {
    (void)it;
    return below->xCurrentTimeInt64(below, out);
}

static int last_error(sqlite3_vfs *it, int len, char *out) {
    (void)it;
    return below->xGetLastError ? below->xGetLastError(below, len, out) : 0;
}

static void describe(void) {
    const size_t least = sizeof(struct file);
    vfs.iVersion = below->iVersion < 2 ? 1 : 2;
    vfs.szOsFile = below->szOsFile < (int)least ? (int)least : below->szOsFile;
    vfs.mxPathname = below->mxPathname + COMMIT;
    vfs.zName = NAME;
    vfs.xOpen = open_any, vfs.xDelete = delete_none, vfs.xAccess = is_there, vfs.xFullPathname = full_path;
    if (below->xDlOpen) vfs.xDlOpen = load_library, vfs.xDlError = say_load_error;
    if (below->xDlOpen) vfs.xDlSym = find_symbol, vfs.xDlClose = close_library;
    vfs.xRandomness = draw, vfs.xSleep = wait_for, vfs.xCurrentTime = now, vfs.xGetLastError = last_error;
    if (vfs.iVersion > 1) vfs.xCurrentTimeInt64 = now_in_milliseconds;
}

/* Registers the VFS once, and never as SQLite's default. The extension stays loaded, since open files use it. */
__attribute__((visibility("default"))) int sqlite3_sqrescuevfs_init(sqlite3 *db, char **error,
                                                                    const sqlite3_api_routines *api) {
    SQLITE_EXTENSION_INIT2(api);
    if (sqlite3_libversion_number() < OLDEST) {
        *error = sqlite3_mprintf("sqrescuevfs needs SQLite 3.32.0 or later; this is %s", sqlite3_libversion());
        return SQLITE_ERROR;
    }
    sqlite3_vfs *const there = sqlite3_vfs_find(NAME);
    if (there && there != &vfs) {
        *error = sqlite3_mprintf("another sqrescuevfs is loaded in this process");
        return SQLITE_ERROR;
    }
    if (!there) {
        if (!below) below = sqlite3_vfs_find(NULL);
        if (!below) return SQLITE_ERROR;
        describe();
        const int code = sqlite3_vfs_register(&vfs, 0);
        if (code != SQLITE_OK) return code;
    }
    const int code = vfs_add_functions(db);
    return code == SQLITE_OK ? SQLITE_OK_LOAD_PERMANENTLY : code;
}
