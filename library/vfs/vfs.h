/* vfs.h: what the parts of the extension share with each other alone. License: MIT. */
#ifndef VFS_H
#define VFS_H
#include <sqlite3.h>
#include <stdint.h>

/* Notes why a file wasn't opened or read, for sqrescue_error() in this thread and for SQLite's log, and gives the code
   that SQLite gets for an sqr_status: SQLITE_CANTOPEN | (64 + status) << 8. `detail` may be NULL; then errno counts. */
int vfs_refused(const char *name, uint32_t status, const char *detail, const char *key);

/* The same for a page that can't be read: SQLITE_IOERR_READ. */
int vfs_unread(const char *name);

/* The last of these in this thread; NULL if an opening succeeded since, or if there was none. */
const char *vfs_reason(void);
void vfs_no_reason(void);

/* Adds sqrescue_error and sqrescue_commits to a connection: a code of SQLite. */
int vfs_add_functions(sqlite3 *db);
#endif
