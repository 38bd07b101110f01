/* reason.c: why the last opening or reading of this thread failed. Not proved. */
#define _GNU_SOURCE
#include "sqrescue.h"
#include "vfs.h"
#include <errno.h>
#include <sqlite3ext.h>
#include <string.h>
SQLITE_EXTENSION_INIT3

static _Thread_local char reason[1024];

const char *vfs_reason(void) { return reason[0] ? reason : NULL; }

void vfs_no_reason(void) { reason[0] = 0; }

/* Whether a status comes with an errno of the system's. */
static int is_of_system(uint32_t status) {
    switch (status) {
    case SQR_NOT_THERE: case SQR_NOT_READABLE: case SQR_FILE_FAILED: return 1;
    default: return 0;
    }
}

int vfs_refused(const char *name, uint32_t status, const char *detail, const char *key) {
    const int code = SQLITE_CANTOPEN | (int)(64 + status) << 8, error = errno;
    char system[128];
    if (!detail && is_of_system(status)) detail = strerror_r(error, system, sizeof system);
    sqlite3_snprintf(sizeof reason, reason, "%s: %s%s%s%s%s", name, sqr_status_name(status), key || detail ? ": " : "",
                     key ? key : "", key ? ": " : "", detail ? detail : "");
    sqlite3_log(code, "sqrescue: %s", reason);
    return code;
}

int vfs_unread(const char *name) {
    char system[128];
    sqlite3_snprintf(sizeof reason, reason, "%s: a page can't be read: %s", name,
                     strerror_r(errno, system, sizeof system));
    sqlite3_log(SQLITE_IOERR_READ, "sqrescue: %s", reason);
    return SQLITE_IOERR_READ;
}
