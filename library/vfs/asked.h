/* asked.h: what a name asks for: FILE, the commit, and the keys of a URI. License: MIT. */
#ifndef VFS_ASKED_H
#define VFS_ASKED_H
#include <limits.h>
#include <stdint.h>

enum vfs_flag {
    VFS_NO_LOCK = 1, /* no-lock: SQLite's locks aren't taken */
    VFS_LARGE = 2,   /* large: FILE may be above 1 GiB, if no log is current */
    VFS_HEADER = 4   /* header: FILE's header is damaged, and is shown as SQLite can read it */
};

struct vfs_asked {
    char file[PATH_MAX]; /* the path of FILE, without the commit */
    uint32_t has_at, at; /* the frame that ends the commit */
    uint32_t wait;       /* milliseconds */
    uint32_t flags;      /* of vfs_flag */
    uint32_t page_size;  /* with VFS_HEADER, in bytes; 0 if it isn't given */
    uint64_t copy;       /* bytes: a FILE in rollback mode is copied up to this length */
};

/* The length of the path of FILE at the beginning of a name: a name may end with /@FRAME, unless what is before that is
   a folder. */
int vfs_file_length(const char *name);

/* Reads a name that SQLite hands to a VFS for a main database: a path, and the keys of its URI after it. An sqr_status:
   SQR_OK, SQR_UNKNOWN_OPTIONS, SQR_NO_SUCH_COMMIT if the frame's number is too large, or SQR_NOT_THERE for a path that
   is too long. Then `why` is a text that stays, and `key` the key that it is about, or NULL. */
uint32_t vfs_read_name(const char *name, struct vfs_asked *asked, const char **why, const char **key);
#endif
