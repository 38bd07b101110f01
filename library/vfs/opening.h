/* opening.h: a database that is open for reading, as all connections of one FILE and commit share it. License: MIT. */
#ifndef VFS_OPENING_H
#define VFS_OPENING_H
#include "asked.h"

struct vfs_opening;

/* Opens what a name asks for, or shares an opening that shows the same. An sqr_status. Any thread may call it. */
uint32_t vfs_open(const struct vfs_asked *asked, struct vfs_opening **out);

/* Gives it back. The last one who does so closes it. */
void vfs_close(struct vfs_opening *it);

/* The length of the database in bytes: FILE's length if the database is FILE alone, otherwise that of its pages. */
uint64_t vfs_length(const struct vfs_opening *it);

enum vfs_answer {
    VFS_READ = 0,
    VFS_SHORT = 1, /* the database ends before; all bytes after its end are zeros */
    VFS_FAILED = 2 /* a page can't be read; errno says why */
};

/* Writes `len` bytes of the database, from byte `at` on, to `to`. Any thread may call it. */
enum vfs_answer vfs_read(const struct vfs_opening *it, uint8_t *to, uint64_t len, uint64_t at);
#endif
