/* shown.h: what an opening shows, and from where. License: MIT. */
#ifndef VFS_SHOWN_H
#define VFS_SHOWN_H
#include "asked.h"
#include "sqrescue.h"

struct vfs_shown {
    struct sqr_path *path; /* the locks and the mapped bytes; NULL if all is copied */
    struct sqr_view view;
    int is_file;           /* the database is FILE alone, byte by byte, whatever length FILE has */
    uint8_t *db, *log;     /* copies, or NULL */
    uint64_t *places;
};

/* Opens FILE and its logs for what is asked. An sqr_status; nothing is open unless it is SQR_OK. */
uint32_t vfs_show(const struct vfs_asked *asked, struct vfs_shown *out);
void vfs_hide(struct vfs_shown *it);
#endif
