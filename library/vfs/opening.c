/* opening.c: reads a database that is open, and shares openings that show the same. Not proved, except in which pages
   the bytes are (pieces.h). */
#define _GNU_SOURCE
#include "opening.h"
#include "memory.h"
#include "pieces.h"
#include "shown.h"
#include <errno.h>
#include <pthread.h>
#include <stdlib.h>
#include <string.h>
#include <sys/stat.h>
#include <sys/vfs.h>
#include <time.h>
#include <unistd.h>

#define FILES 4       /* FILE, its two logs and FILE-shm */
#define INDEX 3       /* FILE-shm */
#define TICK 20000000 /* nanoseconds: a file that is written twice within a tick can keep its times, */
#define LONG_TICK 2000000000LL /* or within this if the file system has whole seconds */

struct stamp { /* what the system says of a file; zeros if it isn't there */
    dev_t device;
    ino_t number;
    off_t length;
    struct timespec written, changed;
};

struct vfs_opening {
    struct vfs_opening *next;
    size_t users;
    pid_t owner; /* a forked child has the opening, but the locks are its parent's */
    struct vfs_asked asked;
    struct stamp stamps[FILES];
    int is_settled; /* a file whose stamp is the same now is unchanged */
    struct vfs_shown shown;
};

static pthread_mutex_t mutex = PTHREAD_MUTEX_INITIALIZER;
static struct vfs_opening *openings;

/* ---- which openings show the same */

static void stamp_all(const char *file, struct stamp *stamps) {
    static const char *const ends[FILES] = {"", "-wal", "-journal", "-shm"};
    char name[PATH_MAX + 16];
    struct stat found;
    memset(stamps, 0, FILES * sizeof *stamps);
    for (int i = 0; i < FILES; i++) {
        stpcpy(stpcpy(name, file), ends[i]);
        if (stat(name, &found)) continue;
        stamps[i].device = found.st_dev, stamps[i].number = found.st_ino, stamps[i].length = found.st_size;
        stamps[i].written = found.st_mtim, stamps[i].changed = found.st_ctim;
    }
}

static int is_before(const struct timespec *at, const struct timespec *now) {
    const int64_t seconds = (int64_t)now->tv_sec - at->tv_sec;
    const int64_t least = at->tv_nsec ? TICK : LONG_TICK;
    return seconds > 3 || (seconds >= 0 && seconds * 1000000000 + now->tv_nsec - at->tv_nsec > least);
}

/* Whether a file's times are of this machine's clock, and not kept back by a network's or a program's file system. */
static int is_local(const char *file) {
    struct statfs found;
    if (statfs(file, &found)) return 0;
    switch ((uint32_t)found.f_type) {
    case 0xef53: case 0x58465342: case 0x9123683e: case 0xf2f52010: return 1; /* ext2 to ext4, XFS, Btrfs, F2FS */
    case 0x01021994: case 0x858458f6: case 0x794c7630: case 0x2fc12fc1: return 1; /* tmpfs, ramfs, overlay, ZFS */
    case 0x73717368: case 0xe0f5e1e2: case 0x9660: return 1; /* SquashFS, EROFS, ISO 9660 */
    default: return 0;
    }
}

/* Whether the stamps were the same before and after the opening, and are older than a tick. With FILE-shm a commit can
   become the last one though no file gets another time: its frames were written before. */
static int is_settled(const struct vfs_opening *it, const struct stamp *before) {
    struct timespec now = {0, 0};
    clock_gettime(CLOCK_REALTIME, &now);
    if (!is_local(it->asked.file) || memcmp(it->stamps, before, sizeof it->stamps)) return 0;
    if (it->stamps[INDEX].number && !it->asked.has_at) return 0;
    for (int i = 0; i < FILES; i++)
        if (!is_before(&it->stamps[i].written, &now) || !is_before(&it->stamps[i].changed, &now)) return 0;
    return it->stamps[0].number != 0;
}

/* Whether two names ask for one FILE in the same way, perhaps at different commits. */
static int asks_alike(const struct vfs_asked *a, const struct vfs_asked *b) {
    return !strcmp(a->file, b->file) && a->flags == b->flags && a->page_size == b->page_size && a->copy == b->copy;
}

/* The header of the log, and that of the frame that ends the commit: its checksum is over all frames before. */
struct mark {
    uint8_t header[32], frame[24];
};

static int mark_of(const struct sqr_view *view, struct mark *out) {
    uint64_t last = 0;
    for (size_t i = 0; i < view->places_len; i++)
        if (view->places[i] > last) last = view->places[i];
    if (last < sizeof out->header + sizeof out->frame || last > view->log_len) return -1;
    if (vfs_copy(out->header, view->log, sizeof out->header) || out->header[0] != 0x37) return -1; /* a journal */
    return vfs_copy(out->frame, view->log + last - sizeof out->frame, sizeof out->frame);
}

/* Whether two openings of one FILE certainly show the same database: copies of the same bytes, or the same frames of
   the same log. In the second case only checkpoints of this log changed FILE (README's A5), and a commit that is known
   is the same before and after them. */
static int shows_the_same(const struct vfs_shown *a, const struct vfs_shown *b) {
    const struct sqr_view *v = &a->view, *w = &b->view;
    struct mark one, other;
    if (a->is_file != b->is_file || v->page_size != w->page_size || v->pages != w->pages) return 0;
    if (v->places_len != w->places_len || memcmp(v->places, w->places, v->places_len * sizeof *v->places)) return 0;
    if (!a->path && !b->path)
        return v->db_len == w->db_len && v->log_len == w->log_len && !memcmp(v->db, w->db, v->db_len)
            && !memcmp(v->log, w->log, v->log_len);
    return a->path && b->path && !mark_of(v, &one) && !mark_of(w, &other) && !memcmp(&one, &other, sizeof one);
}

static int is_unchanged(const struct vfs_opening *it, const struct vfs_asked *asked, const struct stamp *stamps) {
    return it->is_settled && it->asked.has_at == asked->has_at && it->asked.at == asked->at
        && !memcmp(it->stamps, stamps, sizeof it->stamps);
}

/* The opening that can be shared: by the stamps of the files, or by what is shown if there is one. */
static struct vfs_opening *shared(const struct vfs_asked *asked, const struct stamp *stamps,
                                  const struct vfs_shown *as) {
    for (struct vfs_opening *it = openings; it; it = it->next) {
        if (it->owner != getpid() || !asks_alike(&it->asked, asked)) continue;
        if (it->stamps[0].device != stamps[0].device || it->stamps[0].number != stamps[0].number) continue;
        if (as ? shows_the_same(&it->shown, as) : is_unchanged(it, asked, stamps)) {
            it->users++;
            return it;
        }
    }
    return NULL;
}

/* ---- opening and closing */

static void dispose(struct vfs_opening *it) {
    vfs_hide(&it->shown);
    free(it);
}

/* Takes a new opening into the list, unless one there shows the same. */
static struct vfs_opening *kept(struct vfs_opening *made) {
    pthread_mutex_lock(&mutex);
    struct vfs_opening *it = shared(&made->asked, made->stamps, &made->shown);
    if (!it) {
        made->next = openings;
        openings = made;
    }
    pthread_mutex_unlock(&mutex);
    if (it) dispose(made);
    return it ? it : made;
}

uint32_t vfs_open(const struct vfs_asked *asked, struct vfs_opening **out) {
    struct stamp before[FILES];
    stamp_all(asked->file, before);
    pthread_mutex_lock(&mutex);
    *out = shared(asked, before, NULL);
    pthread_mutex_unlock(&mutex);
    if (*out) return SQR_OK;
    struct vfs_opening *made = calloc(1, sizeof *made);
    if (!made) return SQR_NO_MEMORY;
    const uint32_t status = vfs_show(asked, &made->shown);
    if (status) {
        free(made);
        return status;
    }
    made->users = 1;
    made->owner = getpid();
    made->asked = *asked;
    stamp_all(asked->file, made->stamps);
    made->is_settled = is_settled(made, before);
    *out = kept(made);
    return SQR_OK;
}

void vfs_close(struct vfs_opening *it) {
    pthread_mutex_lock(&mutex);
    const int is_last = --it->users == 0;
    struct vfs_opening **at = &openings;
    while (is_last && *at != it) at = &(*at)->next;
    if (is_last) *at = it->next;
    pthread_mutex_unlock(&mutex);
    if (is_last) dispose(it);
}

/* ---- reading */

uint64_t vfs_length(const struct vfs_opening *it) {
    const struct sqr_view *view = &it->shown.view;
    return it->shown.is_file ? view->db_len : (uint64_t)view->pages * view->page_size;
}

/* Bytes of FILE or its log, and zeros after its end: 0 or -1. */
static int copied(const uint8_t *of, size_t has, uint64_t at, uint8_t *to, size_t len, int is_copy) {
    const size_t there = (size_t)sqr_bytes_there(at, len, has);
    memset(to + there, 0, len - there);
    if (!is_copy) return there ? vfs_copy(to, of + at, there) : 0;
    if (there) memcpy(to, of + at, there);
    return 0;
}

/* A piece of a page of the view. */
static int piece_of(const struct vfs_shown *it, const struct sqr_piece *piece, uint8_t *to) {
    const struct sqr_view *view = &it->view;
    struct sqr_place place = {0, 0};
    if (piece->page > view->pages || sqr_page_place(view, (uint32_t)piece->page, &place)) {
        errno = EINVAL;
        return -1;
    }
    const uint8_t *of = place.is_of_log ? view->log : view->db;
    const size_t has = place.is_of_log ? view->log_len : view->db_len;
    return copied(of, has, place.at + piece->from, to, piece->len, !it->path);
}

/* The bytes of a range of the view's pages, all of which are there: 0 or -1. */
static int pages_of(const struct vfs_shown *it, uint8_t *to, uint64_t len, uint64_t at) {
    struct sqr_piece piece = {0, 0, 0};
    for (; sqr_first_piece(at, len, it->view.page_size, &piece); to += piece.len, at += piece.len, len -= piece.len)
        if (piece_of(it, &piece, to)) return -1;
    return 0;
}

enum vfs_answer vfs_read(const struct vfs_opening *it, uint8_t *to, uint64_t len, uint64_t at) {
    const struct vfs_shown *shown = &it->shown;
    const uint64_t has = sqr_bytes_there(at, len, vfs_length(it));
    const int failed = shown->is_file ? copied(shown->view.db, shown->view.db_len, at, to, has, !shown->path)
                                      : pages_of(shown, to, has, at);
    if (failed) return VFS_FAILED;
    memset(to + has, 0, len - has);
    return has < len ? VFS_SHORT : VFS_READ;
}
