/* files.h: what the calls by path share, and nobody else calls: files of which bytes are read, and a path that is open.
   License: MIT. */
#ifndef FILES_H
#define FILES_H
#include "sqrescue.h"
#include "task.h"
#include "../locks/held.h"
#include <sys/stat.h>

#define MOST_PAGES 2097152 /* of 512 bytes, in a database that isn't too large */

struct sqr_opened { /* the bytes of a file; none of one that is missing or empty */
    uint8_t *bytes;
    size_t len;
    int is_copy, is_heap; /* the bytes are ours, since they were copied; they are malloc's */
    const char *folder;   /* where a long copy lies if it can, before /var/tmp and /tmp; NULL for none */
};

struct sqr_path {
    struct sqr_held held;  /* in a task alone; otherwise its descriptors are parked */
    struct sqr_park park;
    struct sqr_opened db, wal, journal;
    struct sqr_files files;
    struct sqr_view view;
    uint64_t *places;
    char *index;             /* the name of FILE-shm, if the bytes are of one moment as long as it isn't there */
    int is_locked, is_alone; /* alone: no connection was live, and WRITE is held on that account alone */
    int copies;              /* FILE is copied if no lock keeps it, however long: a handle stays of one moment */
};

struct sqr_asked { /* as the crate's Asked */
    uint32_t wait, at;
};

uint32_t sqr_options_read(uint32_t flags, const uint8_t *options, size_t len, struct sqr_asked *out);

/* What a journal says of a super-journal, as the crate's supers.rt has it. */
enum { SQR_SUPER_NONE, SQR_SUPER_UNNAMED, SQR_SUPER_NAMED };
uint32_t sqr_super_path(const uint8_t *journal, size_t len, uint8_t *path, size_t room);

/* What a caller asks of a path, whose links are led to their file in `real`, which has room for PATH_MAX bytes. Other
   flags than `known` are refused. */
uint32_t sqr_file_asked(const char *path, uint32_t flags, uint32_t known, const struct sqr_options *options, char *real,
                        struct sqr_asked *asked);

/* The status of an error of the system, with the error above its lowest byte until the call ends (sqr_call_ended); the
   second where something was to be written. */
uint32_t sqr_file_status(int error);
uint32_t sqr_file_unwritten(int error);

/* `path` with `end` behind it, into PATH_MAX + 16 bytes. */
void sqr_file_name(char *name, const char *path, const char *end);

/* All that follow are called in a task alone.

   Opens and locks FILE for a reading (0) or a recovery (1), and waits for nobody; without locks where SQR_NO_LOCK is a
   flag. Nothing is open where it isn't SQR_OK. */
uint32_t sqr_file_hold(struct sqr_held *held, const char *path, uint32_t want, uint32_t flags);
void sqr_file_let_go(struct sqr_held *held, int is_locked);

/* Opens a file that is open once more, for reading: the one is locked, the other mapped, since a mapping that a forked
   child inherits would keep the locks of its descriptor. SQR_IN_USE where the path leads to another file now. */
uint32_t sqr_file_again(int file, const char *path, int *fd, struct stat *found);

/* Opens a log beside the FILE that is open: -1 in `fd` where there is none. `how` is O_RDONLY or O_RDWR. */
uint32_t sqr_file_log(int file, const char *path, const char *end, int how, int *fd, struct stat *found);

/* Whether a rollback journal of this length is hot, by its header (sqr_journal_is_hot): 28 bytes; no more is read. */
#define SQR_JOURNAL_HEADER 28
uint32_t sqr_file_is_hot(int journal, uint64_t len, uint8_t *header, int *is_hot);

/* How many bytes of a hot journal count if the file system decides whether its super-journal exists, as for SQLite:
   none if that is gone; otherwise all but the last 8, if these say that there may be one. SQR_SUPER_JOURNAL if the name
   is relative, or can't be looked at. */
uint32_t sqr_file_super(const struct sqr_opened *journal, size_t *len);

/* The first `len` bytes of a file, mapped or copied. */
#define SQR_COPIED 4194304 /* bytes: the copy of a longer file takes no memory, but a file without a name */
uint32_t sqr_file_bytes(int fd, size_t len, int is_copy, struct sqr_opened *out);

/* The next bytes of a file between two holes, or its ends, from a place on; behind the last of them none, at `len`. If
   the file system isn't known to say rightly where holes are, these are all bytes. */
struct sqr_data {
    off_t at, end;
};
struct sqr_data sqr_file_data(int fd, off_t at, off_t len);

/* Copies the first `len` bytes of a file to one without a name, and maps that. SQR_IN_USE if it has become shorter. */
uint32_t sqr_file_aside(int fd, size_t len, struct sqr_opened *out);

/* Whether a file still has the bytes of its copy, at least their length, and a name. */
uint32_t sqr_file_has(int fd, const struct sqr_opened *copy, int *has);

void sqr_file_give_back(struct sqr_opened *it);

/* The milliseconds of a clock that goes on. */
uint64_t sqr_file_now(void);

/* All of these bytes at a place of a file, from 0; the second doesn't write blocks of zeros, which become holes. */
uint32_t sqr_file_write(int fd, const uint8_t *bytes, size_t len, uint64_t at);
uint32_t sqr_file_put(int fd, const uint8_t *bytes, size_t len, uint64_t at);

/* What a recovery of the files comes to, with memory of malloc's for its places; and the size of their database, zeros
   where it has none. */
uint32_t sqr_file_plan(const struct sqr_files *files, uint64_t **places, struct sqr_plan *plan,
                       struct sqr_recovered *found);

/* One attempt to open a path, and its end, which gives all back; `of` begins as SQR_PATH_INIT. SQR_IN_USE where others
   were in the way, or changed the files. */
#define SQR_PATH_INIT {.held = {.file = -1, .index = -1}, .park = SQR_PARK_INIT, .view = SQR_VIEW_INIT}
uint32_t sqr_path_begin(struct sqr_path *of, const char *path, uint32_t flags, uint32_t at);
void sqr_path_end(struct sqr_path *of);

/* Whether all that was read until now is of one moment: SQR_OK, or SQR_IN_USE if FILE-shm has come to files that no
   lock keeps and that weren't copied. */
uint32_t sqr_path_kept(const struct sqr_path *of);

/* Lets others write where no connection was live: the log is then cut at its front, also that of this view. */
void sqr_path_let_write(struct sqr_path *of, struct sqr_view *view);
#endif
