/* sqlocks.h: the plans of SQLite's locks, step by step. License: MIT.

   sqr_lock_step says what a reader (want 0) or a recovery in place (want 1) does next, behind the answers to the steps
   before it, the first one first; behind a SQR_WAIT that is SQR_GIVEN all begins anew, and the answers may be
   forgotten. It answers 0, or 6 for want of memory. A lock is asked for by F_OFD_SETLK on the file, with the start, the
   count and the kind of the step, and never waited for.

   A reader beside no FILE-shm looks at the journal first, then asks once whether RESERVED is locked, and then looks
   whether the journal is as it was. If it isn't hot, or RESERVED is locked, or the journal changed, none is current.
   The plan then takes a lock of its own, on byte 1073742337 of FILE, which says so. */
#ifndef SQLOCKS_H
#define SQLOCKS_H
#include <stddef.h>
#include <stdint.h>

enum sqr_lock_kind {
    SQR_OPEN,        /* FILE for reading, in a recovery for writing too; FILE-shm for both, or else for reading; what
                        was opened of it before is closed first */
    SQR_TAKE,        /* these bytes */
    SQR_GIVE,        /* gives them back */
    SQR_COMPARE,     /* whether the path of FILE still leads to the file that is open */
    SQR_LOOK,        /* whether sqr_index_names says 1 */
    SQR_WAIT,        /* for a moment; SQR_REFUSED once the time is over */
    SQR_ASK,         /* whether somebody else holds these bytes, by F_OFD_GETLK, which takes nothing */
    SQR_LOOK_AT_JOURNAL, /* whether sqr_journal_is_hot says 1; SQR_GIVEN also if FILE-journal can't be read */
    SQR_COMPARE_JOURNAL, /* whether FILE-journal has still the header and the length that were looked at; SQR_GIVEN
                            also if one of the two can't be read */
    SQR_LOOK_FOR_FOLDER, /* whether no folder FILE.lock is there, by which SQLite's unix-dotfile locks FILE */
    SQR_GO,          /* all locks are held */
    SQR_GO_UNLOCKED, /* FILE can't be opened, or a reader goes on where there are no locks */
    SQR_GIVE_UP,     /* reason 0: in use; 1: there are no locks here; 2: FILE-shm can't be opened for writing */
    SQR_END
};

enum sqr_lock_answer {
    SQR_GIVEN,
    SQR_REFUSED,    /* also: FILE-shm can be opened for reading alone */
    SQR_MISSING,
    SQR_UNSUPPORTED /* there are no such locks here; FILE-shm can't be opened */
};

struct sqr_lock_step {
    uint32_t kind, is_of_index, is_exclusive, reason;
    uint64_t start, count;
};

uint32_t sqr_lock_step(uint32_t want, const uint8_t *answers, size_t count, struct sqr_lock_step *out);

/* Of the first 136 bytes of FILE-shm: where the last frame that counts begins in FILE-wal, in bytes, otherwise 0; and
   whether they name a front of the log that begins with these 32 bytes, and has these 24 at that place. */
uint64_t sqr_index_place(const uint8_t *index, size_t index_length);
uint32_t sqr_index_names(const uint8_t *index, size_t index_length, const uint8_t *header, size_t header_length,
                         const uint8_t *frame, size_t frame_length);

/* Whether a rollback journal of this length that begins with these bytes, 28 of a whole header, is hot. */
uint32_t sqr_journal_is_hot(const uint8_t *front, size_t front_length, uint64_t length);
#endif
