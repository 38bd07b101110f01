/* held.h: takes SQLite's own locks on a database, and gives them back. License: MIT.

   sqr_hold opens FILE, which this path leads to, and its FILE-shm, where there is one, carries out the plan of
   sqlocks.h for a reader (want 0) or a recovery in place (want 1), and waits for locks that others hold as long as
   that. The path is none of a symbolic link: SQLite looks for FILE-shm and FILE-wal beside the file that one leads to
   (realpath). The locks are F_OFD_SETLK's, so they keep apart threads of one process, and go with the descriptors.
   The descriptors are close-on-exec, and none is 0, 1 or 2.

   Nothing is kept outside *held, so threads may each hold their own. In a process that has the database open by SQLite
   itself it is called in a task alone (library/task.h): closing a descriptor of a file, which sqr_give_back does, also
   gives back all of SQLite's locks on that file that the table of descriptors has. */
#ifndef HELD_H
#define HELD_H
#include <stddef.h>
#include <stdint.h>

enum sqr_hold_answer {
    SQR_HELD,           /* until sqr_give_back */
    SQR_HELD_IN_USE,    /* somebody held a lock in the way until the time was over */
    SQR_HELD_NO_LOCKS,  /* there are no such locks here: those of the file system, or FILE-shm is no file, or can't be
                           opened */
    SQR_HELD_NO_FILE,   /* FILE can't be opened, for a recovery for writing, or is no regular file; errno says why */
    SQR_HELD_FAILED,    /* a recovery: FILE-shm can't be opened for writing */
    SQR_HELD_NO_MEMORY,
    SQR_HELD_NO_ROOM    /* no descriptor is left for FILE-shm or FILE-wal: errno is EMFILE or ENFILE */
};

#define SQR_HOLD_STEPS 64

struct sqr_held { /* the descriptors, -1 where it isn't open; and how the plan got there */
    int file, index;
    uint32_t want;
    size_t count;
    uint8_t answers[SQR_HOLD_STEPS];
    struct sqr_journal_seen { /* what was looked at of FILE-journal: no inode if it couldn't be read */
        uint64_t device, inode, length;
        uint8_t header[28];
    } journal;
};

/* All but SQR_HELD leaves both descriptors -1, and no lock behind. */
enum sqr_hold_answer sqr_hold(struct sqr_held *held, const char *path, uint32_t want, uint64_t milliseconds);

/* Gives the locks back, in reverse order, and closes the descriptors. To give back what isn't held does nothing, if
   both descriptors are -1. */
void sqr_give_back(struct sqr_held *held);
#endif
