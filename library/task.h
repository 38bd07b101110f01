/* task.h: runs a call by path so that no POSIX lock of the process is ever given back. License: MIT.

   Linux gives back the POSIX locks that a process has on a file when it closes any descriptor of it (fcntl(2)), and so
   SQLite's. What matters is the table of descriptors in which the file is closed. So FILE, its logs, FILE-shm and OUT
   are opened and closed in a task alone: a thread that shares all memory, but has a separate table, and ends with the
   call. Nothing stays between calls but the mappings and the socket of a path that is open. Its locks are descriptors
   that were sent into that socket and stay there. To receive them without room for descriptors, or to close the socket,
   gives the locks back, but closes no file in any table. So any thread may do that. */
#ifndef TASK_H
#define TASK_H
#include <stddef.h>
#include <stdint.h>
#include <sys/types.h>

struct sqr_task;

struct sqr_park { /* descriptors that wait in a socket; -1 for none */
    int socket;
    pid_t owner; /* a forked child has the socket too, but mustn't receive what is its parent's */
};

#define SQR_PARK_INIT {-1, 0}

struct sqr_call { /* the first field of every call's struct */
    uint32_t status;
    int is_held_up; /* others held locks in the way, or changed the files: it may be tried again */
};

/* A body opens, locks, maps, and closes all before it returns. It calls nothing of the host's, and uses the descriptors
   by locks/raw.h. */
typedef void sqr_body(struct sqr_task *task, struct sqr_call *call);

/* Runs a call on a path in one task after another, until it isn't held up or these milliseconds are over; the waits lie
   between the tasks. `park` is empty, and has after the call what the body parked; NULL where a body parks nothing. The
   status of the last task, or why there is none: SQR_SHARED_PROCESS, SQR_FILE_FAILED, SQR_NO_MEMORY. */
uint32_t sqr_call_run(sqr_body *body, struct sqr_call *call, const char *path, struct sqr_park *park, uint64_t wait);

/* The beginning of a call: a thread that is to be cancelled ends here, or after the call. The present errno. */
int sqr_call_begun(void);

/* The status without its errno, which is set then; otherwise errno becomes `before`. */
uint32_t sqr_call_ended(uint32_t status, int before);

/* Sends copies of at most two descriptors into the socket: 0, or -1. */
int sqr_task_park(struct sqr_task *task, const int *fds, size_t count);

/* Gives back what is parked. It needs nothing, never fails, and leaves errno. */
void sqr_park_drop(struct sqr_park *park);
#endif
