/* Runs the traced threads. One recorded call is made at a time: a thread that wants another waits at its entry until
   the first is out. Calls on other files go on. */
#include "tracer.h"
#include <linux/seccomp.h>
#include <signal.h>
#include <sys/ptrace.h>
#include <linux/ptrace.h>
#include <sys/time.h>
#include <sys/wait.h>
#include <time.h>

#define PATIENCE 1.0 /* seconds that others wait for a call that waits for something else */

static struct call *inside; /* the one call that the others wait for */
static struct thread **waiting;
static int waiting_count, waiting_room;
static int is_closing; /* the command has ended: no call is let in any more */
static int is_over;    /* the trace has ended: what still runs goes on unrecorded */

double now(void) {
    struct timespec time;
    clock_gettime(CLOCK_MONOTONIC, &time);
    return (double)time.tv_sec + (double)time.tv_nsec * 1e-9;
}

static void resume(struct thread *thread, int how, int signal) {
    ptrace(how, thread->id, NULL, (void *)(long)signal);
}

/* Wakes the loop five times a second, as long as it has something to look after. */
static void set_timer(int is_wanted_now) {
    static int is_on;
    struct itimerval often = { { 0, 200000 }, { 0, 200000 } }, never = { { 0, 0 }, { 0, 0 } };
    if (is_on == is_wanted_now) return;
    is_on = is_wanted_now;
    setitimer(ITIMER_REAL, is_on ? &often : &never, NULL);
}

/* ---- Calls. */

static struct call *new_call(struct thread *thread, const struct kind *kind,
                             const struct __ptrace_syscall_info *info) {
    struct call *call = need(calloc(1, sizeof *call));
    call->thread = thread;
    call->kind = kind;
    call->number = kind->number;
    for (int i = 0; i < 6; i++) call->args[i] = info->seccomp.args[i];
    call->reader = call->descriptor = call->from.folder = call->to.folder = NONE;
    return call;
}

static void free_call(struct call *call) {
    if (call->reader >= 0) close(call->reader);
    side_close(&call->from);
    side_close(&call->to);
    free(call);
}

static void hold(struct thread *thread) {
    if (waiting_count == waiting_room) {
        waiting_room = waiting_room ? 2 * waiting_room : 64;
        waiting = need(realloc(waiting, (size_t)waiting_room * sizeof *waiting));
    }
    waiting[waiting_count++] = thread;
    thread->state = HELD;
}

static void stop_waiting(struct thread *thread) {
    for (int i = 0; i < waiting_count; i++) {
        if (waiting[i] != thread) continue;
        memmove(waiting + i, waiting + i + 1, (size_t)(--waiting_count - i) * sizeof *waiting);
        return;
    }
}

static void enter(struct call *call) {
    struct thread *thread = call->thread;
    inside = thread->call = call;
    thread->state = INSIDE;
    call->begun = now();
    resume(thread, PTRACE_SYSCALL, 0);
}

static int changes_bytes(const struct call *call) { /* of a file that is known */
    enum answer (*ask)(struct call *call) = call->kind->ask;
    return call->file && (ask == ask_write || ask == ask_ftruncate || ask == ask_truncate || ask == ask_room
        || ask == ask_ioctl);
}

/* A thread stops at the entry of a call. What a path leads to may be changing while another call is inside, so it is
   looked at after that. */
static void entered(struct thread *thread) {
    struct __ptrace_syscall_info info = { 0 };
    int is_taken = inside || is_closing;
    if (ptrace(PTRACE_GET_SYSCALL_INFO, thread->id, (void *)sizeof info, &info) < 0) return; /* it was killed */
    const struct kind *kind = find_kind(info.seccomp.ret_data == 2 ? NONE : (int)info.seccomp.nr);
    if (is_over || !kind) {
        resume(thread, PTRACE_CONT, 0);
        return;
    }
    acting = thread->id;
    struct call *call = new_call(thread, kind, &info);
    enum answer answer = is_taken && kind->is_by_path ? ENTER : kind->ask(call);
    if (is_taken && (answer == ENTER || answer == RECORD)) {
        free_call(call);
        hold(thread);
        return;
    }
    if (answer == ENTER || answer == RECORD) compare(changes_bytes(call) ? call->file : NULL);
    if (answer == ENTER) {
        enter(call);
        return;
    }
    if (answer == RECORD) record_mark(call);
    if (answer == FAIL) ptrace(PTRACE_POKEUSER, thread->id, (void *)(8 * 15), (void *)-1L); /* no call: ENOSYS */
    free_call(call);
    resume(thread, PTRACE_CONT, 0);
}

static void let_in(void) { /* those that wait, in their order */
    while (!inside && !is_closing && waiting_count) {
        struct thread *thread = waiting[0];
        stop_waiting(thread);
        thread->state = RUNS;
        entered(thread);
    }
}

/* The call of a thread is out. One that is made again after a signal did nothing. */
static void leave(struct thread *thread, int64_t answer) {
    struct call *call = thread->call;
    int is_repeated = answer <= -512 && answer >= -516;
    acting = thread->id;
    if (thread->state == OVERTAKEN) {
        const char *name = call->file ? name_in_text(call->file) : call->to.last;
        refuse(UNSEEN, call->file, call->kind->text, name, "others went on beside it, and their order isn't known");
    }
    if (!is_repeated) call->end(call, answer);
    if (inside == call) inside = NULL;
    thread->call = NULL;
    thread->state = RUNS;
    free_call(call);
}

/* ---- A call that doesn't return. */

static int is_sync(const struct call *call) {
    return call->number == SYS_fsync || call->number == SYS_fdatasync || call->number == SYS_sync
        || call->number == SYS_syncfs || call->number == SYS_msync;
}

/* Whether it waits for something that another thread may have to do: a lease that is broken, an empty pipe. One that
   runs, or waits for a disk, comes to its end by itself. */
static int is_stuck(const struct call *call) {
    return now() - call->begun >= PATIENCE && !is_sync(call) && state_of(call->thread) == 'S';
}

static void overtake(void) {
    if (!inside || !waiting_count || !is_stuck(inside)) return;
    inside->thread->state = OVERTAKEN;
    inside = NULL;
    let_in();
}

/* ---- Stops. */

static void gone(struct thread *thread) {
    if (thread->call) leave(thread, KILLED);
    stop_waiting(thread);
    drop_thread(thread);
}

/* A thread starts a program. If it isn't the first of its process it gets that one's number. */
static void started(struct thread *thread) {
    unsigned long former = 0;
    char path[64];
    struct stat state;
    ptrace(PTRACE_GETEVENTMSG, thread->id, NULL, &former);
    struct thread *old = (pid_t)former != thread->id ? find_thread((pid_t)former) : NULL;
    if (old) gone(old);
    if (thread->call) leave(thread, KILLED);
    stop_waiting(thread);
    thread->state = RUNS;
    snprintf(path, sizeof path, "/proc/%d/exe", thread->id);
    if (geteuid() && !stat(path, &state) && state.st_mode & (S_ISUID | S_ISGID)) {
        fprintf(stderr, "trace: process %d runs a program without the rights of its file\n", thread->id);
    }
    resume(thread, PTRACE_CONT, 0);
}

static void forked(struct thread *thread) {
    unsigned long child = 0;
    ptrace(PTRACE_GETEVENTMSG, thread->id, NULL, &child);
    if (child) add_thread((pid_t)child);
    resume(thread, PTRACE_CONT, 0);
}

static void returned(struct thread *thread) { /* a call ends */
    struct __ptrace_syscall_info info = { 0 };
    int is_known = ptrace(PTRACE_GET_SYSCALL_INFO, thread->id, (void *)sizeof info, &info) >= 0
        && info.op == PTRACE_SYSCALL_INFO_EXIT;
    if (thread->call) leave(thread, is_known ? info.exit.rval : KILLED);
    resume(thread, PTRACE_CONT, 0);
}

static void stopped(struct thread *thread, int status) {
    int event = status >> 16, signal = WSTOPSIG(status), how = thread->call ? PTRACE_SYSCALL : PTRACE_CONT;
    switch (event) {
    case PTRACE_EVENT_SECCOMP: entered(thread); return;
    case PTRACE_EVENT_EXEC: started(thread); return;
    case PTRACE_EVENT_FORK: case PTRACE_EVENT_VFORK: case PTRACE_EVENT_CLONE: forked(thread); return;
    case PTRACE_EVENT_STOP: /* it is new, or its process is stopped */
        if (thread->is_new || signal == SIGTRAP) resume(thread, how, 0);
        else resume(thread, PTRACE_LISTEN, 0);
        thread->is_new = 0;
        return;
    }
    if (signal == (SIGTRAP | 0x80)) returned(thread);
    else resume(thread, how, signal);
}

/* ---- The end. */

static void print_rest(double linger) {
    for (int i = 0; i < THREADS; i++) {
        for (struct thread *thread = threads[i]; thread; thread = thread->next) {
            char path[64], program[64] = "";
            snprintf(path, sizeof path, "/proc/%d/comm", thread->id);
            FILE *from = fopen(path, "re");
            if (from && fgets(program, sizeof program, from)) program[strcspn(program, "\n")] = 0;
            if (from) fclose(from);
            fprintf(stderr, "trace: %s (%d) still runs %g s after the command: the trace ends without it\n", program,
                    thread->id, linger);
        }
    }
}

/* The command has ended, and others go on. The trace ends as if they were killed now. Answers whether it did: a call
   that is inside, and will end by itself, is waited for. */
static int close_run(double linger) {
    is_closing = 1;
    if (inside && (is_sync(inside) || state_of(inside->thread) != 'S')) return 0;
    print_rest(linger);
    for (int i = 0; i < THREADS; i++) {
        for (struct thread *thread = threads[i]; thread; thread = thread->next) {
            if (thread->call) leave(thread, KILLED);
        }
    }
    return 1;
}

static void end_trace(int status, void (*over)(int)) {
    walk_end();
    close_trace();
    is_over = 1;
    for (int i = 0; i < waiting_count; i++) {
        waiting[i]->state = RUNS;
        resume(waiting[i], PTRACE_CONT, 0);
    }
    waiting_count = 0;
    over(status);
}

/* Runs until no thread is left. Once the trace has ended, `over` is called with the status of the command. */
int run(pid_t first, double linger, void (*over)(int status)) {
    int status, command = 0;
    double ended = 0; /* when the command did */
    pid_t id;
    while ((id = waitpid(-1, &status, __WALL)) > 0 || errno == EINTR) {
        if (id > 0 && WIFSTOPPED(status)) stopped(add_thread(id), status);
        else if (id > 0) {
            struct thread *thread = find_thread(id);
            if (thread) gone(thread);
            if (id == first) command = status, ended = now();
        }
        overtake();
        let_in();
        int is_late = ended && !is_over && thread_count && now() - ended >= linger;
        if (is_late && close_run(linger)) end_trace(command, over);
        set_timer(!is_over && ((inside && waiting_count) || ended));
    }
    if (!is_over) end_trace(command, over);
    return command;
}
