/* Runs a command and records what it does to the files of a folder, by ptrace and a seccomp filter. So it sees every
   system call, whoever makes it. rig/trace starts it, and docs/TRACE.md has the format of the trace. */
#include "tracer.h"
#include <signal.h>
#include <sys/prctl.h>
#include <sys/ptrace.h>
#include <sys/resource.h>
#include <sys/wait.h>

/* What the recorder reports to the process that was started, once the trace has ended. */
struct answer_of_run {
    int code, stays; /* the status of the command; whether the recorder stays for what still runs */
};

static int answer_to; /* a pipe to that process */
static double linger = 10;

static void usage(void) {
    fprintf(stderr, "usage: tracer [--only NAME].. [--but NAME].. [--no-uring] [--linger SECONDS] TRACE FOLDER "
                    "COMMAND..\n");
    exit(2);
}

/* Answers which word is the trace. */
static int read_words(int count, char **words) {
    int at = 1;
    for (; at < count && words[at][0] == '-'; at++) {
        if (!strcmp(words[at], "--no-uring")) no_uring = 1;
        else if (at + 1 == count) usage();
        else if (!strcmp(words[at], "--only")) leave_out(1, words[++at]);
        else if (!strcmp(words[at], "--but")) leave_out(0, words[++at]);
        else if (!strcmp(words[at], "--linger")) linger = strtod(words[++at], NULL);
        else usage();
    }
    if (count - at < 3) usage();
    return at;
}

static void woken(int signal) { (void)signal; } /* so that waitpid returns */

/* The command, from its fork on: it waits until it is traced. */
static void start_command(int go, char **words, const struct rlimit *limit) {
    char byte;
    signal(SIGINT, SIG_DFL);
    signal(SIGQUIT, SIG_DFL);
    setrlimit(RLIMIT_NOFILE, limit);
    if (read(go, &byte, 1) != 1) _exit(NO_TRACE);
    if (!install_filter()) {
        perror("trace: seccomp");
        _exit(NO_TRACE);
    }
    execvp(words[0], words);
    fprintf(stderr, "trace: %s: %s\n", words[0], strerror(errno));
    _exit(errno == ENOENT ? 127 : 126);
}

static pid_t start(char **words) {
    int go[2];
    struct rlimit limit, most;
    long options = PTRACE_O_TRACESECCOMP | PTRACE_O_TRACEFORK | PTRACE_O_TRACEVFORK | PTRACE_O_TRACECLONE
        | PTRACE_O_TRACEEXEC | PTRACE_O_EXITKILL | PTRACE_O_TRACESYSGOOD;
    getrlimit(RLIMIT_NOFILE, &limit);
    most = limit;
    most.rlim_cur = most.rlim_max;
    setrlimit(RLIMIT_NOFILE, &most);
    if (pipe2(go, O_CLOEXEC)) die("pipe");
    pid_t first = fork();
    if (first < 0) die("fork");
    if (first == 0) {
        close(go[1]);
        start_command(go[0], words, &limit);
    }
    add_thread(first);
    if (ptrace(PTRACE_SEIZE, first, NULL, (void *)options)) die("ptrace isn't allowed here");
    if (write(go[1], "x", 1) != 1) die("pipe");
    close(go[0]);
    close(go[1]);
    return first;
}

/* The trace has ended. What still runs needs its tracer, or its calls would fail: so this process stays. */
static void over(int status) {
    int is_signal = !WIFEXITED(status);
    struct answer_of_run answer = { is_signal ? 128 + WTERMSIG(status) : WEXITSTATUS(status), thread_count > 0 };
    if (answer.code >= 128) {
        fprintf(stderr, "trace: a signal ended the command (status %d): it is judged up to there\n", answer.code);
    }
    prctl(PR_SET_PDEATHSIG, 0, 0, 0, 0);
    signal(SIGHUP, SIG_IGN);
    if (write(answer_to, &answer, sizeof answer) != sizeof answer) exit(NO_TRACE);
    close(answer_to);
    int nothing = open("/dev/null", O_RDWR);
    for (int i = 0; i < 3; i++) dup2(nothing, i);
}

static void record(char **words) {
    struct stat state;
    struct sigaction wake = { .sa_handler = woken }; /* without SA_RESTART */
    open_trace(words[0]);
    top_path = words[1];
    top = open(top_path, O_RDONLY | O_DIRECTORY | O_CLOEXEC);
    if (top < 0) die(top_path);
    marks_path = getenv("SQCRASH_MARKS");
    if (marks_path && !stat(marks_path, &state)) learn_marks(&state);
    acting = getpid();
    walk_begin();
    sigaction(SIGALRM, &wake, NULL);
    run(start(words + 2), linger, over);
}

int main(int count, char **words) {
    int at = read_words(count, words), pair[2], status;
    struct answer_of_run answer;
    pid_t self = getpid();
    signal(SIGINT, SIG_IGN);
    signal(SIGQUIT, SIG_IGN);
    if (pipe2(pair, O_CLOEXEC)) die("pipe");
    pid_t recorder = fork();
    if (recorder < 0) die("fork");
    if (recorder == 0) {
        close(pair[0]);
        answer_to = pair[1];
        prctl(PR_SET_PDEATHSIG, SIGKILL, 0, 0, 0);
        if (getppid() != self) return NO_TRACE;
        record(words + at);
        return 0;
    }
    close(pair[1]);
    int has_ended = read(pair[0], &answer, sizeof answer) == sizeof answer;
    if (has_ended && answer.stays) return answer.code;
    if (waitpid(recorder, &status, 0) != recorder) return NO_TRACE;
    if (has_ended) return answer.code;
    return WIFEXITED(status) && WEXITSTATUS(status) ? WEXITSTATUS(status) : NO_TRACE;
}
