/* Processes and signals. */
#define _GNU_SOURCE
#include "host.h"
#include <errno.h>
#include <fcntl.h>
#include <poll.h>
#include <stdint.h>
#include <stdio.h>
#include <string.h>
#include <sys/ioctl.h>
#include <sys/mman.h>
#include <sys/prctl.h>
#include <sys/resource.h>
#include <sys/wait.h>
#include <unistd.h>

extern char **environ;

/* The program's environment. It reads the caller's variables from its pipe. Its memory comes in large pages where the kernel has them, so that
 * there are fewer page faults. */
static char *const own_variables[] = {"GLIBC_TUNABLES=glibc.malloc.hugetlb=1", NULL};

int text = -1, messages = -1, printed = -1, list = -1;
volatile sig_atomic_t stopped;

static int was_closed[3];                   /* which of the first three files the caller had closed */
static sigset_t stops, callers, usual;      /* the signals that stop a compiler, those that the caller had blocked, and those that are blocked
                                               while nothing is waited for */
static int watches;                         /* whether signals are watched */
static volatile pid_t running;              /* the compiler that runs */
static volatile int fault;                  /* why a process couldn't be started */

/* Signals that are handled in another way here than in a compiler, and how the caller handles them. */
static struct { int number; void (*ours)(int), (*callers)(int); } kinds[3];

/* Opens those of the first three files that the caller had closed, so that no other file gets their numbers. -1 where that can't be, and where
 * there is no standard error: a GCC that has something to print there fails then. */
int hold_closed(void) {
    struct pollfd files[3] = {{0, 0, 0}, {1, 0, 0}, {2, 0, 0}};
    if (poll(files, 3, 0) <= 0) return 0;
    for (int file = 0; file < 3; file++) {
        was_closed[file] = (files[file].revents & POLLNVAL) != 0;
        if (was_closed[file] && open("/dev/null", O_RDWR) < 0) return -1;
    }
    return was_closed[2] ? -1 : 0;
}

/* Makes the files in memory. The program has them under the same numbers; a compiler hasn't. It takes the time of messages for that at which
 * the call began, so they are made before anything runs, and nothing is written into that one before the program starts. */
int make_files(void) {
    text = memfd_create("text", 0);
    messages = memfd_create("messages", 0);
    printed = memfd_create("printed", 0);
    list = memfd_create("list", 0);
    return text < 0 || messages < 0 || printed < 0 || list < 0 ? -1 : 0;
}

static void close_files(int also_list) {
    const int files[] = {text, messages, printed, also_list ? list : -1};
    for (size_t i = 0; i < sizeof files / sizeof *files; i++)
        if (files[i] >= 0) close(files[i]);
}

/* ---- Signals. */

static void stop(int number) {
    int before = errno;
    stopped = number;
    if (running > 0) kill(running, number);
    errno = before;
}

/* A process ended: nothing is waited for any more. */
static void wake(int number) { (void)number; }

/* From now on a signal that would stop this process goes on to the compiler, whose end is waited for. What the caller ignores stays ignored. The
 * end of a process (SIGCHLD) comes through while one is waited for, and a failed write doesn't end this one. Until the program is started the
 * signals that stop and SIGCHLD are blocked. */
void watch_signals(void) {
    const int numbers[] = {SIGINT, SIGTERM, SIGHUP, SIGQUIT};
    const struct sigaction ours = {.sa_handler = stop};
    struct sigaction before;
    sigset_t blocked;
    sigemptyset(&blocked);
    sigemptyset(&stops);
    for (size_t i = 0; i < 4; i++) sigaddset(&blocked, numbers[i]);
    sigaddset(&blocked, SIGCHLD);
    sigprocmask(SIG_BLOCK, &blocked, &callers);
    for (size_t i = 0; i < 4; i++) {
        sigaction(numbers[i], &ours, &before);
        if (before.sa_handler == SIG_IGN) signal(numbers[i], SIG_IGN);
        else sigaddset(&stops, numbers[i]);
    }
    kinds[0].number = SIGCHLD, kinds[1].number = SIGPIPE, kinds[2].number = SIGXFSZ;
    for (int i = 0; i < 3; i++) kinds[i].callers = signal(kinds[i].number, i == 0 ? wake : SIG_IGN);
    usual = callers;
    sigaddset(&usual, SIGCHLD);
    watches = 1;
}

/* Has signals do what they did to the caller, from now on. */
static void give_back_signals(void) {
    if (!watches) return;
    for (int number = 1; number < NSIG; number++)
        if (sigismember(&stops, number) == 1) signal(number, SIG_DFL);
    for (int i = 0; i < 3; i++) signal(kinds[i].number, kinds[i].callers);
}

/* Ends as a process does that is stopped by this signal. */
void end_by(int number) {
    const struct rlimit none = {0, 0};
    sigset_t one;
    setrlimit(RLIMIT_CORE, &none);
    signal(number, SIG_DFL);
    sigemptyset(&one);
    sigaddset(&one, number);
    sigprocmask(SIG_UNBLOCK, &one, NULL);
    raise(number);
    _exit(128 + number);
}

static void run_for_log(void);

/* Runs the compiler as it would run without gulmaat, unless a signal stopped this process. */
void pass_through(void) {
    if (has_line() && !stopped) run_for_log();
    give_back_signals();
    if (stopped) end_by(stopped);
    if (watches) sigprocmask(SIG_SETMASK, &callers, NULL);
    close_files(1);
    for (int file = 0; file < 3; file++)
        if (was_closed[file]) close(file);
    tell_inside();
    execvp(compiler, words);
    int why = errno;
    perror(compiler);
    _exit(why == ENOENT ? 127 : 126);
}

/* ---- Processes. */

/* Starts a file with these words and with these files as its first three; -1 leaves one as it is. The program has the files in memory, and no
 * signal stops it. A compiler has what the caller had, and the list where it is asked for. Both end where this process is killed: the caller
 * takes the call for dead then, so nothing may write an output later, over that of another call. */
static pid_t launch(const char *file, char **line, const int files[3], int is_program, int has_list) {
    fault = 0;
    pid_t host = getpid(), child = vfork();
    if (child != 0) return child;
    if (prctl(PR_SET_PDEATHSIG, SIGKILL) || getppid() != host) { fault = ESRCH; _exit(127); }
    for (int i = 0; i < 3; i++)
        if (files[i] >= 0 && dup2(files[i], i) < 0) { fault = errno; _exit(127); }
    if (!is_program) {
        close_files(!has_list);
        for (int i = 0; i < 3; i++)
            if (files[i] < 0 && was_closed[i]) close(i);
        give_back_signals();
        sigprocmask(SIG_SETMASK, &callers, NULL);
    }
    execve(file, line, is_program ? own_variables : environ);
    fault = errno;
    _exit(127);
}

/* Starts the program with a pipe to it and one from it, and with the files in memory. No signal stops it while it writes an output: it ends
 * when its pipes do. */
pid_t start(const char *program, int *to, int *from) {
    int in[2], out[2];
    char *line[] = {(char *)program, NULL};
    if (pipe2(in, O_CLOEXEC) || pipe2(out, O_CLOEXEC)) return -1;
    pid_t child = launch(program, line, (const int[]){in[0], out[1], -1}, 1, 1);
    int why = fault ? fault : errno;
    if (fault) waitpid(child, NULL, 0);
    sigprocmask(SIG_SETMASK, &usual, NULL);
    errno = why;
    if (child < 0 || fault) return -1;
    close(in[0]);
    close(out[1]);
    *to = in[1];
    *from = out[0];
    return child;
}

/* Starts the compiler, whose output and messages go to these files. */
static int start_compiler(char **line, int output, int errors, int has_list) {
    tell_inside();
    sigprocmask(SIG_BLOCK, &stops, NULL);
    pid_t child = stopped ? -1 : launch(compiler, line, (const int[]){-1, output, errors}, 0, has_list);
    if (child > 0 && fault) waitpid(child, NULL, 0);
    else if (child > 0) running = child;
    sigprocmask(SIG_SETMASK, &usual, NULL);
    return running > 0 ? 0 : -1;
}

/* Whether the compiler that runs has ended, and how. No signal is sent to it from then on. */
static int has_ended(int *ended) {
    sigprocmask(SIG_BLOCK, &stops, NULL);
    pid_t child = waitpid(running, ended, WNOHANG);
    if (child) running = 0;
    sigprocmask(SIG_SETMASK, &usual, NULL);
    return child != 0;
}

/* A stream of the compiler's, where it is shown, and where it is recorded. */
struct stream { int from, to, note; };

/* Shows and records what a stream has, at most so much. At its end it is closed. */
static ssize_t take(struct stream *stream, size_t most) {
    static char part[65536];
    ssize_t size = read(stream->from, part, most < sizeof part ? most : sizeof part);
    if (size < 0 && errno == EINTR) return 0;
    if (size <= 0) {
        close(stream->from);
        stream->from = -1;
        return -1;
    }
    show_part(stream->to, part, size);
    if (write_all(stream->note, part, size)) isnt_kept = 1;
    return size;
}

/* Takes what is left in a stream after its compiler ended, without waiting for other processes that have it open. */
static void drain(struct stream *stream) {
    int left = 0;
    if (stream->from < 0) return;
    while (!ioctl(stream->from, FIONREAD, &left) && left > 0 && take(stream, left) >= 0) {}
    if (stream->from >= 0) close(stream->from);
}

/* Waits for the compiler to end, and shows its streams, if there are any, as they come. Returns how it ended. */
static int wait_for(struct stream *streams, int count) {
    sigset_t waiting = callers;
    int ended = -1;
    sigdelset(&waiting, SIGCHLD);
    while (!has_ended(&ended)) {
        struct pollfd files[2];
        for (int i = 0; i < count; i++) files[i] = (struct pollfd){streams[i].from, POLLIN, 0};
        if (ppoll(files, count, NULL, &waiting) < 0) continue;
        for (int i = 0; i < count; i++)
            if (files[i].revents) take(&streams[i], SIZE_MAX);
    }
    for (int i = 0; i < count; i++) drain(&streams[i]);
    return ended;
}

static int make_empty(int file) { return ftruncate(file, 0) || lseek(file, 0, SEEK_SET) ? -1 : 0; }

/* Has the compiler print a text, or what it says of itself. Returns how it ended, as wait does; -1 where it couldn't be started. */
int preprocess(char **line) {
    if (make_empty(text) || make_empty(messages) || start_compiler(line, text, messages, 1)) return -1;
    return wait_for(NULL, 0);
}

/* Has the compiler make its outputs, and shows what it prints as it comes. */
int compile(char **line) {
    int output[2], errors[2];
    if (make_empty(printed) || make_empty(messages) || pipe2(output, O_CLOEXEC)) return -1;
    struct stream streams[2] = {{output[0], 1, printed}, {-1, 2, messages}};
    int starts = !pipe2(errors, O_CLOEXEC);
    if (starts) {
        streams[1].from = errors[0];
        begin_messages(line);
        starts = !start_compiler(line, output[1], errors[1], 0);
        close(errors[1]);
    }
    close(output[1]);
    if (starts) {
        int ended = wait_for(streams, 2);
        end_messages();
        return ended;
    }
    for (int i = 0; i < 2; i++)
        if (streams[i].from >= 0) close(streams[i].from);
    return -1;
}

/* Runs the compiler as it would run without gulmaat, and ends as it did, with a line in the log. Returns only where it couldn't be started. */
static void run_for_log(void) {
    uint64_t from = now();
    if (start_compiler(words, -1, -1, 0)) return;
    int ended = wait_for(NULL, 0);
    note_run('C', from);
    write_line(ended);
    if (WIFEXITED(ended)) _exit(WEXITSTATUS(ended));
    end_by(WTERMSIG(ended));
}
