/* The helper that asks a server for results. It is started at the first question for it, and answers those of one call. What it is to send it sends
 * once this process has ended or runs the compiler.
 *
 * The first two words of a question say how many milliseconds it may take to connect, and how many all that this process waits for may take. It is
 * killed where it takes longer, whatever holds it up. It answers by letters: `b` as it begins to connect, `c` once it is connected, and then what a
 * question came to.
 */
#define _GNU_SOURCE
#include "host.h"
#include <errno.h>
#include <fcntl.h>
#include <poll.h>
#include <signal.h>
#include <stdio.h>
#include <stdlib.h>
#include <string.h>
#include <time.h>
#include <unistd.h>

#define START 2000      /* how many milliseconds it may take until it begins to connect */
#define SLACK 300       /* how many more than its own limit it may take to connect */

enum { CAME, MISSED, FAILED, LATE };    /* what a question came to, as the program has it */

extern char **environ;

static pid_t helper;                    /* 0 before the first question, -1 once it is gone */
static int to = -1, from = -1;
static long left;                       /* for how many milliseconds more it is waited for */

static long milliseconds(void) {
    struct timespec now;
    clock_gettime(CLOCK_MONOTONIC, &now);
    return now.tv_sec * 1000L + now.tv_nsec / 1000000;
}

static void let_go(void) {
    if (helper > 0) kill(helper, SIGKILL);
    if (to >= 0) close(to);
    if (from >= 0) close(from);
    helper = to = from = -1;
}

/* Starts the helper with a pipe to it, one from it, and the file in memory for what it finds. None of the caller's files stays open in it, so
 * that whoever waits for the end of a build's output doesn't wait for the helper. */
static void start_helper(const char *file) {
    int in[2] = {-1, -1}, out[2] = {-1, -1}, null = open("/dev/null", O_WRONLY | O_CLOEXEC);
    char *line[] = {"gulmaat-remote", NULL};
    volatile int is_started = 0;
    if (null >= 0 && !pipe2(in, O_CLOEXEC) && !pipe2(out, O_CLOEXEC)) {
        is_started = 1;
        helper = vfork();
        if (!helper) {
            if (dup2(in[0], 0) == 0 && dup2(out[1], 1) == 1 && dup2(null, 2) == 2 && (list == 3 || dup2(list, 3) == 3)) execve(file, line, environ);
            is_started = 0;
            _exit(127);
        }
    }
    if (helper <= 0 || !is_started) helper = -1;
    if (null >= 0) close(null);
    if (in[0] >= 0) close(in[0]);
    if (out[1] >= 0) close(out[1]);
    to = in[1];
    from = out[0];
    if (helper < 0) let_go();
}

/* The next letter of the helper. If none comes within so many milliseconds, or at all, it is `0` plus what the question came to. */
static int next_letter(long most) {
    struct pollfd file = {from, POLLIN, 0};
    long begun = milliseconds(), end = begun + (most < left ? most : left);
    unsigned char letter;
    int ready;
    do {
        long rest = end - milliseconds();
        ready = poll(&file, 1, rest > 0 ? (int)rest : 0);
    } while (ready < 0 && errno == EINTR && !stopped);
    left -= milliseconds() - begun;
    if (ready > 0 && read(from, &letter, 1) == 1) return letter;
    return '0' + (ready ? FAILED : LATE);
}

/* What the helper answers to the question that it has. */
static int answer_of(long connect) {
    int letter = next_letter(START);
    if (letter == 'b') letter = next_letter(connect + SLACK);
    if (letter == 'c') letter = next_letter(left);
    return letter < '0' + CAME || letter > '0' + LATE ? FAILED : letter - '0';
}

static long number_of(const char *word) {
    long number = word ? strtol(word, NULL, 10) : 0;
    return number < 1 ? 1 : number > 3600000 ? 3600000 : number;
}

/* Has the helper answer a question, and returns what that came to as the status of a process that ended. */
int ask_server(const unsigned char *question, size_t size, char **line) {
    unsigned char head[8];
    const char *file = helper ? NULL : find_helper();
    if (!line[1] || !line[2]) return FAILED << 8;
    if (!helper && !file) helper = -1;
    if (!helper) {
        left = number_of(line[2]);
        start_helper(file);
    }
    if (helper < 0) return FAILED << 8;
    put_number(head, size);
    int came_to = write_all(to, head, sizeof head) || write_all(to, question, size) ? FAILED : answer_of(number_of(line[1]));
    if (came_to == LATE) let_go();
    return came_to << 8;
}
