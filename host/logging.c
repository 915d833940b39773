/* The line that a call gets in a log. The program gives its beginning; the host writes it with the rest, which only the host knows. */
#define _GNU_SOURCE
#include "host.h"
#include <fcntl.h>
#include <inttypes.h>
#include <stdio.h>
#include <stdlib.h>
#include <string.h>
#include <sys/wait.h>
#include <time.h>
#include <unistd.h>

uint64_t began;             /* when this call began */

static char *place, *front; /* the log, and the beginning of the line; NULL where the program sent none */
static char *ran;           /* what ran, as JSON */

uint64_t now(void) {
    struct timespec time;
    clock_gettime(CLOCK_REALTIME, &time);
    return (uint64_t)time.tv_sec * 1000000 + time.tv_nsec / 1000;
}

/* Notes that a command ran from then until now: P is a preprocessor, or what the compiler says of itself, C is a compile. */
void note_run(char letter, uint64_t from) {
    char *more;
    if (asprintf(&more, "%s%s[\"%c\",%" PRIu64 ",%" PRIu64 "]", ran ? ran : "", ran ? "," : "", letter, from, now()) < 0) return;
    free(ran);
    ran = more;
}

/* Takes the log's path and the beginning of the line. */
void take_line(char **line) {
    if (!line || !line[1] || !line[2] || front) return;
    place = strdup(line[1]);
    front = strdup(line[2]);
}

int has_line(void) { return place && front; }

/* Writes the line of a call that ended so, all at once, after those of other processes. */
void write_line(int ended) {
    int status = WIFEXITED(ended) ? WEXITSTATUS(ended) : 128 + WTERMSIG(ended);
    char *line;
    if (!has_line()) return;
    int file = open(place, O_WRONLY | O_APPEND | O_CREAT | O_CLOEXEC, 0666);
    if (file < 0) return;
    int size = asprintf(&line, "%s,\"start\":%" PRIu64 ",\"end\":%" PRIu64 ",\"pid\":%d,\"ppid\":%d,\"status\":%d,\"ran\":[%s]}\n", front, began,
        now(), (int)getpid(), (int)getppid(), status, ran ? ran : "");
    /* A line that can't be written whole is a loss to the log, and not to the call. */
    if (size > 0 && write(file, line, size) < 0) {}
    close(file);
    if (size >= 0) free(line);
}
