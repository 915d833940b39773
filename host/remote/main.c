/* gulmaat-remote: asks a server for what other machines stored there, and stores what this one made. The host starts it at the first question of a
 * call, and hands the program's questions on to it. `F` asks for a name: what is found is then in the file in memory. `S` has what is in that file
 * stored, once the call is answered: this process lives on for that.
 *
 * The words of a question are: how many milliseconds it may take to connect, and how many all that is waited for; the storage with its attributes;
 * the file of a key, or nothing; how many bytes may come; and the name. With a seventh word it is stored only where it isn't there yet.
 */
#define _GNU_SOURCE
#include "remote.h"
#include "../questions.h"
#include <errno.h>
#include <signal.h>
#include <stdio.h>
#include <stdlib.h>
#include <string.h>
#include <sys/resource.h>
#include <sys/stat.h>
#include <sys/syscall.h>
#include <time.h>
#include <unistd.h>

#define MEMORY 3            /* the file in memory */
#define WORDS 6             /* how many words each question has */
#define MOST_MEMORY (UINT64_C(3) << 30)     /* how much memory this process may take, whatever a server answers */

volatile sig_atomic_t stopped;

static struct storage *storage;
static long left, end;      /* for how many milliseconds more something is waited for, and until when that is */

/* What is stored once the call is answered. */
static struct sending { char *name; struct bytes sealed; int only_new; struct sending *next; } *first, **last = &first;

static long milliseconds(void) {
    struct timespec now;
    clock_gettime(CLOCK_MONOTONIC, &now);
    return now.tv_sec * 1000L + now.tv_nsec / 1000000;
}

long time_left(void) { return end - milliseconds(); }

/* Closes what the caller had open, leaves its session and folder, and limits the memory. */
static void come_apart(void) {
    const struct rlimit limit = {MOST_MEMORY, MOST_MEMORY};
    sigset_t none;
    if (syscall(SYS_close_range, MEMORY + 1, ~0U, 0))
        for (int file = MEMORY + 1; file < 1024; file++) close(file);
    setsid();
    if (chdir("/")) _exit(1);
    setrlimit(RLIMIT_AS, &limit);
    sigemptyset(&none);
    sigprocmask(SIG_SETMASK, &none, NULL);
    signal(SIGPIPE, SIG_IGN);
}

static void say(char letter) {
    if (write(1, &letter, 1) != 1) _exit(1);
}

/* Takes from the first question where things are stored, and by which key. */
static int begin(char **words) {
    static int is_begun;
    if (is_begun) return storage ? 0 : -1;
    is_begun = 1;
    long connect = atol(words[0]), whole = atol(words[1]);
    left = whole;
    if (!*words[3] || !take_key(words[3])) storage = storage_of(words[2], connect, whole);
    return storage ? 0 : -1;
}

/* Puts bytes into the file in memory, in place of what is there. */
static int show(const struct bytes *bytes) {
    if (ftruncate(MEMORY, 0)) return -1;
    for (size_t done = 0; done < bytes->size;) {
        ssize_t size = pwrite(MEMORY, bytes->at + done, bytes->size - done, done);
        if (size < 0 && errno == EINTR) continue;
        if (size <= 0) return -1;
        done += size;
    }
    return 0;
}

/* What is stored under a name goes into the file in memory. */
static enum came_to fetch(const char *name, size_t most) {
    struct bytes stored = {NULL, 0, 0}, sealed = {NULL, 0, 0};
    enum came_to came_to = storage->kind->get(storage, name, &stored, most + 4096);
    if (came_to == CAME) came_to = unseal(name, &stored, &sealed, most);
    if (came_to == CAME && show(&sealed)) came_to = FAILED;
    free_bytes(&stored);
    free_bytes(&sealed);
    return came_to;
}

/* Takes what is in the file in memory, to be stored under that name. */
static enum came_to take(const char *name, int only_new) {
    struct stat state;
    struct sending *sending = calloc(1, sizeof *sending);
    if (!sending || fstat(MEMORY, &state) || !(sending->sealed.at = malloc(state.st_size + 1))) return FAILED;
    while (sending->sealed.size < (size_t)state.st_size) {
        ssize_t size = pread(MEMORY, sending->sealed.at + sending->sealed.size, state.st_size - sending->sealed.size, sending->sealed.size);
        if (size <= 0) return FAILED;
        sending->sealed.size += size;
    }
    sending->name = strdup(name);
    sending->only_new = only_new;
    *last = sending;
    last = &sending->next;
    return sending->name ? CAME : FAILED;
}

static void answer(uint64_t letter, char **words) {
    int is_fetch = letter == 'F', fails = begin(words);
    enum came_to came_to = fails ? FAILED : CAME;
    end = milliseconds() + left;
    say('b');
    if (is_fetch && !fails) came_to = storage->kind->connect(storage);
    if (came_to == CAME) {
        say('c');
        came_to = is_fetch ? fetch(words[5], strtoull(words[4], NULL, 10)) : take(words[5], words[6] != NULL);
    }
    left = time_left();
    say('0' + came_to);
}

static enum came_to store_once(const struct sending *sending, const struct bytes *stored) {
    enum came_to came_to = storage->kind->connect(storage);
    if (came_to == CAME && sending->only_new && (came_to = storage->kind->has(storage, sending->name)) != MISSED) return came_to;
    return came_to == CAME || came_to == MISSED ? storage->kind->put(storage, sending->name, stored) : came_to;
}

/* Stores what is to be stored. Where that fails, it is tried once more over a new connection. */
static void store(const struct sending *sending) {
    struct bytes stored = {NULL, 0, 0};
    if (!seal(sending->name, &sending->sealed, &stored) && store_once(sending, &stored) == FAILED) {
        storage->kind->let_go();
        store_once(sending, &stored);
    }
    free_bytes(&stored);
}

int main(void) {
    uint64_t size;
    unsigned char *question;
    come_apart();
    while ((question = next_question(0, &size))) {
        char **line = words_of(question, size, NULL);
        int count = 0;
        while (line && line[count + 1]) count++;
        if (count < WORDS) return 1;
        answer(number_at(question), line + 1);
        free_words(line);
        free(question);
    }
    if (!first) return 0;
    /* The call is answered. */
    close(0);
    close(1);
    end = milliseconds() + storage->whole;
    alarm(storage->whole / 1000 + 2);
    for (const struct sending *sending = first; sending; sending = sending->next) store(sending);
    return 0;
}
