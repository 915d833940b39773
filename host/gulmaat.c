/* The host of gulmaat: it runs the words that the program beside it asks for, and decides nothing itself.
 *
 *     gulmaat COMPILER WORD..
 *
 * or by a link that is named like the compiler. Whatever goes wrong on this side, the compiler is run as it would be without gulmaat.
 * Numbers in messages have eight bytes, low byte first. A string comes after its length, and so does a message.
 */
#define _GNU_SOURCE
#include "host.h"
#include <errno.h>
#include <poll.h>
#include <pwd.h>
#include <stdint.h>
#include <stdio.h>
#include <stdlib.h>
#include <string.h>
#include <sys/random.h>
#include <sys/stat.h>
#include <sys/wait.h>
#include <time.h>
#include <unistd.h>

#define DONE 11         /* the program's status when it has written the outputs */
#define PATIENCE 5000   /* how many milliseconds a program may take to end after a signal that stops this process */

extern char **environ;

static char kept[PATH_MAX];     /* the cache directory */

/* ---- A message that grows. */

static unsigned char *message;
static size_t message_size, message_room;

static void add(const void *bytes, size_t size) {
    if (message_size + size > message_room) {
        message_room = (message_size + size) * 2;
        message = realloc(message, message_room);
        if (!message) pass_through();
    }
    memcpy(message + message_size, bytes, size);
    message_size += size;
}

static void add_number(uint64_t number) {
    unsigned char bytes[8];
    put_number(bytes, number);
    add(bytes, 8);
}

/* Begins a message with space for its length. */
static void begin_message(void) {
    message_size = 0;
    add_number(0);
}

static void add_bytes(const char *bytes, size_t size) { add_number(size); add(bytes, size); }
static void add_string(const char *string) { add_bytes(string, strlen(string)); }

static int is_empty(int file) {
    struct stat state;
    return !fstat(file, &state) && !state.st_size;
}

/* ---- What the program gets, and what it asks for. */

/* The user's home directory: HOME, or else that of /etc/passwd. The host is linked statically, where the library's other ways would load more. */
static const char *find_home(void) {
    const char *home = getenv("HOME");
    FILE *users = home ? NULL : fopen("/etc/passwd", "re");
    if (!users) return home;
    struct passwd *user;
    do user = fgetpwent(users);
    while (user && user->pw_uid != getuid());
    fclose(users);
    return user ? user->pw_dir : NULL;
}

/* Finds the cache directory: GULMAAT_DIR, or gulmaat in the user's cache folder. Says why there is none. */
static int find_kept(void) {
    const char *dir = getenv("GULMAAT_DIR"), *cache = getenv("XDG_CACHE_HOME");
    int size = 0;
    if (dir && *dir) size = snprintf(kept, sizeof kept, "%s", dir);
    else if (cache && *cache == '/') size = snprintf(kept, sizeof kept, "%s/gulmaat", cache);
    else {
        const char *home = find_home();
        if (home && *home == '/') size = snprintf(kept, sizeof kept, "%s/.cache/gulmaat", home);
    }
    if (kept[0] == '/' && size < PATH_MAX - 64) return 0;
    if (size) fprintf(stderr, "gulmaat: GULMAAT_DIR is %s: set it to an absolute path\n", dir && *dir ? dir : "too long");
    else fputs("gulmaat: no folder to keep anything in: set GULMAAT_DIR to an absolute path, or HOME\n", stderr);
    return -1;
}

/* Whether anything can be kept there; says why it can't. */
static int can_keep(void) {
    char folder[PATH_MAX];
    if (!access(kept, R_OK | X_OK)) return 1;
    snprintf(folder, sizeof folder, "%s", kept);
    while (errno == ENOENT && strrchr(folder, '/') > folder) {
        *strrchr(folder, '/') = 0;
        if (!access(folder, W_OK | X_OK)) return 1;
    }
    fprintf(stderr, "gulmaat: can't keep anything in %s: %s\n", kept, strerror(errno));
    return 0;
}

/* How far local time is from UTC now, as a time zone: UTC-02:00:00 is two hours east of it. Empty where that isn't known. */
static void add_zone(void) {
    char zone[48] = "";
    struct tm local;
    time_t now = time(NULL);
    tzset();
    if (localtime_r(&now, &local)) {
        long off = labs(local.tm_gmtoff);
        snprintf(zone, sizeof zone, "UTC%c%02ld:%02ld:%02ld", local.tm_gmtoff > 0 ? '-' : '+', off / 3600, off / 60 % 60, off % 60);
    }
    add_string(zone);
}

/* The path by which the program, which has it under the same number, opens a file in memory. */
static void add_file(int file) {
    char path[32];
    snprintf(path, sizeof path, "/proc/self/fd/%d", file);
    add_string(path);
}

/* A name that no other process has. */
static void add_own_name(void) {
    unsigned char bytes[8];
    char name[17];
    if (getrandom(bytes, sizeof bytes, 0) != sizeof bytes) pass_through();
    for (int i = 0; i < 8; i++) snprintf(name + 2 * i, 3, "%02x", bytes[i]);
    add_string(name);
}

/* The first message: the command line, the folder and the variables. */
static void make_first_message(void) {
    char dir[PATH_MAX];
    uint64_t count = 0, pairs = 0;
    if (!getcwd(dir, sizeof dir)) pass_through();
    begin_message();
    add_string(kept);
    add_file(text);
    add_file(messages);
    add_file(printed);
    add_file(list);
    add_own_name();
    add_string(compiler);
    add_string(dir);
    while (words[count + 1]) count++;
    add_number(count);
    for (uint64_t i = 1; i <= count; i++) add_string(words[i]);
    for (char **pair = environ; *pair; pair++) pairs += strchr(*pair, '=') != NULL;
    add_number(pairs);
    for (char **pair = environ; *pair; pair++) {
        char *equals = strchr(*pair, '=');
        if (!equals) continue;
        add_bytes(*pair, equals - *pair);
        add_string(equals + 1);
    }
    add_zone();
}

static int send_message(int to) {
    put_number(message, message_size - 8);
    return write_all(to, message, message_size);
}

/* Sends the program the status of what it asked for, whether nothing was printed beside a text, or by a compile, and how long it took. */
static int answer(int to, int ended, int is_compile, uint64_t from) {
    begin_message();
    add_number(WIFEXITED(ended) ? WEXITSTATUS(ended) : 128 + WTERMSIG(ended));
    add_number(is_empty(messages) && (!is_compile || is_empty(printed)));
    add_number(now() - from);
    return send_message(to);
}

/* Runs a question's words, and returns how that ended; -1 where it couldn't be started. */
static int run_asked(char **line, int is_compile) {
    uint64_t from = now();
    int ended = !line ? -1 : is_compile ? compile(line) : preprocess(line);
    if (ended >= 0) note_run(is_compile ? 'C' : 'P', from);
    return ended;
}

/* Answers questions until the program ends or a signal comes. Returns how a compile ended that ran and was shown, or -1. A line for a log is
 * taken and not answered. Closes the pipe to the program. */
static int answer_questions(int from, int to) {
    int compiled = -1, goes_on = 1;
    uint64_t size;
    unsigned char *question;
    while (!stopped && (question = next_question(from, &size))) {
        char **line = words_of(question, size, words[0]);
        uint64_t letter = line ? number_at(question) : 0, then = now();
        if (letter == 'L') take_line(line);
        else if (goes_on) {
            int is_compile = letter == 'C', is_for_server = letter == 'F' || letter == 'S';
            int ended = is_for_server ? ask_server(question, size, line) : run_asked(line, is_compile);
            if (is_compile && !isnt_shown) compiled = ended;
            goes_on = ended >= 0 && !isnt_shown && !isnt_kept && !stopped && !answer(to, ended, is_compile, then);
            /* From now on nothing is answered, which the program sees. A line for a log is still taken. */
            if (!goes_on) close(to);
        }
        free_words(line);
        free(question);
    }
    if (goes_on) close(to);
    return compiled;
}

/* Waits for the program to end, and returns its status. After a signal that stops this process there is time for it to write its outputs, but
 * not to wait for another call. */
static int end_of(pid_t child) {
    int status = 1 << 8;
    while (!stopped && waitpid(child, &status, 0) < 0 && errno == EINTR) {}
    for (int waited = 0; stopped && waited < PATIENCE && !waitpid(child, &status, WNOHANG); waited++) poll(NULL, 0, 1);
    return status;
}

/* Whether options ask for a page, a trace or a comparison of logs. */
static int asks_for_logs(int count, char **list) {
    const char *const names[] = {"--page", "--trace", "--compare"};
    for (size_t i = 0; i < sizeof names / sizeof *names; i++)
        if (count > 1 && !strcmp(list[1], names[i])) return 1;
    return 0;
}

/* Has the program do what options say. Before them it gets this host's file, its own, the cache directory, the current folder and, for --why,
 * the compiler's file. To show logs it gets its own file alone, and the others empty: logs are shown also where they can't be had. */
static int answer_options(int count, char **list) {
    char **line = calloc(count + 8, sizeof *line), dir[PATH_MAX] = "";
    const char *program = find_program();
    int size = 0, asks_why = count > 2 && !strcmp(list[1], "--why"), is_of_logs = asks_for_logs(count, list);
    if (!line || !program) return 127;
    if (!is_of_logs && find_kept()) return 2;
    if (!is_of_logs && !getcwd(dir, sizeof dir)) { perror("gulmaat"); return 2; }
    if (asks_why) {
        const char *asked = list[2];
        words = list + 2;
        if (find_compiler(asked)) { perror(asked); return 127; }
    }
    char *before[] = {"gulmaat", is_of_logs ? "" : self, (char *)program, kept, dir, asks_why ? compiler : ""};
    for (size_t i = 0; i < sizeof before / sizeof *before; i++) line[size++] = before[i];
    for (int i = 1; i < count; i++)
        if (!asks_why || i != 2) line[size++] = list[i];
    if (count < 2) line[size++] = "--help";
    execv(program, line);
    perror(program);
    return 127;
}

static const char *name_of(const char *path) { return strrchr(path, '/') ? strrchr(path, '/') + 1 : path; }

/* Whether a word's name is that of a host, and not of a link that is named like a compiler. */
static int is_hosts(const char *word) { return !strncmp(name_of(word), "gulmaat", 7); }

/* Finds the compiler. Where a host is named once more before it, as by CC and by a launcher of CMake, that word is left out. */
static int find_asked(const char *asked, int is_link) {
    while (find_compiler(asked)) {
        if (is_link || errno != ENOENT || !met_self || !is_hosts(asked) || !words[1] || *words[1] == '-') return -1;
        asked = *++words;
        met_self = 0;
    }
    return 0;
}

int main(int count, char **list) {
    if (count < 1) return 127;
    began = now();
    int is_poor = hold_closed();
    find_self();
    const char *name = name_of(list[0]);
    int is_link = !is_hosts(name);
    words = is_link ? list : list + 1;
    if (!is_link && count > 2 && !strcmp(list[1], "--audit")) {
        /* A hit is compiled too, and the program says what differs. */
        setenv("GULMAAT_AUDIT", "tell", 1);
        words++;
    } else if (!is_link && (count < 2 || list[1][0] == '-')) return answer_options(count, list);
    const char *asked = is_link ? name : words[0];
    if (find_asked(asked, is_link)) {
        int why = errno;
        perror(asked);
        return why == ENOENT ? 127 : 126;
    }
    if (is_link) words[0] = compiler;
    const char *program = is_poor || is_inside ? NULL : find_program();
    if (!program || find_kept() || !can_keep() || make_files()) pass_through();
    watch_signals();

    int to, from;
    pid_t child = start(program, &to, &from);
    if (child < 0) {
        if (errno == ENOEXEC || errno == EACCES || errno == ENOENT) perror(program);
        pass_through();
    }
    /* Meanwhile the program is loaded. */
    make_first_message();
    int compiled = -1;
    if (send_message(to)) close(to);
    else compiled = answer_questions(from, to);
    /* Nothing more is read: a program that still writes a question sees that, and ends. After a signal it may still say something for the log. */
    if (!stopped) close(from);
    int status = end_of(child);
    if (compiled >= 0) write_line(compiled);
    if (compiled >= 0 && WIFEXITED(compiled)) return WEXITSTATUS(compiled);
    if (compiled >= 0) end_by(WTERMSIG(compiled));
    if (stopped) end_by(stopped);
    if (isnt_shown || !WIFEXITED(status) || WEXITSTATUS(status) != DONE || show_kept()) pass_through();
    write_line(0);
    return 0;
}
