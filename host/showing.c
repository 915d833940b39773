/* What a compiler prints. The program has it print its messages in colour, by a word of its own after the caller's, so that one result serves
 * a terminal and a log: where the caller wants no colours, they are taken out as messages are shown. Nothing else is taken out, and nothing of
 * standard output.
 */
#define _GNU_SOURCE
#include "host.h"
#include <errno.h>
#include <fcntl.h>
#include <poll.h>
#include <stdlib.h>
#include <string.h>
#include <sys/mman.h>
#include <sys/stat.h>
#include <unistd.h>

#define ESCAPE 27

int isnt_shown, isnt_kept;

static int is_coloured;     /* whether the program's word for colours is among the words of the compile */
static int takes_out;       /* whether colours are taken out of what is shown */
static int is_begun;        /* whether something was printed */
static int is_withheld;     /* whether nothing is shown, since colours can't be told from other escapes */

/* Writes all of it, and waits while a file takes nothing. Gives up when a signal stops this process, which might wait for a reader then. */
int write_all(int file, const void *bytes, size_t size) {
    for (const char *at = bytes; size;) {
        ssize_t written = write(file, at, size);
        if (written < 0 && errno == EINTR && !stopped) continue;
        if (written < 0 && errno == EAGAIN) {
            struct pollfd ready = {file, POLLOUT, 0};
            if (poll(&ready, 1, -1) >= 0 || !stopped) continue;
        }
        if (written < 0) return -1;
        at += written;
        size -= written;
    }
    return 0;
}

/* ---- Whether colours are wanted. */

/* When messages are in colour by the caller's own words: the last one about colours counts. */
static enum { NEVER, AT_A_TERMINAL, ALWAYS } asks_for_colours(void) {
    int asks = AT_A_TERMINAL;
    for (char **word = words + 1; *word; word++) {
        const char *value = !strncmp(*word, "-fdiagnostics-color", 19) ? *word + 19 : NULL;
        if (!strcmp(*word, "-fcolor-diagnostics") || (value && (!*value || !strcmp(value, "=always")))) asks = ALWAYS;
        else if (!strcmp(*word, "-fno-color-diagnostics") || !strcmp(*word, "-fno-diagnostics-color")) asks = NEVER;
        else if (value && *value == '=') asks = strcmp(value, "=never") ? AT_A_TERMINAL : NEVER;
    }
    return asks;
}

/* Whether messages are to be in colour. Where no word decides, it is by what GCC looks at. Clang has no GCC_COLORS. */
static int wants_colours(int is_gcc) {
    const char *terminal = getenv("TERM"), *colours = is_gcc ? getenv("GCC_COLORS") : NULL;
    int asks = asks_for_colours();
    if (asks != AT_A_TERMINAL) return asks == ALWAYS;
    return terminal && strcmp(terminal, "dumb") && isatty(2) && !(colours && !*colours);
}

/* ---- Whether an escape may come from the source. */

static int has_escape(const char *bytes, size_t size) { return memchr(bytes, ESCAPE, size) != NULL; }

/* The place after line ends that a backslash takes away. */
static const char *after_splices(const char *at, const char *end) {
    while (end - at > 1 && at[0] == '\\' && (at[1] == '\n' || at[1] == '\r')) at += at[1] == '\r' && end - at > 2 && at[2] == '\n' ? 3 : 2;
    return at;
}

/* Whether the number of an escape is written there: its last digits, after zeros, and perhaps in braces. */
static int is_escapes_number(const char *at, const char *end, const char *digits) {
    at = after_splices(at, end);
    if (at < end && *at == '{') at = after_splices(at + 1, end);
    while (at < end && *at == '0') at = after_splices(at + 1, end);
    for (; *digits; digits++, at = after_splices(at + 1, end))
        if (at >= end || (*at | (*digits & 32)) != *digits) return 0;
    return 1;
}

/* Whether a source may spell an escape: \e, \33, \x1b, \u001b, a name in braces, or by a trigraph. */
static int spells_escape(const char *bytes, size_t size) {
    const char *end = bytes + size;
    for (const char *at = bytes; (at = memchr(at, '\\', end - at)); at++) {
        const char *letter = after_splices(at + 1, end);
        if (letter >= end) break;
        at = letter;
        switch (*letter) {
        case 'e': case 'E': case 'N': return 1;
        case '0': case '3':
            if (is_escapes_number(letter, end, "33")) return 1;
            break;
        case 'o':
            if (is_escapes_number(letter + 1, end, "33")) return 1;
            break;
        case 'x': case 'u': case 'U':
            if (is_escapes_number(letter + 1, end, "1b")) return 1;
            break;
        }
    }
    return memmem(bytes, size, "\?\?/", 3) != NULL;
}

/* Whether a source has one in it, or spells one. */
static int may_write_escape(const char *bytes, size_t size) { return has_escape(bytes, size) || spells_escape(bytes, size); }

/* What a file has in it, or NULL where it is empty or can't be read. */
static const char *map(int file, size_t *size) {
    struct stat state;
    if (fstat(file, &state) || !S_ISREG(state.st_mode) || !state.st_size) return NULL;
    *size = state.st_size;
    const char *bytes = mmap(NULL, *size, PROT_READ, MAP_PRIVATE, file, 0);
    return bytes == MAP_FAILED ? NULL : bytes;
}

/* Whether a file that a text names may have an escape in it, or spell one. No compiler quotes one that isn't there. */
static int source_has_escape(const char *path) {
    struct stat state;
    size_t size;
    if (stat(path, &state)) return errno != ENOENT && errno != ENOTDIR;
    if (!S_ISREG(state.st_mode) || !state.st_size) return 0;
    int file = open(path, O_RDONLY | O_CLOEXEC), has = 1;
    const char *bytes = file < 0 ? NULL : map(file, &size);
    if (bytes) {
        has = may_write_escape(bytes, size);
        munmap((void *)bytes, size);
    }
    if (file >= 0) close(file);
    return has;
}

enum { NO_NAME, GOES_IN, GOES_BACK, UNREADABLE };

static int is_octal(char letter, char most) { return letter >= '0' && letter <= most; }

/* The byte that is written at a place of a name, or -1; the place goes on to the last letter that it took. After a backslash comes that byte, or,
   as Clang writes it, a t for a tab or three octal digits. */
static int written_byte(const char **at, const char *end) {
    if (**at != '\\') return (unsigned char)**at;
    const char *next = ++*at;
    if (next == end) return -1;
    if (*next == '\\' || *next == '"') return *next;
    if (*next == 't') return '\t';
    if (end - next < 3 || !is_octal(next[0], '3') || !is_octal(next[1], '7') || !is_octal(next[2], '7')) return -1;
    *at += 2;
    return (next[0] - '0') << 6 | (next[1] - '0') << 3 | (next[2] - '0');
}

/* Reads the name in a line of the text, where it is a marker: # 12 "name" 1, with a 2 at its end where a file goes on that was named before. */
static int name_in(const char *line, const char *end, char *name) {
    const char *at = line + 2, *last = name + PATH_MAX - 1;
    if (end - line < 5 || line[0] != '#' || line[1] != ' ') return NO_NAME;
    while (at < end && *at >= '0' && *at <= '9') at++;
    if (at == line + 2 || end - at < 2 || at[0] != ' ' || at[1] != '"') return NO_NAME;
    for (at += 2; at < end && *at != '"'; at++) {
        int byte = written_byte(&at, end);
        if (byte < 0 || name == last) return UNREADABLE;
        *name++ = (char)byte;
    }
    *name = 0;
    return end - at < 3 || at[2] != '2' ? GOES_IN : GOES_BACK;
}

/* Whether any file that the text names may have one. Where it names none, nothing is known, and one may. */
static int sources_have_escapes(const char *text, size_t size) {
    char name[PATH_MAX], before[PATH_MAX] = "";
    int is_named = 0;
    for (const char *line = text, *end; line < text + size; line = end + 1) {
        end = memchr(line, '\n', text + size - line);
        if (!end) end = text + size;
        int found = name_in(line, end, name);
        if (found == UNREADABLE) return 1;
        if (found == NO_NAME || !strcmp(name, before)) continue;
        strcpy(before, name);
        if (found == GOES_BACK) continue;
        is_named = 1;
        if (name[0] != '<' && source_has_escape(name)) return 1;
    }
    return !is_named;
}

/* Whether messages of the compile may have escapes in them that aren't the compiler's own: from a word, or from a file that it may quote. Or
 * they aren't the plain ones once colours are taken out: the paths of GCC's analyzer are laid out by the width of what is coloured too. */
static int may_quote_escapes(void) {
    size_t size;
    for (char **word = words + 1; *word; word++)
        if (may_write_escape(*word, strlen(*word)) || !strcmp(*word, "-fanalyzer")) return 1;
    const char *bytes = map(text, &size);
    if (!bytes) return 1;
    int may = has_escape(bytes, size) || sources_have_escapes(bytes, size);
    munmap((void *)bytes, size);
    return may;
}

/* ---- Showing. */

/* The beginning of what may be a colour: an escape, a bracket, digits and semicolons. */
static char held[32];
static size_t held_size;

/* Copies bytes without colours, each of which is an escape, a bracket, digits and semicolons, and an m or a K. Returns the new size,
 * which may be larger than the old one, by what was held. */
static size_t without_colours(char *to, const char *from, size_t size) {
    size_t end = 0;
    for (size_t i = 0; i < size; i++) {
        char byte = from[i];
        int ends = held_size > 1 && (byte == 'm' || byte == 'K');
        int goes_on = held_size == 0 ? byte == ESCAPE : held_size == 1 ? byte == '[' : strchr("0123456789;", byte) && byte;
        if (ends) { held_size = 0; continue; }
        if (!goes_on || held_size == sizeof held) {
            memcpy(to + end, held, held_size);
            end += held_size;
            held_size = 0;
            if (byte != ESCAPE) { to[end++] = byte; continue; }
        }
        held[held_size++] = byte;
    }
    return end;
}

static void show(int to, const char *part, size_t size) {
    static char plain[65536 + sizeof held];
    if (to == 2 && takes_out) {
        size = without_colours(plain, part, size);
        part = plain;
    }
    if (!isnt_shown && write_all(to, part, size)) isnt_shown = 1;
}

/* What is shown from now on is printed by a compile with these words. */
void begin_messages(char **line) {
    int before = 0, now = 0;
    while (words[before]) before++;
    while (line[now]) now++;
    is_coloured = now > before;
    takes_out = is_coloured && !wants_colours(!strcmp(line[now - 1], "-fdiagnostics-color=always"));
}

/* Shows a part of what a compile prints, of at most 65536 bytes. Where its colours can't be told from other escapes it isn't kept and, where
 * they would be taken out, the compiler is run directly. */
void show_part(int to, const char *part, size_t size) {
    if (!is_begun && is_coloured && asks_for_colours() != ALWAYS && may_quote_escapes()) {
        isnt_kept = 1;
        is_withheld = takes_out;
    }
    is_begun = 1;
    if (to == 2 && !is_coloured && asks_for_colours() != ALWAYS && has_escape(part, size)) isnt_kept = 1;
    if (is_withheld) isnt_shown = 1;
    else show(to, part, size);
}

/* What was held back at the end was no colour. */
void end_messages(void) {
    takes_out = 0;
    show(2, held, held_size);
    held_size = 0;
}

/* Shows what is in a file in memory. */
static int show_file(int file, int to) {
    static char part[65536];
    ssize_t size;
    for (off_t at = 0; (size = pread(file, part, sizeof part, at)) > 0; at += size) {
        /* GCC clears the line after each colour, and Clang doesn't. */
        if (!at && to == 2) takes_out = !wants_colours(memmem(part, size, "\033[K", 3) != NULL);
        show(to, part, size);
    }
    return size < 0 ? -1 : 0;
}

/* Shows what was printed beside kept outputs. */
int show_kept(void) {
    if (show_file(printed, 1) || show_file(messages, 2)) return -1;
    end_messages();
    return isnt_shown ? -1 : 0;
}
