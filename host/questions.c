/* Questions: a letter and words. Numbers have eight bytes, low byte first; a word comes after its length, a question after its own. */
#define _GNU_SOURCE
#include "questions.h"
#include <errno.h>
#include <stdlib.h>
#include <string.h>
#include <unistd.h>

uint64_t number_at(const unsigned char *bytes) {
    uint64_t number = 0;
    for (int i = 8; i-- > 0;) number = number << 8 | bytes[i];
    return number;
}

void put_number(unsigned char *bytes, uint64_t number) {
    for (int i = 0; i < 8; i++) bytes[i] = number >> 8 * i;
}

int read_all(int file, void *bytes, size_t size) {
    for (char *at = bytes; size;) {
        ssize_t got = read(file, at, size);
        if (got < 0 && errno == EINTR && !stopped) continue;
        if (got <= 0) return -1;
        at += got;
        size -= got;
    }
    return 0;
}

/* The next question, and its size; NULL where none comes, or it is too long. */
unsigned char *next_question(int from, uint64_t *size) {
    unsigned char head[8], *question;
    if (read_all(from, head, 8)) return NULL;
    *size = number_at(head);
    question = *size < UINT64_C(1) << 28 ? malloc(*size + 1) : NULL;
    if (question && read_all(from, question, *size)) { free(question); question = NULL; }
    return question;
}

/* The words after a question's letter, with that first one before them; NULL where the question isn't well formed. */
char **words_of(const unsigned char *question, uint64_t size, char *first) {
    if (size < 16) return NULL;
    uint64_t count = number_at(question + 8), at = 16;
    if (count > size / 8) return NULL;
    char **line = calloc(count + 2, sizeof *line);
    if (!line) return NULL;
    line[0] = first;
    for (uint64_t i = 0; i < count; i++) {
        uint64_t length = size - at < 8 ? size : number_at(question + at);
        line[i + 1] = size - at < 8 || length > size - at - 8 ? NULL : strndup((const char *)question + at + 8, length);
        if (!line[i + 1]) { free_words(line); return NULL; }
        at += 8 + length;
    }
    return line;
}

void free_words(char **line) {
    for (char **word = line ? line + 1 : NULL; word && *word; word++) free(*word);
    free(line);
}
