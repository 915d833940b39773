/* Refuses growths of memory, reads or writes, as a library that is loaded before the C library (bin/refusals).
 *
 * With REFUSED_AFTER=TEXT each growth is refused after the first text that the process writes to standard error and that begins so, and
 * `refused` is said of each.
 *
 * With EXPECTED=FILE the process begins as many others as it makes growths, each ahead of its `main`: in the first of them the first growth
 * is refused, in the next one the second, up to one that meets no refusal. Each must print what the file holds and end with status 0, or
 * print nothing but a line that ends with `memory` on standard error and end with status 2. How many there were is printed. With
 * REFUSED=FILE one that meets a refusal may also print one of that file's texts, between which are empty lines, and end with status 0; and
 * one that ends with status 2 may have printed the beginning of such a text or of what is expected.
 *
 * With DEVICE=read beside it each read of standard input is refused in turn in place of growths, with all that follow, and with DEVICE=write
 * each write to standard output: by the error number that REFUSED_BY has, or so that a write takes nothing where that is 0. With BYTEWISE=1
 * reads and writes take one byte each. One that meets a refusal must say the line that FAULT has on standard error, and no more, and end with
 * status 2. It must have printed nothing where reads are refused, and else no more than the beginning of what is expected. */
#define _GNU_SOURCE
#include <dlfcn.h>
#include <errno.h>
#include <fcntl.h>
#include <stdio.h>
#include <stdlib.h>
#include <string.h>
#include <sys/mman.h>
#include <sys/stat.h>
#include <sys/wait.h>
#include <unistd.h>

/* What is refused. */
enum call { GROWTH, READ, WRITE };
static enum call refused = GROWTH;
/* How many such calls are left up to the one that is refused, and 0 after it. */
static long left = 0;
/* Whether each is refused from now on. */
static int is_each = 0;
/* Whether reads and writes take one byte. */
static int is_bytewise = 0;
/* Whether one was refused, where the process that began this one sees it. */
static int *seen;

static int is_refused(enum call call) {
    if (call != refused) return 0;
    if (!is_each && (left == 0 || --left > 0)) return 0;
    if (seen) *seen = 1;
    else if (write(2, "refused\n", 8) != 8) _exit(3);
    return 1;
}

/* What a refused read or write gives. Those that follow are refused too. */
static ssize_t refusal(void) {
    const char *number = getenv("REFUSED_BY");
    is_each = 1;
    errno = number ? atoi(number) : EIO;
    return errno == 0 ? 0 : -1;
}

void *malloc(size_t size) {
    static void *(*real)(size_t);
    if (!real) real = dlsym(RTLD_NEXT, "malloc");
    return is_refused(GROWTH) ? NULL : real(size);
}

void *realloc(void *old, size_t size) {
    static void *(*real)(void *, size_t);
    if (!real) real = dlsym(RTLD_NEXT, "realloc");
    return is_refused(GROWTH) ? NULL : real(old, size);
}

ssize_t read(int file, void *bytes, size_t length) {
    static ssize_t (*real)(int, void *, size_t);
    if (!real) real = dlsym(RTLD_NEXT, "read");
    if (file != 0) return real(file, bytes, length);
    return is_refused(READ) ? refusal() : real(file, bytes, is_bytewise && length > 1 ? 1 : length);
}

ssize_t write(int file, const void *bytes, size_t length) {
    static ssize_t (*real)(int, const void *, size_t);
    if (!real) real = dlsym(RTLD_NEXT, "write");
    const char *text = getenv("REFUSED_AFTER");
    if (text && file == 2 && length >= strlen(text) && memcmp(bytes, text, strlen(text)) == 0) is_each = 1;
    if (file != 1) return real(file, bytes, length);
    return is_refused(WRITE) ? refusal() : real(file, bytes, is_bytewise && length > 1 ? 1 : length);
}

/* A text, with a zero byte after it. */
struct text {
    char *bytes;
    size_t length;
};

/* What an open file holds. */
static struct text text_of(int file) {
    struct stat stat;
    if (fstat(file, &stat) != 0) _exit(3);
    size_t length = (size_t)stat.st_size;
    char *bytes = calloc(length + 1, 1);
    if (!bytes || pread(file, bytes, length, 0) != (ssize_t)length) _exit(3);
    return (struct text){bytes, length};
}

/* What is printed where no call is refused, and the texts that may be printed in its place. */
static struct text due, others;

/* Whether a text is one of these, between which are empty lines; or begins one of them, where that is enough. */
static int is_among(const char *text, const char *texts, int is_begin) {
    size_t length = strlen(text);
    while (texts && length) {
        if (strncmp(text, texts, length) == 0 && (is_begin || texts[length] == '\n' || !texts[length])) return 1;
        texts = strstr(texts, "\n\n");
        if (texts) texts += 2;
    }
    return 0;
}

/* Whether a process that ended with status 2 went right, as far as growths are refused. */
static int is_out_of_memory(struct text printed, struct text said) {
    const char memory[] = "memory\n";
    size_t end = sizeof memory - 1;
    int is_begin = others.bytes && (is_among(printed.bytes, due.bytes, 1) || is_among(printed.bytes, others.bytes, 1));
    return (printed.length == 0 || (*seen && is_begin)) && said.length >= end &&
           strcmp(said.bytes + said.length - end, memory) == 0;
}

/* Whether it did, as far as reads or writes are. */
static int is_told(struct text printed, struct text said) {
    const char *fault = getenv("FAULT");
    int is_begin = printed.length == 0 || (refused == WRITE && printed.length < due.length);
    return *seen && is_begin && memcmp(printed.bytes, due.bytes, printed.length) == 0 && fault && said.length == strlen(fault) + 1 &&
           memcmp(said.bytes, fault, said.length - 1) == 0 && said.bytes[said.length - 1] == '\n';
}

/* Whether a process that ended so, having printed and said this, went right. */
static int is_right(int status, struct text printed, struct text said) {
    if (!WIFEXITED(status)) return 0;
    if (WEXITSTATUS(status) == 2) return refused == GROWTH ? is_out_of_memory(printed, said) : is_told(printed, said);
    int is_due = printed.length == due.length && memcmp(printed.bytes, due.bytes, due.length) == 0;
    int may_be_due = refused == GROWTH || !*seen;
    return WEXITSTATUS(status) == 0 &&
           ((may_be_due && is_due) || (*seen && is_among(printed.bytes, others.bytes, 0)));
}

/* Whether a process that ended so went right, which is said where it did not. */
static int went_right(int status, int output, int errors) {
    struct text printed = text_of(output), said = text_of(errors);
    int right = is_right(status, printed, said);
    if (!right) fprintf(stderr, "%s%s", printed.bytes, said.bytes);
    free(printed.bytes);
    free(said.bytes);
    close(output);
    close(errors);
    return right;
}

/* The text of the file that this variable names. */
static struct text text_named(const char *variable) {
    const char *name = getenv(variable);
    return name ? text_of(open(name, O_RDONLY | O_CLOEXEC)) : (struct text){NULL, 0};
}

/* Reads what is refused, and how, and what is expected. Gives the name of what is refused. */
static const char *begin(void) {
    const char *device = getenv("DEVICE");
    is_bytewise = getenv("BYTEWISE") != NULL;
    due = text_named("EXPECTED");
    others = text_named("REFUSED");
    seen = mmap(NULL, sizeof *seen, PROT_READ | PROT_WRITE, MAP_SHARED | MAP_ANONYMOUS, -1, 0);
    if (seen == MAP_FAILED) _exit(3);
    if (device) refused = strcmp(device, "read") == 0 ? READ : WRITE;
    return device ? device : "growth";
}

__attribute__((constructor)) static void refuse_each(void) {
    if (!getenv("EXPECTED")) return;
    const char *what = begin();
    for (long number = 1;; number++) {
        int output = memfd_create("output", 0), errors = memfd_create("errors", 0), status;
        *seen = 0;
        lseek(0, 0, SEEK_SET);
        pid_t child = fork();
        if (child == 0) {
            dup2(output, 1);
            dup2(errors, 2);
            left = number;
            return;
        }
        if (child < 0 || waitpid(child, &status, 0) != child) _exit(3);
        if (!went_right(status, output, errors)) {
            fprintf(stderr, "wrong where %s %ld is refused: status %x\n", what, number, (unsigned)status);
            _exit(1);
        }
        if (!*seen) {
            printf("right with each of %ld %ss refused in turn\n", number - 1, what);
            fflush(stdout);
            _exit(0);
        }
    }
}
