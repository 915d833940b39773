/* Which files run: this host's own, the compiler's and the program's. */
#define _GNU_SOURCE
#include "host.h"
#include <errno.h>
#include <fcntl.h>
#include <stdint.h>
#include <stdio.h>
#include <stdlib.h>
#include <string.h>
#include <sys/auxv.h>
#include <sys/stat.h>
#include <unistd.h>

/* The variable that a host sets for what it runs: the device and inode of itself and of what it runs, after those that were in it. */
#define INSIDE "GULMAAT_INSIDE"

char **words, compiler[PATH_MAX], self[PATH_MAX];
int is_inside, met_self;

static struct stat own;                 /* what this host's own file is */
static const char *inherited = "";      /* which files hosts ran so far, in this chain of calls */
static char handed_on[4096] = INSIDE "=";

/* Finds this host's own file, also where /proc isn't there, and whether another host started this one. */
void find_self(void) {
    ssize_t size = readlink("/proc/self/exe", self, sizeof self - 1);
    self[size < 0 ? 0 : size] = 0;
    if (size < 0 && !realpath((const char *)getauxval(AT_EXECFN), self)) self[0] = 0;
    if (stat(size < 0 ? self : "/proc/self/exe", &own)) memset(&own, 0, sizeof own);
    if (getenv(INSIDE)) inherited = getenv(INSIDE);
    is_inside = *inherited != 0;
}

static void name_file(char *name, size_t size, const struct stat *file) {
    snprintf(name, size, " %jx:%jx ", (uintmax_t)file->st_dev, (uintmax_t)file->st_ino);
}

/* How often that file ran in this chain of calls. */
static int runs_of(const struct stat *file) {
    char name[48];
    int count = 0;
    name_file(name, sizeof name, file);
    for (const char *at = inherited; (at = strstr(at, name)); at++) count++;
    return count;
}

/* Sets that variable for what this process runs from now on. Of a chain that is too long it has the end. */
void tell_inside(void) {
    struct stat file;
    char host[48], runs[48] = "";
    size_t size = strlen(inherited), most = sizeof handed_on - 128;
    if (handed_on[sizeof INSIDE]) return;
    name_file(host, sizeof host, &own);
    if (!stat(compiler, &file)) name_file(runs, sizeof runs, &file);
    snprintf(handed_on, sizeof handed_on, INSIDE "=%s%s%s", inherited + (size > most ? size - most : 0), host, runs);
    putenv(handed_on);
}

/* Whether a file has the bytes of this host. */
static int is_copy(const char *path) {
    char one[4096], other[sizeof one];
    int ours = open(self, O_RDONLY | O_CLOEXEC), its = open(path, O_RDONLY | O_CLOEXEC), is = ours >= 0 && its >= 0;
    for (ssize_t size = 1; is && size > 0;) {
        size = read(ours, one, sizeof one);
        is = size >= 0 && read(its, other, sizeof other) == size && !memcmp(one, other, size);
    }
    if (ours >= 0) close(ours);
    if (its >= 0) close(its);
    return is;
}

/* Whether a file is this host, under another name or as a copy. */
static int is_self(const char *path, const struct stat *file) {
    if (file->st_dev == own.st_dev && file->st_ino == own.st_ino) return 1;
    return file->st_size == own.st_size && own.st_size && is_copy(path);
}

/* Whether a file can be run, and isn't one to be skipped: this host, or one that ran more than so often in this chain of calls. */
static enum { NONE, SKIPPED, FOUND } look_at(const char *path, int most) {
    struct stat file;
    if (stat(path, &file) || access(path, X_OK)) return NONE;
    if (!S_ISREG(file.st_mode)) { errno = EACCES; return NONE; }
    if (is_self(path, &file)) { met_self = 1; return SKIPPED; }
    return runs_of(&file) > most ? SKIPPED : FOUND;
}

/* The first file of that name on the path that can be run and isn't skipped. A driver that is called by its name looks for its parts beside the
 * first file of that name on the path: where that is skipped, it is called by its own path. */
static int search(const char *name, int most) {
    const char *path = getenv("PATH"), *end;
    for (path = path ? path : "/usr/bin:/bin"; path; path = *end ? end + 1 : NULL) {
        end = strchrnul(path, ':');
        int length = snprintf(compiler, sizeof compiler, "%.*s/%s", end > path ? (int)(end - path) : 1, end > path ? path : ".", name);
        if (length >= (int)sizeof compiler) continue;
        switch (look_at(compiler, most)) {
        case FOUND: return 0;
        case SKIPPED: words[0] = compiler; break;
        case NONE: break;
        }
    }
    errno = ENOENT;
    return -1;
}

/* The file of that name, where it can be run, by the usual search. A host doesn't count: its name is searched for. Nor does a file that already
 * ran in this chain of calls, as a script of that name that calls a host: the next one is taken or, where there is none, that file once more. */
int find_compiler(const char *name) {
    const char *slash = strrchr(name, '/');
    if (slash) {
        if (strlen(name) >= sizeof compiler) { errno = ENAMETOOLONG; return -1; }
        strcpy(compiler, name);
        switch (look_at(compiler, 1)) {
        case FOUND: return 0;
        case NONE: return -1;
        case SKIPPED: break;
        }
        name = slash + 1;
        words[0] = compiler;
    }
    return search(name, 0) && (!is_inside || search(name, 1)) ? -1 : 0;
}

/* Whether this is a program that can be started, and not this host. */
static int is_program(const char *path) {
    struct stat file;
    return !stat(path, &file) && S_ISREG(file.st_mode) && file.st_mode & 0111 && !is_self(path, &file);
}

/* The program: the one that GULMAAT_BIN names, or beside this host, or where an installation has it: its host is in a directory called bin. A
 * program in any other directory isn't the owner's of this host. If it isn't there, says so. */
const char *find_program(void) {
    static char program[PATH_MAX + 32];
    const char *named = getenv("GULMAAT_BIN"), *slash = strrchr(self, '/');
    int size = slash ? (int)(slash - self) : 0, is_installed = size >= 4 && !strncmp(slash - 4, "/bin", 4);
    if (named && is_program(named)) return named;
    if (named) {
        fprintf(stderr, "gulmaat: its program isn't at %s: set GULMAAT_BIN to it\n", named);
        return NULL;
    }
    snprintf(program, sizeof program, "%.*s/gulmaat", size, self);
    if (is_program(program)) return program;
    if (is_installed) {
        snprintf(program, sizeof program, "%.*s/../lib/gulmaat/gulmaat", size, self);
        if (is_program(program)) return program;
    }
    fprintf(stderr, "gulmaat: its program isn't at %.*s/gulmaat, beside this%s%.*s%s: set GULMAAT_BIN to it, or run bin/build\n", size, self,
        is_installed ? ", nor at " : "", is_installed ? size : 0, self, is_installed ? "/../lib/gulmaat/gulmaat" : "");
    return NULL;
}

/* The helper that asks a server: it is beside the program. If it isn't there, says so. */
const char *find_helper(void) {
    static char helper[PATH_MAX + 48];
    const char *program = find_program(), *slash = program ? strrchr(program, '/') : NULL;
    if (!program) return NULL;
    snprintf(helper, sizeof helper, "%.*s/gulmaat-remote", slash ? (int)(slash - program) : 1, slash ? program : ".");
    if (is_program(helper)) return helper;
    fprintf(stderr, "gulmaat: remote_storage is set, but %s isn't there: bin/host makes it where its libraries are\n", helper);
    return NULL;
}
