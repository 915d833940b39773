/* A folder that several machines share, as by NFS. */
#define _GNU_SOURCE
#include "remote.h"
#include <errno.h>
#include <fcntl.h>
#include <limits.h>
#include <stdio.h>
#include <string.h>
#include <sys/stat.h>
#include <unistd.h>

/* A folder that isn't there is not made: it may not be mounted now. */
static enum came_to connect_to(const struct storage *storage) {
    struct stat state;
    return !stat(storage->path, &state) && S_ISDIR(state.st_mode) ? CAME : FAILED;
}

static enum came_to fault(void) { return errno == ENOENT || errno == ENOTDIR ? MISSED : FAILED; }

static enum came_to get(const struct storage *storage, const char *name, struct bytes *found, size_t most) {
    static char part[65536];
    char place[PATH_MAX];
    if (place_of(storage, name, place, sizeof place)) return FAILED;
    int file = open(place, O_RDONLY | O_CLOEXEC);
    if (file < 0) return fault();
    ssize_t size;
    while ((size = read(file, part, sizeof part)) > 0)
        if (found->size + size > most || add_bytes(found, part, size)) size = -1;
    close(file);
    return size ? FAILED : CAME;
}

static enum came_to has(const struct storage *storage, const char *name) {
    char place[PATH_MAX];
    if (place_of(storage, name, place, sizeof place)) return FAILED;
    return access(place, F_OK) ? fault() : CAME;
}

/* Makes the folders of a file. */
static void make_folders(const struct storage *storage, char *place) {
    for (char *slash = place + strlen(storage->path); (slash = strchr(slash + 1, '/'));) {
        *slash = 0;
        mkdir(place, 0777);
        *slash = '/';
    }
}

/* Puts a file there all at once, under another name first, as in the cache directory. */
static enum came_to put(const struct storage *storage, const char *name, const struct bytes *bytes) {
    char place[PATH_MAX], early[PATH_MAX + 64], machine[32] = "";
    if (place_of(storage, name, place, sizeof place)) return FAILED;
    gethostname(machine, sizeof machine - 1);
    snprintf(early, sizeof early, "%s.%s.%ld", place, machine, (long)getpid());
    make_folders(storage, place);
    int file = open(early, O_WRONLY | O_CREAT | O_EXCL | O_CLOEXEC, 0666);
    if (file < 0) return FAILED;
    size_t done = 0;
    for (ssize_t size = 1; done < bytes->size && size > 0; done += size > 0 ? size : 0) size = write(file, bytes->at + done, bytes->size - done);
    int fails = close(file) || done != bytes->size || rename(early, place);
    if (fails) unlink(early);
    return fails ? FAILED : CAME;
}

static void let_go(void) {}

const struct kind folder = {connect_to, get, has, put, let_go};
