/* Where things are stored, as `remote_storage` says, and under which names. The program has already checked the text: one that isn't well formed
 * names no storage here. */
#define _GNU_SOURCE
#include "remote.h"
#include <sodium.h>
#include <stdio.h>
#include <stdlib.h>
#include <string.h>

#define LIFETIME (30 * 24 * 60 * 60L)   /* for how many seconds Redis keeps something, where no attribute says it */

static int begins(const char *text, const char *front) { return !strncmp(text, front, strlen(front)); }

static int digit_of(char letter) {
    return letter >= '0' && letter <= '9' ? letter - '0' : letter >= 'a' && letter <= 'f' ? letter - 'a' + 10
        : letter >= 'A' && letter <= 'F' ? letter - 'A' + 10 : -1;
}

/* Decodes each `%` with two digits after it. */
static char *decode(char *text) {
    char *to = text;
    for (char *at = text; at && *at; to++) {
        int is_coded = *at == '%' && digit_of(at[1]) >= 0 && digit_of(at[2]) >= 0;
        *to = is_coded ? (char)(digit_of(at[1]) << 4 | digit_of(at[2])) : *at;
        at += is_coded ? 3 : 1;
    }
    if (to) *to = 0;
    return text;
}

/* Takes `[[USER:]PASSWORD@]HOST[:PORT][/DB]`. */
static int take_redis(struct storage *storage, char *text) {
    char *slash = strchr(text, '/'), *at, *colon;
    if (slash) {
        *slash = 0;
        storage->database = atoi(slash + 1);
    }
    if ((at = strrchr(text, '@'))) {
        *at = 0;
        storage->password = text;
        if ((colon = strchr(text, ':'))) {
            *colon = 0;
            storage->password = decode(colon + 1);
            if (colon > text) storage->user = text;
            decode(storage->user);
        } else decode(storage->password);
        text = at + 1;
    }
    storage->port = 6379;
    char *end = *text == '[' ? strchr(text, ']') : NULL;
    if (end) {
        *end++ = 0;
        text++;
        colon = *end == ':' ? end : NULL;
    } else colon = strchr(text, ':');
    if (colon) {
        *colon = 0;
        storage->port = atoi(colon + 1);
    }
    storage->host = text;
    return *text && storage->port > 0 && storage->port < 65536 ? 0 : -1;
}

/* Takes what comes before the attributes. */
static int take_place(struct storage *storage, char *text) {
    if (begins(text, "redis://")) {
        storage->kind = &redis;
        return take_redis(storage, text + 8);
    }
    if (begins(text, "redis+unix:")) {
        storage->kind = &redis;
        storage->path = text + 11;
    } else if (begins(text, "http://") || begins(text, "https://")) {
        storage->kind = begins(text, "https://") || getenv("http_proxy") ? &http : &plain;
        storage->path = text;
    } else if (begins(text, "file:")) {
        storage->kind = &folder;
        storage->path = text + (begins(text, "file://") ? 7 : 5);
    } else return -1;
    for (size_t size = strlen(storage->path); size > 1 && storage->path[size - 1] == '/'; size--) storage->path[size - 1] = 0;
    return storage->kind == &http || storage->kind == &plain || *storage->path == '/' ? 0 : -1;
}

static void take_attribute(struct storage *storage, char *text) {
    if (begins(text, "bearer-token=")) storage->token = text + 13;
    else if (begins(text, "lifetime=")) storage->lifetime = atol(text + 9);
    else if (!strcmp(text, "layout=flat")) storage->layout = FLAT;
    else if (!strcmp(text, "layout=bazel")) storage->layout = BAZEL;
}

/* The storage that a text names, which may take so many milliseconds to connect, and in all; NULL where it names none. */
struct storage *storage_of(const char *text, long connect, long whole) {
    struct storage *storage = calloc(1, sizeof *storage);
    char *rest = strdup(text), *place = rest ? strsep(&rest, "|") : NULL;
    if (!storage || !place) return NULL;
    storage->connect = connect;
    storage->whole = whole;
    storage->lifetime = LIFETIME;
    for (char *attribute; (attribute = strsep(&rest, "|"));) take_attribute(storage, attribute);
    return take_place(storage, place) ? NULL : storage;
}

/* Writes the path of a name to `place`: below the folder, or after the address, of the storage, by its layout. */
int place_of(const struct storage *storage, const char *name, char *place, size_t room) {
    const char *dash = strrchr(name, '-');
    unsigned char digest[crypto_hash_sha256_BYTES];
    char digits[2 * sizeof digest + 1];
    int size;
    if (!dash || strlen(dash) < 4) return -1;
    switch (storage->layout) {
    case BAZEL:
        crypto_hash_sha256(digest, (const unsigned char *)name, strlen(name));
        sodium_bin2hex(digits, sizeof digits, digest, sizeof digest);
        size = snprintf(place, room, "%s/ac/%s", storage->path, digits);
        break;
    case FLAT:
        size = snprintf(place, room, "%s/%s", storage->path, name);
        break;
    default:
        size = snprintf(place, room, "%s/%.*s/%.2s/%s", storage->path, (int)(dash - name), name, dash + 1, dash + 3);
    }
    return size < 0 || (size_t)size >= room ? -1 : 0;
}
