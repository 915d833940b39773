/* What the parts of gulmaat-remote share. */
#ifndef REMOTE_H
#define REMOTE_H

#include <stddef.h>
#include <stdint.h>

/* What a question came to, as the program has it. */
enum came_to { CAME, MISSED, FAILED, LATE };

/* Bytes that grow. */
struct bytes { unsigned char *at; size_t size, room; };

int add_bytes(struct bytes *bytes, const void *more, size_t size);
void free_bytes(struct bytes *bytes);

/* ---- storage.c: where things are stored, and under which names. */

enum layout { SUBDIRS, FLAT, BAZEL };

/* A server or a folder, as `remote_storage` names it. */
struct storage {
    const struct kind *kind;
    enum layout layout;
    char *host, *user, *password;   /* of Redis; NULL where none is named */
    char *path;                     /* a folder, a socket, or the whole address of HTTP */
    char *token;                    /* the bearer token of HTTP; NULL where none is named */
    int port, database;
    long lifetime;                  /* for how many seconds Redis keeps something; 0 is for as long as it likes */
    long connect, whole;            /* how many milliseconds it may take to connect, and how many all that is waited for */
};

/* How a storage of that kind is asked. A name is as the program gives it. */
struct kind {
    enum came_to (*connect)(const struct storage *storage);
    enum came_to (*get)(const struct storage *storage, const char *name, struct bytes *found, size_t most);
    enum came_to (*has)(const struct storage *storage, const char *name);
    enum came_to (*put)(const struct storage *storage, const char *name, const struct bytes *bytes);
    void (*let_go)(void);
};

extern const struct kind redis, plain, http, folder;

struct storage *storage_of(const char *text, long connect, long whole);
int place_of(const struct storage *storage, const char *name, char *place, size_t room);

/* How many milliseconds are left of what is waited for. */
long time_left(void);

/* ---- sealing.c: the form in which something is stored. */

int take_key(const char *path);
int seal(const char *name, const struct bytes *sealed, struct bytes *stored);
enum came_to unseal(const char *name, const struct bytes *stored, struct bytes *sealed, size_t most);

#endif
