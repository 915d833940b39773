/* Redis, by hiredis. */
#define _GNU_SOURCE
#include "remote.h"
#include <errno.h>
#include <hiredis/hiredis.h>
#include <stdio.h>
#include <string.h>
#include <sys/time.h>

static redisContext *server;
static int waiting;     /* how many answers to what was sent ahead of the first question are still to come */

static struct timeval time_of(long milliseconds) {
    return (struct timeval){milliseconds / 1000, milliseconds % 1000 * 1000};
}

static void let_go(void) {
    if (server) redisFree(server);
    server = NULL;
    waiting = 0;
}

/* What it comes to where there is no answer. */
static enum came_to fault(void) {
    int is_late = server && server->err == REDIS_ERR_IO && (errno == EAGAIN || errno == ETIMEDOUT || errno == EINPROGRESS);
    let_go();
    return is_late ? LATE : FAILED;
}

static enum came_to connect_to(const struct storage *storage) {
    struct timeval limit = time_of(storage->connect);
    char digits[16];
    if (server) return CAME;
    server = storage->host ? redisConnectWithTimeout(storage->host, storage->port, limit) : redisConnectUnixWithTimeout(storage->path, limit);
    if (!server || server->err) return fault();
    /* AUTH and SELECT go ahead of the first question, in one piece with it. */
    if (storage->password) {
        const char *with_user[] = {"AUTH", storage->user, storage->password}, *alone[] = {"AUTH", storage->password};
        waiting += !redisAppendCommandArgv(server, storage->user ? 3 : 2, storage->user ? with_user : alone, NULL);
    }
    if (storage->database) {
        snprintf(digits, sizeof digits, "%d", storage->database);
        waiting += !redisAppendCommand(server, "SELECT %s", digits);
    }
    return CAME;
}

/* The answer to a question, or NULL. */
static redisReply *ask(int count, const char **words, const size_t *sizes) {
    long rest = time_left();
    void *reply = NULL;
    if (rest <= 0 || redisSetTimeout(server, time_of(rest)) || redisAppendCommandArgv(server, count, words, sizes)) return NULL;
    for (; waiting; waiting--) {
        if (redisGetReply(server, &reply)) return NULL;
        int is_refused = ((redisReply *)reply)->type == REDIS_REPLY_ERROR;
        freeReplyObject(reply);
        if (is_refused) return NULL;
    }
    return redisGetReply(server, &reply) ? NULL : reply;
}

/* The name under which it is stored. */
static const char *named(const char *name) {
    static char place[256];
    snprintf(place, sizeof place, "gulmaat:%s", name);
    return place;
}

static enum came_to get(const struct storage *storage, const char *name, struct bytes *found, size_t most) {
    (void)storage;
    const char *words[] = {"GET", named(name)};
    redisReply *reply = ask(2, words, (const size_t[]){3, strlen(words[1])});
    if (!reply) return fault();
    enum came_to came_to = reply->type == REDIS_REPLY_NIL ? MISSED : FAILED;
    if (reply->type == REDIS_REPLY_STRING && (size_t)reply->len <= most && !add_bytes(found, reply->str, reply->len)) came_to = CAME;
    freeReplyObject(reply);
    return came_to;
}

static enum came_to has(const struct storage *storage, const char *name) {
    (void)storage;
    const char *words[] = {"EXISTS", named(name)};
    redisReply *reply = ask(2, words, (const size_t[]){6, strlen(words[1])});
    if (!reply) return fault();
    enum came_to came_to = reply->type != REDIS_REPLY_INTEGER ? FAILED : reply->integer ? CAME : MISSED;
    freeReplyObject(reply);
    return came_to;
}

static enum came_to put(const struct storage *storage, const char *name, const struct bytes *bytes) {
    char seconds[24];
    snprintf(seconds, sizeof seconds, "%ld", storage->lifetime);
    const char *words[] = {"SET", named(name), (const char *)bytes->at, "EX", seconds};
    redisReply *reply = ask(storage->lifetime > 0 ? 5 : 3, words, (const size_t[]){3, strlen(words[1]), bytes->size, 2, strlen(seconds)});
    if (!reply) return fault();
    enum came_to came_to = reply->type == REDIS_REPLY_STATUS ? CAME : FAILED;
    freeReplyObject(reply);
    return came_to;
}

const struct kind redis = {connect_to, get, has, put, let_go};
