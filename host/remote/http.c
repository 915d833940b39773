/* HTTP with TLS or through a proxy, by libcurl, which is loaded only where it is needed: loading it takes longer than all else here. */
#define _GNU_SOURCE
#include "remote.h"
#define CURL_DISABLE_TYPECHECK
#include <curl/curl.h>
#include <dlfcn.h>
#include <stdio.h>
#include <string.h>

#define LONGEST 8192    /* how long an address may be */

static CURL *(*easy_init)(void);
static void (*easy_reset)(CURL *), (*easy_cleanup)(CURL *);
static CURLcode (*set)(CURL *, CURLoption, ...), (*get_info)(CURL *, CURLINFO, ...), (*perform)(CURL *);
static struct curl_slist *(*append)(struct curl_slist *, const char *);

static CURL *asked;
static struct curl_slist *lines;    /* the headers of each request */

/* Where what comes goes, and how much may come. */
struct coming { struct bytes *to; size_t most; };

static size_t take(char *part, size_t one, size_t count, void *whole) {
    struct coming *coming = whole;
    size_t size = one * count;
    if (!coming->to) return size;
    return coming->to->size + size > coming->most || add_bytes(coming->to, part, size) ? 0 : size;
}

/* What is sent, and how much of it was sent. */
struct going { const struct bytes *from; size_t at; };

static size_t give(char *part, size_t one, size_t count, void *whole) {
    struct going *going = whole;
    size_t size = one * count, rest = going->from->size - going->at;
    if (size > rest) size = rest;
    if (size) memcpy(part, going->from->at + going->at, size);
    going->at += size;
    return size;
}

/* Begins to send once more, as on a new connection. */
static int go_back(void *whole, curl_off_t offset, int origin) {
    struct going *going = whole;
    if (origin != SEEK_SET || offset < 0 || (size_t)offset > going->from->size) return CURL_SEEKFUNC_CANTSEEK;
    going->at = offset;
    return CURL_SEEKFUNC_OK;
}

static int find(void *library, const char *name, void *function) {
    void *found = dlsym(library, name);
    memcpy(function, &found, sizeof found);
    return found ? 0 : -1;
}

static enum came_to connect_to(const struct storage *storage) {
    char right[4096];
    if (asked) return CAME;
    void *library = dlopen("libcurl.so.4", RTLD_LAZY);
    if (!library) library = dlopen("libcurl-gnutls.so.4", RTLD_LAZY);
    if (!library || find(library, "curl_easy_init", &easy_init) || find(library, "curl_easy_reset", &easy_reset)
        || find(library, "curl_easy_cleanup", &easy_cleanup) || find(library, "curl_easy_setopt", &set)
        || find(library, "curl_easy_getinfo", &get_info) || find(library, "curl_easy_perform", &perform)
        || find(library, "curl_slist_append", &append)) return FAILED;
    /* A large object is sent without waiting for an answer first. */
    lines = append(NULL, "Expect:");
    lines = append(lines, "Content-Type: application/octet-stream");
    if (storage->token) {
        int size = snprintf(right, sizeof right, "Authorization: Bearer %s", storage->token);
        if (size < 0 || (size_t)size >= sizeof right) return FAILED;
        lines = append(lines, right);
    }
    asked = easy_init();
    return asked ? CAME : FAILED;
}

/* Makes a request about a name. Only an answer 2xx is a success: no redirection is followed, and what comes with one isn't what was asked for. */
static enum came_to ask(const struct storage *storage, const char *name) {
    static char place[LONGEST];
    long code = 0, rest = time_left();
    if (rest <= 0) return LATE;
    if (place_of(storage, name, place, sizeof place)) return FAILED;
    set(asked, CURLOPT_URL, place);
    set(asked, CURLOPT_HTTPHEADER, lines);
    set(asked, CURLOPT_NOSIGNAL, 1L);
    set(asked, CURLOPT_FAILONERROR, 1L);
    set(asked, CURLOPT_CONNECTTIMEOUT_MS, storage->connect);
    set(asked, CURLOPT_TIMEOUT_MS, rest);
    switch (perform(asked)) {
    case CURLE_OK:
        get_info(asked, CURLINFO_RESPONSE_CODE, &code);
        return code >= 200 && code < 300 ? CAME : FAILED;
    case CURLE_OPERATION_TIMEDOUT: return LATE;
    case CURLE_HTTP_RETURNED_ERROR:
        get_info(asked, CURLINFO_RESPONSE_CODE, &code);
        return code == 404 || code == 410 ? MISSED : FAILED;
    default: return FAILED;
    }
}

static enum came_to get(const struct storage *storage, const char *name, struct bytes *found, size_t most) {
    struct coming coming = {found, most};
    easy_reset(asked);
    set(asked, CURLOPT_WRITEFUNCTION, take);
    set(asked, CURLOPT_WRITEDATA, &coming);
    return ask(storage, name);
}

static enum came_to has(const struct storage *storage, const char *name) {
    easy_reset(asked);
    set(asked, CURLOPT_NOBODY, 1L);
    return ask(storage, name);
}

static enum came_to put(const struct storage *storage, const char *name, const struct bytes *bytes) {
    struct coming coming = {NULL, 0};
    struct going going = {bytes, 0};
    easy_reset(asked);
    set(asked, CURLOPT_UPLOAD, 1L);
    set(asked, CURLOPT_READFUNCTION, give);
    set(asked, CURLOPT_READDATA, &going);
    set(asked, CURLOPT_SEEKFUNCTION, go_back);
    set(asked, CURLOPT_SEEKDATA, &going);
    set(asked, CURLOPT_INFILESIZE_LARGE, (curl_off_t)bytes->size);
    set(asked, CURLOPT_WRITEFUNCTION, take);
    set(asked, CURLOPT_WRITEDATA, &coming);
    return ask(storage, name);
}

static void let_go(void) {
    if (asked) easy_cleanup(asked);
    asked = NULL;
}

const struct kind http = {connect_to, get, has, put, let_go};
