/* HTTP without TLS, by libevent, which is linked into this program: libcurl, which `https` needs, takes longer to load than the server to answer. */
#define _GNU_SOURCE
#include "remote.h"
#include <event2/buffer.h>
#include <event2/bufferevent.h>
#include <event2/event.h>
#include <event2/http.h>
#include <netdb.h>
#include <sodium.h>
#include <stdio.h>
#include <stdlib.h>
#include <string.h>
#include <sys/socket.h>

#define LONGEST 8192    /* how long an address may be, and the header that says who asks */
#define UNASKED (1 << 20)   /* how many bytes an answer may have beside what was asked for */

static struct event_base *loop;
static struct evhttp_connection *server;
static struct evhttp_uri *address;
static char right[LONGEST];     /* the header that says who asks, or nothing */

/* A question, and what it came to. */
struct question {
    enum came_to came_to;
    int is_answered;
    struct bytes *to;           /* where what comes goes, or NULL */
    size_t most;
};

static struct timeval time_of(long milliseconds) {
    return (struct timeval){milliseconds / 1000, milliseconds % 1000 * 1000};
}

static void let_go(void) {
    if (server) evhttp_connection_free(server);
    server = NULL;
}

/* Whether there is a connection to the server. */
static int is_connected(void) {
    struct sockaddr_storage other;
    socklen_t size = sizeof other;
    return server && !getpeername(bufferevent_getfd(evhttp_connection_get_bufferevent(server)), (struct sockaddr *)&other, &size);
}

/* A token, or what the address has before its host, says who asks. */
static int take_right(const struct storage *storage) {
    const char *user = evhttp_uri_get_userinfo(address);
    if (storage->token) return snprintf(right, sizeof right, "Bearer %s", storage->token) < (int)sizeof right ? 0 : -1;
    if (!user) return 0;
    size_t size = 0;
    char *plain = evhttp_uridecode(user, 0, &size);
    int fits = plain && sodium_base64_ENCODED_LEN(size, sodium_base64_VARIANT_ORIGINAL) < sizeof right - 8;
    if (fits) {
        strcpy(right, "Basic ");
        sodium_bin2base64(right + 6, sizeof right - 6, (const unsigned char *)plain, size, sodium_base64_VARIANT_ORIGINAL);
    }
    free(plain);
    return fits ? 0 : -1;
}

static int port_of(void) {
    int port = evhttp_uri_get_port(address);
    return port < 0 ? 80 : port;
}

/* A connection to this address of the server, which is made at the first question. */
static int connect_at(const struct addrinfo *place) {
    char name[NI_MAXHOST];
    struct timeval most = time_of(time_left());
    if (getnameinfo(place->ai_addr, place->ai_addrlen, name, sizeof name, NULL, 0, NI_NUMERICHOST)) return -1;
    let_go();
    server = evhttp_connection_base_new(loop, NULL, name, port_of());
    if (!server) return -1;
    evhttp_connection_set_timeout_tv(server, &most);
    return 0;
}

static void note_error(enum evhttp_request_error error, void *whole) {
    struct question *question = whole;
    if (error == EVREQ_HTTP_TIMEOUT) question->came_to = LATE;
}

/* Takes the answer. One that was cut off doesn't count. */
static void take(struct evhttp_request *request, void *whole) {
    struct question *question = whole;
    int code = request ? evhttp_request_get_response_code(request) : 0;
    question->is_answered = 1;
    event_base_loopbreak(loop);
    if (code == 404 || code == 410) question->came_to = MISSED;
    if (code < 200 || code >= 300) return;
    struct evbuffer *body = evhttp_request_get_input_buffer(request);
    size_t size = evbuffer_get_length(body);
    if (question->to && (size > question->most || add_bytes(question->to, evbuffer_pullup(body, -1), size))) return;
    question->came_to = CAME;
}

/* The time to connect, or all time, is over. */
static void end_if_late(evutil_socket_t file, short what, void *whole) {
    struct question *question = whole;
    (void)file, (void)what;
    if (is_connected() && time_left() > 0) return;
    question->came_to = LATE;
    event_base_loopbreak(loop);
}

/* Ends the loop after so many milliseconds, if what was to be done by then isn't done. */
static struct event *end_in(long milliseconds, struct question *question) {
    struct timeval time = time_of(milliseconds);
    struct event *timer = evtimer_new(loop, end_if_late, question);
    if (timer) evtimer_add(timer, &time);
    return timer;
}

static struct evhttp_request *request_of(struct question *question, const struct bytes *sent) {
    struct evhttp_request *request = evhttp_request_new(take, question);
    char host[LONGEST];
    if (!request) return NULL;
    struct evkeyvalq *heads = evhttp_request_get_output_headers(request);
    evhttp_request_set_error_cb(request, note_error);
    const char *name = evhttp_uri_get_host(address);
    int is_number = strchr(name, ':') != NULL && *name != '[';
    snprintf(host, sizeof host, is_number ? "[%s]:%d" : "%s:%d", name, port_of());
    evhttp_add_header(heads, "Host", host);
    evhttp_add_header(heads, "Accept", "*/*");
    if (*right) evhttp_add_header(heads, "Authorization", right);
    if (sent) {
        evhttp_add_header(heads, "Content-Type", "application/octet-stream");
        evbuffer_add_reference(evhttp_request_get_output_buffer(request), sent->at, sent->size, NULL, NULL);
    }
    return request;
}

/* Asks over the connection that is there. */
static void ask_once(const struct storage *storage, enum evhttp_cmd_type kind, const char *path, const struct bytes *sent, struct question *question) {
    struct evhttp_request *request = request_of(question, sent);
    struct event *connect = is_connected() ? NULL : end_in(storage->connect, question), *all = end_in(time_left(), question);
    question->came_to = FAILED;
    question->is_answered = 0;
    evhttp_connection_set_max_body_size(server, question->to ? (ev_ssize_t)question->most : UNASKED);
    evhttp_connection_set_max_headers_size(server, UNASKED);
    if (request && !evhttp_make_request(server, request, kind, path) && !question->is_answered) event_base_dispatch(loop);
    if (connect) event_free(connect);
    if (all) event_free(all);
}

/* Asks at each address of the server's name until one takes a connection. */
static enum came_to ask_each(const struct storage *storage, enum evhttp_cmd_type kind, const char *path, const struct bytes *sent,
                             struct question *question) {
    const struct addrinfo wanted = {.ai_family = AF_UNSPEC, .ai_socktype = SOCK_STREAM};
    struct addrinfo *places = NULL;
    if (getaddrinfo(evhttp_uri_get_host(address), NULL, &wanted, &places)) return FAILED;
    for (const struct addrinfo *place = places; place; place = place->ai_next) {
        if (connect_at(place)) continue;
        ask_once(storage, kind, path, sent, question);
        if (question->came_to != FAILED || is_connected()) break;
    }
    freeaddrinfo(places);
    return question->came_to;
}

static enum came_to ask(const struct storage *storage, enum evhttp_cmd_type kind, const char *name, const struct bytes *sent,
                        struct question *question) {
    static char place[LONGEST];
    if (time_left() <= 0) return LATE;
    if (place_of(storage, name, place, sizeof place)) return FAILED;
    const char *path = strchr(place + strlen("http://"), '/');
    if (!path) return FAILED;
    int is_asked = is_connected();
    if (is_asked) ask_once(storage, kind, path, sent, question);
    /* A server may have closed an idle connection: so it is asked once more, over another one. */
    if (!is_asked || question->came_to == FAILED) ask_each(storage, kind, path, sent, question);
    if (question->came_to == FAILED || question->came_to == LATE) let_go();
    return question->came_to;
}

static enum came_to connect_to(const struct storage *storage) {
    if (loop) return CAME;
    address = evhttp_uri_parse(storage->path);
    if (!address || !evhttp_uri_get_host(address) || take_right(storage)) return FAILED;
    loop = event_base_new();
    return loop ? CAME : FAILED;
}

static enum came_to get(const struct storage *storage, const char *name, struct bytes *found, size_t most) {
    struct question question = {FAILED, 0, found, most};
    return ask(storage, EVHTTP_REQ_GET, name, NULL, &question);
}

static enum came_to has(const struct storage *storage, const char *name) {
    struct question question = {FAILED, 0, NULL, 0};
    return ask(storage, EVHTTP_REQ_HEAD, name, NULL, &question);
}

static enum came_to put(const struct storage *storage, const char *name, const struct bytes *bytes) {
    struct question question = {FAILED, 0, NULL, 0};
    return ask(storage, EVHTTP_REQ_PUT, name, bytes, &question);
}

const struct kind plain = {connect_to, get, has, put, let_go};
