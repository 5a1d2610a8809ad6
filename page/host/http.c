#include "http.h"
#include "budget.h"
#include "calls.h"
#include "files.h"
#include <arpa/inet.h>
#include <microhttpd.h>
#include <pthread.h>
#include <stdatomic.h>
#include <stdio.h>
#include <stdlib.h>
#include <string.h>
#include <strings.h>
#include <sys/socket.h>
#include <time.h>

static struct MHD_Daemon *the_daemon;
static const char *own_address;
static uint16_t own_port;
static atomic_size_t in_flight;

/* A request's body as far as it has come. */
struct body {
    size_t length;
    uint8_t bytes[BODY_BYTES];
};

/* ---- Replies */

static const char *const headers[][2] = {
    {"Content-Security-Policy", "default-src 'none'; script-src 'self'; style-src 'self'; img-src 'self'; connect-src 'self'; base-uri 'none'; "
                                "form-action 'none'; frame-ancestors 'none'"},
    {"X-Content-Type-Options", "nosniff"},
    {"Referrer-Policy", "no-referrer"},
    {"Cache-Control", "no-store"},
    {"Cross-Origin-Resource-Policy", "same-origin"},
    {"Cross-Origin-Opener-Policy", "same-origin"},
    {"Connection", "close"}, /* a connection has one request, so that its age is the request's */
};

static enum MHD_Result reply(struct MHD_Connection *c, unsigned status, const char *type, const char *allow, struct MHD_Response *r)
{
    if (!r)
        return MHD_NO;
    MHD_add_response_header(r, "Content-Type", type);
    for (size_t i = 0; i < sizeof headers / sizeof *headers; i++)
        MHD_add_response_header(r, headers[i][0], headers[i][1]);
    if (allow)
        MHD_add_response_header(r, "Allow", allow);
    enum MHD_Result done = MHD_queue_response(c, status, r);
    MHD_destroy_response(r);
    return done;
}

static enum MHD_Result say(struct MHD_Connection *c, unsigned status, const char *words, const char *allow)
{
    return reply(c, status, "text/plain; charset=utf-8", allow,
                 MHD_create_response_from_buffer(strlen(words), (void *)words, MHD_RESPMEM_PERSISTENT));
}

static enum MHD_Result send_file(struct MHD_Connection *c, const struct file *f)
{
    return reply(c, MHD_HTTP_OK, f->type, NULL, MHD_create_response_from_buffer(f->length, (void *)f->bytes, MHD_RESPMEM_PERSISTENT));
}

/* A reply's text with its room, which is counted as long as the client has not taken it. */
static void sent(void *own)
{
    struct json *j = own;
    atomic_fetch_sub(&in_flight, j->room);
    free(j->text);
    free(j);
}

static enum MHD_Result send_json(struct MHD_Connection *c, struct json *j)
{
    atomic_fetch_add(&in_flight, j->room);
    struct MHD_Response *r =
        j->lost ? NULL : MHD_create_response_from_buffer_with_free_callback_cls(j->length, j->text, sent, j);
    if (r)
        return reply(c, MHD_HTTP_OK, "application/json", NULL, r);
    sent(j);
    return say(c, MHD_HTTP_SERVICE_UNAVAILABLE, "no memory\n", NULL);
}

/* ---- What can be asked */

typedef void (*put_reply)(struct json *, const uint8_t *, size_t);

static put_reply posted(const char *url)
{
    return strcmp(url, "/session") == 0 ? put_session : strcmp(url, "/state") == 0 ? put_state : NULL;
}

static const struct file *file_at(const char *url)
{
    for (size_t i = 0; i < file_count; i++)
        if (strcmp(url, files[i].path) == 0)
            return &files[i];
    return NULL;
}

static const char *header(struct MHD_Connection *c, const char *name)
{
    return MHD_lookup_connection_value(c, MHD_HEADER_KIND, name);
}

static enum MHD_Result count(void *cls, enum MHD_ValueKind kind, const char *name, const char *value)
{
    (void)kind, (void)value;
    unsigned *counts = cls;
    const char *const once[] = {MHD_HTTP_HEADER_HOST, MHD_HTTP_HEADER_CONTENT_TYPE, MHD_HTTP_HEADER_CONTENT_LENGTH};
    for (size_t i = 0; i < sizeof once / sizeof *once; i++)
        if (strcasecmp(name, once[i]) == 0)
            counts[i]++;
    return MHD_YES;
}

/* What is checked here is the first of its name: another one could say something else to whoever stands between. */
static bool ambiguous(struct MHD_Connection *c)
{
    unsigned counts[3] = {0};
    MHD_get_connection_values(c, MHD_HEADER_KIND, count, counts);
    return counts[0] > 1 || counts[1] > 1 || counts[2] > 1;
}

/* A page of another name that resolves to this address is not ours (DNS rebinding). */
static bool host_is_ours(struct MHD_Connection *c)
{
    const char *const names[] = {"127.0.0.1", "localhost", own_address};
    const char *host = header(c, MHD_HTTP_HEADER_HOST);
    char name[128];
    for (size_t i = 0; host && i < sizeof names / sizeof *names; i++) {
        snprintf(name, sizeof name, "%s:%u", names[i], own_port);
        if (strcmp(host, name) == 0 || (own_port == 80 && strcmp(host, names[i]) == 0))
            return true;
    }
    return false;
}

/* A body, of whatever request, is refused before it is read: by its length, or because it does not say one. libmicrohttpd has already refused a
   length that is no number. */
static bool too_long(struct MHD_Connection *c)
{
    const char *length = header(c, MHD_HTTP_HEADER_CONTENT_LENGTH);
    return header(c, MHD_HTTP_HEADER_TRANSFER_ENCODING) || (length && strtoull(length, NULL, 10) > BODY_BYTES);
}

/* No form of another site can send this type. */
static bool is_session(struct MHD_Connection *c)
{
    const char *type = header(c, MHD_HTTP_HEADER_CONTENT_TYPE);
    return type && strcasecmp(type, "application/octet-stream") == 0;
}

static bool is(const char *method, const char *name)
{
    return strcmp(method, name) == 0;
}

/* The answer to a request that needs no body, or none yet: then the body is read. */
static enum MHD_Result on_headers(struct MHD_Connection *c, const char *url, const char *method, bool *read_body)
{
    const struct file *f = file_at(url);
    bool get = is(method, MHD_HTTP_METHOD_GET) || is(method, MHD_HTTP_METHOD_HEAD), words = strcmp(url, "/words.json") == 0;
    if (ambiguous(c))
        return say(c, MHD_HTTP_BAD_REQUEST, "a header stands there twice\n", NULL);
    if (!host_is_ours(c))
        return say(c, MHD_HTTP_FORBIDDEN, "this host has another name\n", NULL);
    if (!f && !words && !posted(url))
        return say(c, MHD_HTTP_NOT_FOUND, "there is nothing here\n", NULL);
    if (posted(url) ? !is(method, MHD_HTTP_METHOD_POST) : !get)
        return say(c, MHD_HTTP_METHOD_NOT_ALLOWED, "not this method\n", posted(url) ? "POST" : "GET, HEAD");
    if (posted(url) && !is_session(c))
        return say(c, MHD_HTTP_UNSUPPORTED_MEDIA_TYPE, "a session is application/octet-stream\n", NULL);
    if (too_long(c))
        return say(c, MHD_HTTP_CONTENT_TOO_LARGE, "a session has at most 16,384 bytes, and says its length\n", NULL);
    *read_body = true;
    return MHD_YES;
}

static enum MHD_Result on_whole(struct MHD_Connection *c, const char *url, const struct body *b)
{
    const struct file *f = file_at(url);
    if (f)
        return send_file(c, f);
    if (atomic_load(&in_flight) > IN_FLIGHT_BYTES)
        return say(c, MHD_HTTP_SERVICE_UNAVAILABLE, "busy: come again\n", NULL);
    struct json *j = calloc(1, sizeof *j);
    if (!j)
        return MHD_NO;
    if (posted(url))
        posted(url)(j, b->bytes, b->length);
    else
        put_words(j);
    return send_json(c, j);
}

/* libmicrohttpd calls this with the headers, then with each part of the body, then once more. */
static enum MHD_Result on_request(void *cls, struct MHD_Connection *c, const char *url, const char *method, const char *version,
                                  const char *data, size_t *size, void **own)
{
    (void)cls, (void)version;
    struct body *b = *own;
    if (!b) {
        bool read_body = false;
        enum MHD_Result answered = on_headers(c, url, method, &read_body);
        if (!read_body)
            return answered;
        *own = b = malloc(sizeof *b);
        if (b)
            b->length = 0;
        return b ? MHD_YES : MHD_NO;
    }
    if (*size == 0)
        return on_whole(c, url, b);
    if (*size > BODY_BYTES - b->length)
        return MHD_NO; /* longer than it said */
    memcpy(b->bytes + b->length, data, *size);
    b->length += *size;
    *size = 0;
    return MHD_YES;
}

static void on_end(void *cls, struct MHD_Connection *c, void **own, enum MHD_RequestTerminationCode why)
{
    (void)cls, (void)c, (void)why;
    free(*own);
    *own = NULL;
}

/* ---- Who is here, and since when */

static pthread_mutex_t guests_lock = PTHREAD_MUTEX_INITIALIZER;
static struct guest {
    int socket; /* below 0: nobody */
    time_t since;
} guests[CONNECTIONS];

static time_t seconds(void)
{
    struct timespec t;
    clock_gettime(CLOCK_MONOTONIC, &t);
    return t.tv_sec;
}

/* Writes the guest of this socket down, or crosses it out. */
static void note_guest(int socket, bool comes)
{
    pthread_mutex_lock(&guests_lock);
    for (size_t i = 0; i < CONNECTIONS; i++)
        if (guests[i].socket == (comes ? -1 : socket)) {
            guests[i] = comes ? (struct guest){socket, seconds()} : (struct guest){-1, 0};
            break;
        }
    pthread_mutex_unlock(&guests_lock);
}

/* libmicrohttpd says that a connection is over before it closes its socket, so that none of another connection is shut down here. */
static void on_connection(void *cls, struct MHD_Connection *c, void **own, enum MHD_ConnectionNotificationCode what)
{
    (void)cls, (void)own;
    note_guest(MHD_get_connection_info(c, MHD_CONNECTION_INFO_CONNECTION_FD)->connect_fd, what == MHD_CONNECTION_NOTIFY_STARTED);
}

void http_sweep(void)
{
    time_t now = seconds();
    pthread_mutex_lock(&guests_lock);
    for (size_t i = 0; i < CONNECTIONS; i++)
        if (guests[i].socket >= 0 && now - guests[i].since > CLIENT_SECONDS)
            shutdown(guests[i].socket, SHUT_RDWR);
    pthread_mutex_unlock(&guests_lock);
}

/* ---- Start and stop */

/* One thread: a request is answered in some milliseconds, and who is slow to send or to take holds nobody up. */
uint16_t http_start(const char *address, uint16_t port)
{
    struct sockaddr_in here = {.sin_family = AF_INET, .sin_port = htons(port)};
    if (inet_pton(AF_INET, address, &here.sin_addr) != 1)
        return 0;
    own_address = address;
    for (size_t i = 0; i < CONNECTIONS; i++)
        guests[i].socket = -1;
    the_daemon = MHD_start_daemon(MHD_USE_AUTO | MHD_USE_INTERNAL_POLLING_THREAD, port, NULL, NULL, on_request, NULL, MHD_OPTION_SOCK_ADDR,
                                  (struct sockaddr *)&here, MHD_OPTION_NOTIFY_COMPLETED, on_end, NULL, MHD_OPTION_NOTIFY_CONNECTION,
                                  on_connection, NULL, MHD_OPTION_CONNECTION_LIMIT, (unsigned)CONNECTIONS, MHD_OPTION_CONNECTION_TIMEOUT,
                                  (unsigned)IDLE_SECONDS, MHD_OPTION_END);
    const union MHD_DaemonInfo *bound = the_daemon ? MHD_get_daemon_info(the_daemon, MHD_DAEMON_INFO_BIND_PORT) : NULL;
    own_port = bound ? bound->port : 0;
    return own_port;
}

void http_stop(void)
{
    if (the_daemon)
        MHD_stop_daemon(the_daemon);
}
