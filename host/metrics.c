#include "metrics.h"

#include "clock.h"

#include <arpa/inet.h>
#include <errno.h>
#include <inttypes.h>
#include <microhttpd.h>
#include <netdb.h>
#include <netinet/in.h>
#include <pthread.h>
#include <stdlib.h>
#include <sys/socket.h>
#include <unistd.h>

enum {
    // Connections at the same time, and those of one address; seconds until a silent one is closed;
    // bytes for each request.
    CONNECTIONS = 16,
    OF_ONE = 8,
    SILENT = 3,
    REQUEST = 4096,
    // Milliseconds without a turn, after which the node isn't healthy.
    STUCK = 10000,
    ADDRESS = 64
};

struct metrics {
    struct MHD_Daemon *server;
    pthread_mutex_t lock;
    // Under the lock:
    host_view view;
    bool is_shown, is_connected;
    uint64_t shown_at;
};

// ## The text

static void write_head(FILE *to, const char *name, const char *type, const char *help)
{
    fprintf(to, "# HELP markring_%s %s.\n# TYPE markring_%s %s\n", name, help, name, type);
}

// Begins a line: a name, what follows it, and the labels up to the closing brace.
static void write_name(FILE *to, const host_view *view, const char *name, const char *suffix)
{
    fprintf(to, "markring_%s%s{space=\"%s\",node=\"%" PRIu64 "\"", name, suffix, view->space,
        view->own);
}

static bool is_counter(const char *name)
{
    size_t length = strlen(name);
    return length > 6 && strcmp(name + length - 6, "_total") == 0;
}

static void write_numbers(FILE *to, const host_view *view)
{
    for (size_t i = 0; i < HOST_NUMBERS; i++) {
        const host_number *which = &HOST_NUMBER[i];
        uint64_t number = host_number_of(view, which);
        write_head(to, which->metric, is_counter(which->metric) ? "counter" : "gauge", which->help);
        write_name(to, view, which->metric, "");
        if (which->is_time) {
            fprintf(to, "} %.3f\n", (double)number / 1000);
        } else {
            fprintf(to, "} %" PRIu64 "\n", number);
        }
    }
}

static void write_times(
    FILE *to, const host_view *view, const host_times *times, const char *name, const char *help)
{
    uint64_t count = 0;
    write_head(to, name, "histogram", help);
    for (int i = 0; i < HOST_BOUNDS; i++) {
        count += times->counts[i];
        write_name(to, view, name, "_bucket");
        fprintf(to, ",le=\"%g\"} %" PRIu64 "\n", HOST_BOUND[i] / 1000.0, count);
    }
    count += times->counts[HOST_BOUNDS];
    write_name(to, view, name, "_bucket");
    fprintf(to, ",le=\"+Inf\"} %" PRIu64 "\n", count);
    write_name(to, view, name, "_sum");
    fprintf(to, "} %.3f\n", (double)times->sum / 1000);
    write_name(to, view, name, "_count");
    fprintf(to, "} %" PRIu64 "\n", count);
}

static uint64_t seen(const host_peer_view *it)
{
    return it->is_seen;
}

static uint64_t late(const host_peer_view *it)
{
    return it->is_late;
}

static uint64_t unacknowledged(const host_peer_view *it)
{
    return it->unacknowledged;
}

static void write_peers(FILE *to, const host_view *view, const char *name, const char *help,
    uint64_t (*number)(const host_peer_view *it))
{
    write_head(to, name, "gauge", help);
    for (uint64_t i = 0; i < view->nodes; i++) {
        if (i != view->own) {
            write_name(to, view, name, "");
            fprintf(to, ",peer=\"%" PRIu64 "\"} %" PRIu64 "\n", i, number(&view->peers[i]));
        }
    }
}

void metrics_write(FILE *to, const host_view *view, bool is_connected)
{
    write_numbers(to, view);
    write_head(to, "connected", "gauge", "Whether the node has a connection to a server");
    write_name(to, view, "connected", "");
    fprintf(to, "} %d\n", is_connected);
    write_peers(to, view, "peer_seen", "Whether the other node was heard, and isn't lost", seen);
    write_peers(to, view, "peer_late",
        "Whether messages wait for the other node, and it has acknowledged none for 10 s", late);
    write_peers(to, view, "peer_unacknowledged_messages",
        "Messages that the other node hasn't acknowledged", unacknowledged);
    write_times(to, view, &view->saves, "save_duration_seconds", "How long saves took");
    write_times(to, view, &view->cycles, "cycle_duration_seconds",
        "How long cycles took, from when the node joined one until it had swept it");
    write_times(to, view, &view->requests, "request_duration_seconds",
        "How long programs waited for the answer to a request with events");
}

// ## Answers

// Queues an answer; `text` is freed with it if it is `owned`.
static enum MHD_Result send_text(
    struct MHD_Connection *connection, unsigned status, char *text, size_t length, bool owned)
{
    struct MHD_Response *response = MHD_create_response_from_buffer(
        length, text, owned ? MHD_RESPMEM_MUST_FREE : MHD_RESPMEM_PERSISTENT);
    if (response == NULL) {
        if (owned) {
            free(text);
        }
        return MHD_NO;
    }
    (void)MHD_add_response_header(
        response, "Content-Type", "text/plain; version=0.0.4; charset=utf-8");
    if (status == MHD_HTTP_METHOD_NOT_ALLOWED) {
        (void)MHD_add_response_header(response, "Allow", "GET, HEAD");
    }
    enum MHD_Result result = MHD_queue_response(connection, status, response);
    MHD_destroy_response(response);
    return result;
}

static enum MHD_Result send_line(
    struct MHD_Connection *connection, unsigned status, const char *text)
{
    return send_text(connection, status, (char *)(uintptr_t)text, strlen(text), false);
}

static enum MHD_Result send_metrics(
    struct MHD_Connection *connection, const host_view *view, bool is_connected)
{
    char *text = NULL;
    size_t length = 0;
    FILE *to = open_memstream(&text, &length);
    if (to == NULL) {
        return MHD_NO;
    }
    metrics_write(to, view, is_connected);
    if (fclose(to) != 0) {
        free(text);
        return MHD_NO;
    }
    return send_text(connection, MHD_HTTP_OK, text, length, true);
}

static enum MHD_Result send_health(struct MHD_Connection *connection, const metrics *seen_now)
{
    bool turns = seen_now->is_shown && now_ms() - seen_now->shown_at < STUCK;
    return turns ? send_line(connection, MHD_HTTP_OK, "it turns\n")
                 : send_line(connection, MHD_HTTP_SERVICE_UNAVAILABLE, "it doesn't turn\n");
}

static enum MHD_Result send_readiness(
    struct MHD_Connection *connection, const metrics *seen_now)
{
    if (!seen_now->is_shown || seen_now->view.counts.saves == 0) {
        return send_line(
            connection, MHD_HTTP_SERVICE_UNAVAILABLE, "its first save isn't stored\n");
    }
    return seen_now->is_connected
        ? send_line(connection, MHD_HTTP_OK, "it is ready\n")
        : send_line(connection, MHD_HTTP_SERVICE_UNAVAILABLE, "it isn't connected\n");
}

static void copy_shown(metrics *it, metrics *to)
{
    pthread_mutex_lock(&it->lock);
    to->view = it->view;
    to->is_shown = it->is_shown;
    to->is_connected = it->is_connected;
    to->shown_at = it->shown_at;
    pthread_mutex_unlock(&it->lock);
}

static enum MHD_Result answer(void *context, struct MHD_Connection *connection, const char *path,
    const char *method, const char *version, const char *upload, size_t *upload_size, void **state)
{
    metrics seen_now;
    (void)version;
    (void)upload;
    (void)upload_size;
    (void)state;
    if (strcmp(method, "GET") != 0 && strcmp(method, "HEAD") != 0) {
        return send_line(connection, MHD_HTTP_METHOD_NOT_ALLOWED, "only GET and HEAD\n");
    }
    copy_shown(context, &seen_now);
    if (strcmp(path, "/metrics") == 0 && seen_now.is_shown) {
        return send_metrics(connection, &seen_now.view, seen_now.is_connected);
    }
    if (strcmp(path, "/healthz") == 0) {
        return send_health(connection, &seen_now);
    }
    if (strcmp(path, "/readyz") == 0) {
        return send_readiness(connection, &seen_now);
    }
    return send_line(connection, MHD_HTTP_NOT_FOUND, "the paths are /metrics, /healthz, /readyz\n");
}

// ## Addresses

// Splits `ADDRESS:PORT`. An address of IPv6 is in brackets.
static bool split(const char *word, char *address, const char **port)
{
    const char *colon = strrchr(word, ':');
    size_t length = colon != NULL ? (size_t)(colon - word) : 0;
    bool has_brackets = length > 2 && word[0] == '[' && word[length - 1] == ']';
    if (has_brackets) {
        word++;
        length -= 2;
    }
    if (length == 0 || length >= ADDRESS) {
        return false;
    }
    memcpy(address, word, length);
    address[length] = 0;
    *port = colon + 1;
    size_t digits = strspn(*port, "0123456789");
    return (strchr(address, ':') != NULL) == has_brackets && digits > 0 && digits < 6
        && (*port)[digits] == 0 && atoi(*port) > 0 && atoi(*port) < 65536;
}

static struct addrinfo *find_address(const char *word)
{
    char address[ADDRESS];
    const char *port;
    struct addrinfo hints, *found = NULL;
    memset(&hints, 0, sizeof hints);
    hints.ai_flags = AI_NUMERICHOST | AI_NUMERICSERV | AI_PASSIVE;
    hints.ai_socktype = SOCK_STREAM;
    if (!split(word, address, &port) || getaddrinfo(address, port, &hints, &found) != 0) {
        return NULL;
    }
    return found;
}

// A socket that listens there, or -1.
static int listen_at(const struct addrinfo *where)
{
    int yes = 1;
    int it = socket(where->ai_family, SOCK_STREAM | SOCK_CLOEXEC | SOCK_NONBLOCK, 0);
    if (it < 0) {
        return -1;
    }
    if (setsockopt(it, SOL_SOCKET, SO_REUSEADDR, &yes, sizeof yes) != 0
        || bind(it, where->ai_addr, where->ai_addrlen) != 0 || listen(it, SOMAXCONN) != 0) {
        int cause = errno;
        close(it);
        errno = cause;
        return -1;
    }
    return it;
}

// ## Beginning and end

static struct MHD_Daemon *start_server(metrics *it, int socket)
{
    errno = 0;
    struct MHD_Daemon *server = MHD_start_daemon(MHD_USE_AUTO | MHD_USE_INTERNAL_POLLING_THREAD, 0,
        NULL, NULL, answer, it, MHD_OPTION_LISTEN_SOCKET, (MHD_socket)socket,
        MHD_OPTION_CONNECTION_LIMIT, (unsigned)CONNECTIONS, MHD_OPTION_PER_IP_CONNECTION_LIMIT,
        (unsigned)OF_ONE, MHD_OPTION_CONNECTION_TIMEOUT, (unsigned)SILENT,
        MHD_OPTION_CONNECTION_MEMORY_LIMIT, (size_t)REQUEST, MHD_OPTION_END);
    if (server == NULL) {
        int cause = errno != 0 ? errno : ENOMEM;
        close(socket);
        errno = cause;
    }
    return server;
}

metrics_status metrics_open(metrics **opened, const char *address)
{
    struct addrinfo *where = find_address(address);
    if (where == NULL) {
        return METRICS_BAD_ADDRESS;
    }
    int socket = listen_at(where);
    freeaddrinfo(where);
    if (socket < 0) {
        return METRICS_FAILED;
    }
    metrics *it = calloc(1, sizeof *it);
    if (it == NULL || pthread_mutex_init(&it->lock, NULL) != 0) {
        close(socket);
        free(it);
        errno = ENOMEM;
        return METRICS_FAILED;
    }
    it->server = start_server(it, socket);
    if (it->server == NULL) {
        pthread_mutex_destroy(&it->lock);
        free(it);
        return METRICS_FAILED;
    }
    *opened = it;
    return METRICS_OK;
}

void metrics_show(metrics *it, const host_view *view, bool is_connected, uint64_t now)
{
    pthread_mutex_lock(&it->lock);
    it->view = *view;
    it->is_shown = true;
    it->is_connected = is_connected;
    it->shown_at = now;
    pthread_mutex_unlock(&it->lock);
}

void metrics_close(metrics *it)
{
    MHD_stop_daemon(it->server);
    pthread_mutex_destroy(&it->lock);
    free(it);
}
