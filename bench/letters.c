// Letters between two nodes in processes, and the floor under them: NATS's own request and reply,
// and a write with a sync. bench/processes runs it.
//
//     letters URL one-way BATCH COUNT   one program gives, another accepts
//     letters URL posts BATCH COUNT BYTES   the same, of letters with this many bytes
//     letters URL round COUNT           there and back, one letter at a time
//     letters URL nats COUNT            request and reply of NATS, 64 bytes
//     letters URL publish COUNT BYTES   messages of NATS, this many bytes each
//     letters FOLDER disk COUNT BYTES   pwrite and fdatasync, over and over
//
// It prints the seconds that it took.
#include <markring_remote.h>
#include <nats/nats.h>

#include <fcntl.h>
#include <pthread.h>
#include <stdbool.h>
#include <stdio.h>
#include <stdlib.h>
#include <string.h>
#include <time.h>
#include <unistd.h>

enum { TIMEOUT = 20000 };

static double seconds(void)
{
    struct timespec now;
    clock_gettime(CLOCK_MONOTONIC, &now);
    return (double)now.tv_sec + (double)now.tv_nsec / 1e9;
}

static void must(int status, const char *what)
{
    if (status != 0) {
        fprintf(stderr, "%s: status %d\n", what, status);
        exit(1);
    }
}

// A program of a node, with a connection of its own.
static markring_remote *open_program(const char *url, uint8_t node)
{
    markring_remote_space *space = NULL;
    markring_remote *program = NULL;
    markring_remote_options options = {url, NULL, NULL, NULL, NULL};
    must(markring_remote_connect(&space, &options, "test"), "connect");
    must(markring_remote_open(&program, space, node, 0, TIMEOUT, NULL), "open");
    return program;
}

// Performs events, of which the first `count` are alike, and returns how many were done.
static size_t done_of(markring_remote *program, const markring_remote_event *events, size_t count)
{
    markring_result results[MARKRING_REMOTE_EVENTS];
    size_t done = 0;
    must(markring_remote_perform_bytes(program, events, count, results, TIMEOUT), "events");
    while (done < count && results[done].status == MARKRING_OK) {
        done++;
    }
    return done;
}

static void repeat(markring_remote_event *events, const markring_remote_event *it)
{
    for (size_t i = 0; i < MARKRING_REMOTE_EVENTS; i++) {
        events[i] = *it;
    }
}

// Accepts letters until this many came, with their bytes if they have some.
static void accept_letters(markring_remote *program, size_t count, uint32_t bytes)
{
    markring_remote_event events[MARKRING_REMOTE_EVENTS], accept = {{.reg = 0, .count = bytes}, NULL, 0};
    accept.event.kind = bytes > 0 ? MARKRING_REMOTE_ACCEPT_INTO : MARKRING_EVENT_ACCEPT;
    size_t room = bytes > 0 ? MARKRING_REMOTE_BYTES / bytes : MARKRING_REMOTE_EVENTS;
    repeat(events, &accept);
    while (count > 0) {
        uint64_t letters = 0;
        must(markring_remote_wait(program, &letters, TIMEOUT), "wait");
        size_t most = letters < count ? (size_t)letters : count;
        most = most < MARKRING_REMOTE_EVENTS ? most : MARKRING_REMOTE_EVENTS;
        count -= done_of(program, events, most < room ? most : room);
    }
}

// What is sent: letters, this many in a request, with bytes if they are posts.
typedef struct giving {
    markring_remote *program;
    size_t batch, count;
    bool posts;
    uint32_t bytes;
} giving;

// What is refused as congested is given again.
static void give_letters(const giving *it, uint8_t to)
{
    static uint8_t bytes[MARKRING_LETTER_BYTES];
    markring_remote_event events[MARKRING_REMOTE_EVENTS], give = {{.node = to, .label = 1}, bytes, 0};
    give.event.kind = it->posts ? MARKRING_REMOTE_POST : MARKRING_EVENT_GIVE;
    give.length = it->bytes;
    repeat(events, &give);
    for (size_t left = it->count; left > 0;) {
        left -= done_of(it->program, events, left < it->batch ? left : it->batch);
    }
}

static void *give_all(void *context)
{
    give_letters(context, 1);
    return NULL;
}

static void one_way(const char *url, giving it)
{
    pthread_t thread;
    markring_remote *receiver = open_program(url, 1);
    it.program = open_program(url, 0);
    double began = seconds();
    must(pthread_create(&thread, NULL, give_all, &it), "thread");
    accept_letters(receiver, it.count, it.bytes);
    pthread_join(thread, NULL);
    printf("%f\n", seconds() - began);
}

static void there_and_back(const char *url, size_t count)
{
    markring_remote *ends[2] = {open_program(url, 0), open_program(url, 1)};
    double began = seconds();
    for (size_t i = 0; i < count; i++) {
        for (uint8_t from = 0; from < 2; from++) {
            give_letters(&(giving){ends[from], 1, 1, false, 0}, (uint8_t)(1 - from));
            accept_letters(ends[1 - from], 1, 0);
        }
    }
    printf("%f\n", seconds() - began);
}

static void reply(natsConnection *connection, natsSubscription *from, natsMsg *it, void *closure)
{
    (void)from;
    (void)closure;
    natsConnection_Publish(
        connection, natsMsg_GetReply(it), natsMsg_GetData(it), natsMsg_GetDataLength(it));
    natsMsg_Destroy(it);
}

static natsConnection *connect_nats(const char *url)
{
    natsConnection *it = NULL;
    natsOptions *options = NULL;
    must(natsOptions_Create(&options), "options");
    must(natsOptions_SetURL(options, url), "url");
    must(natsOptions_SetSendAsap(options, true), "options");
    must(natsConnection_Connect(&it, options), "connect");
    return it;
}

static void request_and_reply(const char *url, size_t count)
{
    natsSubscription *subscription = NULL;
    natsConnection *server = connect_nats(url), *client = connect_nats(url);
    must(natsConnection_Subscribe(&subscription, server, "echo", reply, NULL), "subscribe");
    must(natsConnection_Flush(server), "flush");
    double began = seconds();
    for (size_t i = 0; i < count; i++) {
        char data[64] = {0};
        natsMsg *answer = NULL;
        must(
            natsConnection_Request(&answer, client, "echo", data, sizeof data, TIMEOUT), "request");
        natsMsg_Destroy(answer);
    }
    printf("%f\n", seconds() - began);
}

static void publish(const char *url, size_t count, size_t length)
{
    natsSubscription *subscription = NULL;
    natsConnection *receiver = connect_nats(url), *sender = connect_nats(url);
    must(natsConnection_SubscribeSync(&subscription, receiver, "bytes"), "subscribe");
    must(natsSubscription_SetPendingLimits(subscription, -1, -1), "limits");
    must(natsConnection_Flush(receiver), "flush");
    char *data = calloc(length + 1, 1);
    double began = seconds();
    for (size_t sent = 0, came = 0; came < count;) {
        // (not more at once, or the server takes the receiver for a slow one)
        for (; sent < count && (sent - came) * (length + 64) < 1000000; sent++) {
            must(natsConnection_Publish(sender, "bytes", data, (int)length), "publish");
        }
        natsMsg *message = NULL;
        must(natsSubscription_NextMsg(&message, subscription, TIMEOUT), "message");
        natsMsg_Destroy(message);
        came++;
    }
    printf("%f\n", seconds() - began);
}

static void write_and_sync(const char *folder, size_t count, size_t length)
{
    char path[512];
    char *data = calloc(length, 1);
    snprintf(path, sizeof path, "%s/floor", folder);
    int file = open(path, O_RDWR | O_CREAT, 0600);
    must(file < 0 || data == NULL, "open");
    // The first sync also waits for the file system to note the new file.
    must(pwrite(file, data, length, 0) != (ssize_t)length || fsync(file) != 0, "write");
    double began = seconds();
    for (size_t i = 0; i < count; i++) {
        data[0] = (char)i;
        must(pwrite(file, data, length, 0) != (ssize_t)length || fdatasync(file) != 0, "write");
    }
    printf("%f\n", seconds() - began);
    unlink(path);
}

int main(int count, char **given)
{
    if (count < 4) {
        return 2;
    }
    size_t first = strtoul(given[3], NULL, 10),
           second = count > 4 ? strtoul(given[4], NULL, 10) : 0,
           third = count > 5 ? strtoul(given[5], NULL, 10) : 0;
    if (strcmp(given[2], "one-way") == 0) {
        one_way(given[1], (giving){NULL, first, second, false, 0});
    } else if (strcmp(given[2], "posts") == 0) {
        one_way(given[1], (giving){NULL, first, second, true, (uint32_t)third});
    } else if (strcmp(given[2], "publish") == 0) {
        publish(given[1], first, second);
    } else if (strcmp(given[2], "round") == 0) {
        there_and_back(given[1], first);
    } else if (strcmp(given[2], "nats") == 0) {
        request_and_reply(given[1], first);
    } else {
        write_and_sync(given[1], first, second);
    }
    return 0;
}
