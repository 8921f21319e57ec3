// Two nodes in two processes, which exchange packets over a Unix socket: each has its own loop, and
// libmarkring-host does the rest. Node 1 gets an object of node 0 and drops it; a cycle frees it.
//
//     cc pair.c $(pkg-config --cflags --libs markring-host) && ./a.out PLACE PLACE
//
// A place is a folder, or the address of a node in a database with the schema of markring:
// postgresql://USER@HOST/DATABASE. What a program does is durable once its save was stored. If a
// process crashes, start it again on its place: markring_place_open in place of markring_host_create
// and markring_place_create.
#define _GNU_SOURCE
#include <markring_host.h>

#include <poll.h>
#include <stdio.h>
#include <stdlib.h>
#include <sys/random.h>
#include <sys/socket.h>
#include <sys/wait.h>
#include <time.h>
#include <unistd.h>

enum { NODES = 2, PACKET = 1 << 16, LABEL = 7, LONGEST = 1000 };

typedef struct member {
    uint8_t own;
    int socket;
    markring_place *place;
    markring_host *host;
} member;

static void must(int status, const char *call)
{
    if (status != 0) {
        fprintf(stderr, "%s: status %d\n", call, status);
        exit(1);
    }
}

#define MUST(call) must((int)(call), #call)

// Milliseconds of a clock that never goes back.
static uint64_t now(void)
{
    struct timespec at;
    clock_gettime(CLOCK_MONOTONIC, &at);
    return (uint64_t)at.tv_sec * 1000 + (uint64_t)at.tv_nsec / 1000000;
}

// ## What the host asks for

// Between two nodes there is one socket. A packet that finds no room in it is lost, and sent again.
static void send_packet(void *context, uint8_t to, const uint8_t *bytes, size_t length)
{
    const member *it = context;
    (void)to;
    (void)send(it->socket, bytes, length, MSG_DONTWAIT | MSG_NOSIGNAL);
}

// No other program sends requests here.
static void send_answer(void *context, const char *reply, const uint8_t *bytes, size_t length)
{
    (void)context;
    (void)reply;
    (void)bytes;
    (void)length;
}

// Saves at once. A program with other work lets a thread do this, and says later that it is done.
static void save(void *context, markring_store_value *value)
{
    member *it = context;
    markring_store_status status = markring_place_save(it->place, value);
    markring_host_saved(it->host, now(), status, markring_place_number(it->place));
}

// ## A node

static void create_and_open(member *it, const char *where)
{
    markring_host_shape shape = {
        .name = "pair", .own = it->own, .nodes = NODES, .registers = 4, .slots = 16};
    markring_host_options options = {.cycle_every = 100};
    markring_host_calls calls = {it, send_packet, send_answer, save, NULL};
    markring_store_value value = {0};
    uint64_t nonce;
    must(getrandom(&nonce, sizeof nonce, 0) != (ssize_t)sizeof nonce, "getrandom");
    MUST(markring_host_create(&shape, &value));
    must((int)markring_place_create(&it->place, where, &value), markring_place_text(it->place));
    MUST(markring_host_open(&it->host, &value, markring_place_number(it->place), nonce | 1, &options,
        &calls, now()));
    free(value.buffer);
}

static uint64_t least_of(uint64_t a, uint64_t b)
{
    return a < b ? a : b;
}

// One round of the loop: waits for packets, at most as long as host and place may, and takes a turn.
static void go_round(member *it)
{
    static uint8_t packet[PACKET];
    struct pollfd ready = {it->socket, POLLIN, 0};
    uint64_t wait = least_of(markring_host_wait(it->host, now()), markring_place_wait(it->place));
    (void)poll(&ready, 1, (int)least_of(wait, LONGEST));
    ssize_t length = recv(it->socket, packet, sizeof packet, MSG_DONTWAIT);
    if (length > 0) {
        markring_host_packet(
            it->host, now(), (uint8_t)(1 - it->own), packet, (size_t)length);
    }
    if (markring_place_renew(it->place) == MARKRING_STORE_TAKEN) {
        markring_host_taken(it->host);
    }
    markring_host_turn(it->host, now());
}

static uint32_t objects(member *it)
{
    markring_state state;
    MUST(markring_node_state(markring_host_node(it->host), &state));
    return state.live;
}

// ## The programs, which call their node between two turns

static void give_and_wait(member *it)
{
    markring_answer answer;
    markring_node *node = markring_host_node(it->host);
    MUST(markring_node_alloc(node, 0, 0, &answer));
    MUST(markring_node_give(node, 1, LABEL, 0, &answer));
    MUST(markring_node_drop(node, 0, &answer));
    markring_host_changed(it->host);
    while (objects(it) > 0) {
        go_round(it);
    }
    puts("node 0: it is gone");
}

static void accept_and_drop(member *it)
{
    markring_answer answer;
    markring_node *node = markring_host_node(it->host);
    while (markring_node_accept(node, 0, &answer) != MARKRING_OK) {
        go_round(it);
    }
    printf("node 1: an object of node %d, with label %u\n", answer.reference.node,
        (unsigned)answer.label);
    MUST(markring_node_drop(node, 0, &answer));
    markring_host_changed(it->host);
}

// Runs a node until its program is done; node 1 runs on until the socket is closed.
static void run(uint8_t own, int socket, const char *where)
{
    member it = {.own = own, .socket = socket};
    char end;
    create_and_open(&it, where);
    if (own == 0) {
        give_and_wait(&it);
    } else {
        accept_and_drop(&it);
    }
    while (own == 1 && recv(socket, &end, 1, MSG_PEEK | MSG_DONTWAIT) != 0) {
        go_round(&it);
    }
    markring_host_leave(it.host);
    while (markring_host_ended(it.host) == MARKRING_HOST_RUNS) {
        go_round(&it);
    }
    printf("node %d: %s\n", own, markring_host_reason(it.host));
    markring_host_free(it.host);
    markring_place_close(it.place);
}

int main(int count, char **given)
{
    int sockets[2], status = 0;
    if (count != 3) {
        fputs("usage: pair PLACE PLACE\n", stderr);
        return 2;
    }
    // Two processes print: each line goes out at once.
    setvbuf(stdout, NULL, _IOLBF, 0);
    MUST(socketpair(AF_UNIX, SOCK_SEQPACKET, 0, sockets));
    pid_t child = fork();
    must(child < 0, "fork");
    uint8_t own = child == 0;
    close(sockets[1 - own]);
    run(own, sockets[own], given[1 + own]);
    close(sockets[own]);
    if (child > 0) {
        waitpid(child, &status, 0);
    }
    return status != 0;
}
