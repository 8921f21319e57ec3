// The floor under a request to a node in a process: what NATS and the disk take without a node.
//
//     floor URL nats SECONDS      requests of 64 bytes, one after another, to a process that sends
//                                 them back
//     floor FOLDER disk SECONDS   a write of 64 bytes behind those before it, and a sync
//
// It prints a row like that of requests.c.
#define _GNU_SOURCE
#include "quantiles.h"

#include <nats/nats.h>

#include <fcntl.h>
#include <signal.h>
#include <string.h>
#include <sys/prctl.h>
#include <sys/wait.h>
#include <unistd.h>

enum { BYTES = 64, ROOM = 65536, SAMPLES = 1 << 22, WAIT = 20000 };

static const char SUBJECT[] = "floor";
static double took[SAMPLES];

static void must(int is_done, const char *what)
{
    if (!is_done) {
        fprintf(stderr, "floor: %s failed\n", what);
        exit(1);
    }
}

// As the host connects.
static natsConnection *connect_nats(const char *url)
{
    natsConnection *it = NULL;
    natsOptions *options = NULL;
    must(natsOptions_Create(&options) == NATS_OK && natsOptions_SetURL(options, url) == NATS_OK
            && natsOptions_SetSendAsap(options, true) == NATS_OK
            && natsConnection_Connect(&it, options) == NATS_OK,
        "connecting");
    natsOptions_Destroy(options);
    return it;
}

static void reply(natsConnection *connection, natsSubscription *from, natsMsg *it, void *closure)
{
    (void)from;
    (void)closure;
    natsConnection_Publish(
        connection, natsMsg_GetReply(it), natsMsg_GetData(it), natsMsg_GetDataLength(it));
    natsMsg_Destroy(it);
}

// Sends back what comes, until the process that made this one ends it.
static void serve(const char *url, int ready)
{
    natsSubscription *all = NULL;
    prctl(PR_SET_PDEATHSIG, SIGKILL);
    natsConnection *at = connect_nats(url);
    must(natsConnection_Subscribe(&all, at, SUBJECT, reply, NULL) == NATS_OK
            && natsConnection_Flush(at) == NATS_OK,
        "subscribing");
    must(write(ready, "", 1) == 1, "a pipe");
    for (;;) {
        pause();
    }
}

static size_t measure_nats(const char *url, double seconds)
{
    int ready[2];
    char byte, bytes[BYTES] = {0};
    must(pipe(ready) == 0, "a pipe");
    pid_t other = fork();
    must(other >= 0, "fork");
    if (other == 0) {
        serve(url, ready[1]);
    }
    close(ready[1]);
    must(read(ready[0], &byte, 1) == 1, "the other process");
    natsConnection *at = connect_nats(url);
    size_t done = 0;
    for (double end = now_ms() + 1e3 * seconds; now_ms() < end && done < SAMPLES; done++) {
        natsMsg *answer = NULL;
        double began = now_ms();
        must(natsConnection_Request(&answer, at, SUBJECT, bytes, BYTES, WAIT) == NATS_OK,
            "a request");
        took[done] = now_ms() - began;
        natsMsg_Destroy(answer);
    }
    kill(other, SIGKILL);
    waitpid(other, NULL, 0);
    return done;
}

// Writes in a file that isn't lengthened, as most saves do.
static size_t measure_disk(const char *folder, double seconds)
{
    static const char zeros[ROOM];
    char name[4096], bytes[BYTES];
    snprintf(name, sizeof name, "%s/floor", folder);
    int file = open(name, O_RDWR | O_CREAT | O_TRUNC | O_CLOEXEC, 0600);
    must(file >= 0 && write(file, zeros, ROOM) == ROOM && fsync(file) == 0, "a file");
    size_t done = 0;
    for (double end = now_ms() + 1e3 * seconds; now_ms() < end && done < SAMPLES; done++) {
        memset(bytes, (int)done, BYTES);
        double began = now_ms();
        must(pwrite(file, bytes, BYTES, (off_t)(done * BYTES % ROOM)) == BYTES
                && fdatasync(file) == 0,
            "a sync");
        took[done] = now_ms() - began;
    }
    close(file);
    unlink(name);
    return done;
}

int main(int count, char **given)
{
    bool is_nats = count == 4 && strcmp(given[2], "nats") == 0;
    if (!is_nats && (count != 4 || strcmp(given[2], "disk") != 0)) {
        fputs("usage: floor URL nats SECONDS\n       floor FOLDER disk SECONDS\n", stderr);
        return 2;
    }
    double seconds = atof(given[3]);
    size_t done =
        is_nats ? measure_nats(given[1], seconds) : measure_disk(given[1], seconds);
    print_times(is_nats ? "floor of NATS" : "floor of a sync", took, done);
    return 0;
}
