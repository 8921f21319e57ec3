// Times saves of a host over a store in files, by batches and whole: requests of 1, 16 and 256
// events on a node with this many objects. It counts the bytes and the syncs of each save.
//
//     saved FOLDER OBJECTS TIMES
//
// It is compiled with host/{host,saved,taking,sending,programs,packets,store,files}.c, and linked
// with libmarkring.a. The time of a request goes from its first event to the end of its save; what
// is printed is the median.
#include "host.h"
#include "store.h"

#include <stdio.h>
#include <stdlib.h>
#include <time.h>

static store_calls counted;
static uint64_t written, syncs, now;
static store at;
static host *it;

static int64_t write_counted(
    void *context, int file, const uint8_t *bytes, size_t length, uint64_t offset)
{
    int64_t done = STORE_SYSTEM.write_at(context, file, bytes, length, offset);
    written += done > 0 ? (uint64_t)done : 0;
    return done;
}

static int sync_counted(void *context, int file)
{
    syncs++;
    return STORE_SYSTEM.sync(context, file);
}

static void must(int status, const char *call)
{
    if (status != 0) {
        fprintf(stderr, "%s: status %d\n", call, status);
        exit(1);
    }
}

#define MUST(call) must((int)(call), #call)

static void send_packet(void *context, uint8_t to, const uint8_t *bytes, size_t length)
{
    (void)context;
    (void)to;
    (void)bytes;
    (void)length;
}

static void send_answer(void *context, const char *reply, const uint8_t *bytes, size_t length)
{
    (void)context;
    (void)reply;
    (void)bytes;
    (void)length;
}

static void save(void *context, store_value *value)
{
    (void)context;
    store_status status = store_save(&at, value);
    host_saved(it, now, status, at.state.number);
}

static double seconds(void)
{
    struct timespec time;
    clock_gettime(CLOCK_MONOTONIC, &time);
    return (double)time.tv_sec + 1e-9 * (double)time.tv_nsec;
}

static int compare(const void *a, const void *b)
{
    double x = *(const double *)a, y = *(const double *)b;
    return (x > y) - (x < y);
}

static void request(int events)
{
    markring_answer answer;
    for (int i = 0; i < events; i++) {
        MUST(markring_node_set_word(host_node(it), 0, (uint64_t)i, &answer));
        host_changed(it);
    }
    now += 200;
    host_turn(it, now);
}

static void measure(const char *way, uint32_t objects, int events, int times)
{
    double *took = malloc((size_t)times * sizeof *took);
    written = syncs = 0;
    for (int i = 0; i < times; i++) {
        double began = seconds();
        request(events);
        took[i] = seconds() - began;
    }
    qsort(took, (size_t)times, sizeof *took, compare);
    printf("%u objects, %s, %d events: %.0f bytes, %.2f syncs, %.3f ms (least %.3f, most %.3f)\n",
        objects, way, events, (double)written / times, (double)syncs / times,
        1e3 * took[times / 2], 1e3 * took[0], 1e3 * took[times - 1]);
    free(took);
}

int main(int count, char **given)
{
    markring_answer answer;
    if (count != 4) {
        fputs("usage: saved FOLDER OBJECTS TIMES\n", stderr);
        return 2;
    }
    uint32_t objects = (uint32_t)strtoul(given[2], NULL, 10);
    int times = atoi(given[3]);
    host_shape shape = {.name = "saved", .own = 1, .nodes = 2, .registers = 4, .slots = 1048576};
    host_options options = {.image_most = 67108864};
    host_calls calls = {NULL, send_packet, send_answer, save};
    store_value value = {NULL, 0, 0, false, 0, 0};
    counted = STORE_SYSTEM;
    counted.write_at = write_counted;
    counted.sync = sync_counted;
    MUST(host_create(&shape, &value));
    MUST(store_create(&at, &counted, given[1], &value));
    MUST(host_open(&it, &value, at.state.number, 1000, &options, &calls, now));
    free(value.buffer);
    for (uint32_t i = 0; i < objects; i++) {
        MUST(markring_node_alloc(host_node(it), 0, 1, &answer));
        host_changed(it);
        if (i % 100000 == 0) {
            request(0);
        }
    }
    request(1);
    for (int events = 1; events <= 256; events *= 16) {
        measure("by batches", objects, events, times);
    }
    // Without a log each save is a whole value, as before there were batches.
    MUST(markring_node_log(host_node(it), 0));
    for (int events = 1; events <= 256; events *= 16) {
        measure("whole", objects, events, times < 20 || objects < 10000 ? times : 20);
    }
    host_free(it);
    store_close(&at);
    return 0;
}
