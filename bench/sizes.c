// Objects of one size on three heaps: node 0 of a wide space of two (MARKRING), malloc (MALLOC), and
// Boehm's collector (BOEHM). bench/wide compiles it for each.
//
//     sizes PLACES BYTES SHAPE_PLACES SHAPE_BYTES
//
// All objects are held: by registers, or by an array. It prints what an object costs, in nanoseconds
// of processor time, in this order:
//
// - to make it;
// - to read it and to overwrite it: all its bytes, or a place if it has none;
// - to scan it, or its part of a whole collection;
// - to save it in an image, and in a batch of ten.
//
// Then come the bytes that it takes in memory and in an image. What a heap doesn't have is 0.
#define _POSIX_C_SOURCE 200809L
#include <stdint.h>
#include <stdio.h>
#include <stdlib.h>
#include <string.h>
#include <time.h>
#include <unistd.h>

enum { MOST = 50000, ROOM = 200000000, SMALLEST = 100, ROUNDS = 5, SAVES = 100, TOGETHER = 10 };

typedef struct costs {
    double make, read, write, scan, image, batch, memory, image_bytes;
} costs;

static uint32_t places, bytes, objects;
static uint8_t *data, *buffer;

static double time_of(clockid_t clock)
{
    struct timespec it;
    clock_gettime(clock, &it);
    return 1e9 * (double)it.tv_sec + (double)it.tv_nsec;
}

static double now(void)
{
    return time_of(CLOCK_PROCESS_CPUTIME_ID);
}

// The memory of the process, in bytes.
static double memory(void)
{
    long pages = 0;
    FILE *file = fopen("/proc/self/statm", "r");
    if (file == NULL || fscanf(file, "%*d %ld", &pages) != 1) {
        exit(1);
    }
    fclose(file);
    return (double)pages * (double)sysconf(_SC_PAGESIZE);
}

// The object that a place of an object refers to.
static uint32_t target(uint32_t object, uint32_t place)
{
    return (object + place + 1) % objects;
}

#ifdef MARKRING

#include <markring.h>

enum { REGISTERS = 65535, SLOTS = 100000, SCRATCH = REGISTERS - 1 };

static markring_node node;
static markring_answer answer;

static void must(int status, const char *call)
{
    if (status != MARKRING_OK) {
        fprintf(stderr, "sizes: %s: %s\n", call, markring_status_text(status));
        exit(1);
    }
}

#define MUST(call) must((call), #call)

static void begin(char **shape)
{
    markring_shape it = {.nodes = 2, .registers = REGISTERS, .slots = SLOTS, .wide = 1};
    it.places = (uint8_t)atoi(shape[0]);
    it.bytes = (uint32_t)atoi(shape[1]);
    MUST(markring_node_make(&node, &it, 0, 0));
}

static void make(uint32_t object)
{
    MUST(markring_node_alloc(&node, (uint16_t)object, (uint8_t)places, &answer));
    if (bytes > 0) {
        MUST(markring_node_set_bytes(&node, (uint16_t)object, data, bytes, &answer));
    }
}

static void store(uint32_t object, uint32_t place, uint32_t value)
{
    MUST(markring_node_store(&node, (uint16_t)object, (uint8_t)place, (uint16_t)value, &answer));
}

static void load(uint32_t object, uint32_t place)
{
    MUST(markring_node_load(&node, SCRATCH, (uint16_t)object, (uint8_t)place, &answer));
}

static void read_bytes(uint32_t object)
{
    size_t needed;
    MUST(markring_node_bytes(&node, (uint16_t)object, 0, bytes, buffer, bytes, &needed));
}

static void write_bytes(uint32_t object)
{
    MUST(markring_node_patch(&node, (uint16_t)object, 0, data, bytes, &answer));
}

// Every object is grey once the cycle has begun.
static void scan(costs *it)
{
    uint32_t count = 0;
    MUST(markring_node_begin(&node, &answer));
    double began = now();
    while (markring_node_scan(&node, &answer) == MARKRING_OK) {
        count++;
    }
    it->scan = (now() - began) / objects;
    if (count != objects) {
        exit(1);
    }
}

static void save_image(costs *it)
{
    size_t size, needed;
    uint64_t mark;
    MUST(markring_node_log(&node, 1));
    MUST(markring_node_image_size(&node, &size));
    uint8_t *image = malloc(size);
    memset(image, 0, size);
    double began = now();
    MUST(markring_node_image(&node, image, size, &needed, &mark));
    it->image = (now() - began) / objects;
    it->image_bytes = (double)size / objects;
    MUST(markring_node_kept(&node, mark));
    free(image);
}

static void fill(uint32_t object);

// The least of several batches, by a clock that can be read fast. New objects take the registers of
// old ones.
static void save_batches(costs *it)
{
    static uint8_t batch[1 << 20];
    size_t needed;
    uint64_t mark;
    double least = 1e18;
    for (int save = 0; save < SAVES; save++) {
        for (uint32_t i = 0; i < TOGETHER; i++) {
            make(i);
            fill(i);
        }
        double began = time_of(CLOCK_MONOTONIC);
        MUST(markring_node_batch(&node, batch, sizeof batch, &needed, &mark));
        MUST(markring_node_kept(&node, mark));
        double took = time_of(CLOCK_MONOTONIC) - began;
        least = took < least ? took : least;
    }
    it->batch = least / TOGETHER;
}

static void collect_and_save(costs *it)
{
    scan(it);
    save_image(it);
    save_batches(it);
}

#else

#ifdef BOEHM
#include <gc/gc.h>
#define NEW(size) (places > 0 ? GC_MALLOC(size) : GC_MALLOC_ATOMIC(size))
#else
#define NEW(size) malloc(size)
#endif

typedef struct object {
    uint64_t word;
    struct object *held[];
} object;

static object *all[MOST], *volatile scratch;

static void begin(char **shape)
{
    (void)shape;
#ifdef BOEHM
    GC_INIT();
#endif
}

static void make(uint32_t number)
{
    size_t size = sizeof(object) + places * sizeof(object *);
    all[number] = NEW(size + bytes);
    if (all[number] == NULL) {
        exit(1);
    }
    memset(all[number], 0, size);
    memcpy(&all[number]->held[places], data, bytes);
}

static void store(uint32_t number, uint32_t place, uint32_t value)
{
    all[number]->held[place] = all[value];
}

static void load(uint32_t number, uint32_t place)
{
    scratch = all[number]->held[place];
}

static void read_bytes(uint32_t number)
{
    memcpy(buffer, &all[number]->held[places], bytes);
}

static void write_bytes(uint32_t number)
{
    memcpy(&all[number]->held[places], data, bytes);
}

static void collect_and_save(costs *it)
{
#ifdef BOEHM
    double began = now();
    GC_gcollect();
    it->scan = (now() - began) / objects;
#else
    (void)it;
#endif
}

#endif

static void fill(uint32_t object)
{
    for (uint32_t place = 0; place < places; place++) {
        store(object, place, target(object, place));
    }
}

static void load_all(uint32_t object)
{
    for (uint32_t place = 0; place < places; place++) {
        load(object, place);
    }
}

// The time of a call for every object, for one of them.
static double each(void (*call)(uint32_t))
{
    double began = now();
    for (uint32_t object = 0; object < objects; object++) {
        call(object);
        __asm__ volatile("" ::: "memory");
    }
    return (now() - began) / objects;
}

static double least_of_each(void (*call)(uint32_t))
{
    double least = 1e18;
    for (int round = 0; round < ROUNDS; round++) {
        double took = each(call);
        least = took < least ? took : least;
    }
    return least;
}

int main(int count, char **given)
{
    costs it = {0};
    if (count != 5) {
        return 2;
    }
    places = (uint32_t)atoi(given[1]);
    bytes = (uint32_t)atoi(given[2]);
    objects = ROOM / (SMALLEST + 16 * places + bytes);
    objects = objects < MOST ? objects : MOST;
    data = malloc(bytes + 1);
    buffer = malloc(bytes + 1);
    memset(data, 'x', bytes + 1);
    memset(buffer, 0, bytes + 1);
    begin(given + 3);
    double before = memory();
    it.make = each(make);
    it.memory = (memory() - before) / objects;
    double per = places > 0 ? places : 1;
    it.write = least_of_each(places > 0 ? fill : write_bytes) / per;
    it.read = least_of_each(places > 0 ? load_all : read_bytes) / per;
    collect_and_save(&it);
    printf("%.1f %.1f %.1f %.1f %.1f %.1f %.0f %.0f\n", it.make, it.read, it.write, it.scan, it.image,
        it.batch, it.memory, it.image_bytes);
    return 0;
}
