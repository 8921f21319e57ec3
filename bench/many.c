// A list of many objects on three heaps: node 0 of a wide space of two (MARKRING), malloc (MALLOC),
// and Boehm's collector (BOEHM). bench/wide compiles it for each.
//
//     many OBJECTS FOLDER
//
// Each object has two places, for the next object and itself, and a word. The node is saved by
// batches of 10,000 objects, which go to a file in FOLDER behind an image; nothing is synced. Then
// its objects are marked, an image is taken, and the file is opened again. It prints a line for
// each step, with its seconds of processor time and the megabytes that the process then has.
#define _POSIX_C_SOURCE 200809L
#include <stdint.h>
#include <stdio.h>
#include <stdlib.h>
#include <string.h>
#include <time.h>
#include <unistd.h>

static double began;

static double seconds(void)
{
    struct timespec it;
    clock_gettime(CLOCK_PROCESS_CPUTIME_ID, &it);
    return (double)it.tv_sec + 1e-9 * (double)it.tv_nsec;
}

// Prints what a step took, and begins the next one.
static void step(const char *name)
{
    double took = seconds() - began;
    long pages = 0;
    FILE *file = fopen("/proc/self/statm", "r");
    if (file == NULL || fscanf(file, "%*d %ld", &pages) != 1) {
        exit(1);
    }
    fclose(file);
    printf("%s\t%.2f\t%ld\n", name, took, pages * (sysconf(_SC_PAGESIZE) / 1024) / 1024);
    began = seconds();
}

#ifdef MARKRING

#include <markring.h>

enum { TOGETHER = 10000, SLOTS = 16777216 };
enum { LIST = 0, NEW = 1 };

static markring_node node;
static markring_answer answer;
static uint8_t batch[1 << 20];

static void must(int status, const char *call)
{
    if (status != MARKRING_OK) {
        fprintf(stderr, "many: %s: %s\n", call, markring_status_text(status));
        exit(1);
    }
}

#define MUST(call) must((call), #call)

static void make(uint32_t number)
{
    MUST(markring_node_alloc(&node, NEW, 2, &answer));
    MUST(markring_node_set_word(&node, NEW, number, &answer));
    MUST(markring_node_store(&node, NEW, 0, LIST, &answer));
    MUST(markring_node_store(&node, NEW, 1, NEW, &answer));
    MUST(markring_node_copy(&node, LIST, NEW, &answer));
}

static void save_batch(FILE *file)
{
    size_t length;
    uint64_t mark;
    MUST(markring_node_batch(&node, batch, sizeof batch, &length, &mark));
    if (fwrite(batch, 1, length, file) != length || fflush(file) != 0) {
        exit(1);
    }
    MUST(markring_node_kept(&node, mark));
}

// The node's image.
static uint8_t *image(size_t *length)
{
    uint64_t mark;
    size_t size;
    MUST(markring_node_image_size(&node, &size));
    uint8_t *bytes = malloc(size);
    MUST(markring_node_image(&node, bytes, size, length, &mark));
    MUST(markring_node_kept(&node, mark));
    return bytes;
}

static void mark_all(uint32_t objects)
{
    markring_work work;
    MUST(markring_node_begin(&node, &answer));
    MUST(markring_node_work(&node, UINT32_MAX, 0, &work));
    if (work.scanned != objects) {
        exit(1);
    }
}

// Opens the node of an image and of the batches in the file.
static void open_again(const uint8_t *first, size_t length, FILE *file, uint32_t objects)
{
    markring_state state;
    size_t size = (size_t)ftell(file);
    uint8_t *batches = malloc(size + 1);
    if (fseek(file, 0, SEEK_SET) != 0 || fread(batches, 1, size, file) != size) {
        exit(1);
    }
    MUST(markring_node_from_batches(&node, first, length, batches, size, 0));
    free(batches);
    MUST(markring_node_state(&node, &state));
    if (state.live != objects) {
        exit(1);
    }
}

static void run(uint32_t objects, const char *folder)
{
    char path[4096];
    size_t length, last_length;
    snprintf(path, sizeof path, "%s/batches", folder);
    FILE *file = fopen(path, "w+");
    markring_shape shape = {.nodes = 2, .registers = 2, .slots = SLOTS, .places = 2, .wide = 1};
    if (file == NULL) {
        exit(1);
    }
    MUST(markring_node_make(&node, &shape, 0, 0));
    MUST(markring_node_alloc(&node, LIST, 2, &answer));
    MUST(markring_node_log(&node, 1));
    uint8_t *first = image(&length);
    for (uint32_t i = 1; i < objects; i++) {
        make(i);
        if (i % TOGETHER == 0 || i + 1 == objects) {
            save_batch(file);
        }
    }
    MUST(markring_node_drop(&node, NEW, &answer));
    step("making and saving by batches");
    mark_all(objects);
    step("marking");
    uint8_t *last = image(&last_length);
    step("saving an image");
    MUST(markring_node_free(&node));
    step("freeing");
    open_again(first, length, file, objects);
    step("opening from batches");
    MUST(markring_node_free(&node));
    began = seconds();
    MUST(markring_node_from_batches(&node, last, last_length, batch, 0, 0));
    step("opening from an image");
    fclose(file);
}

#else

#ifdef BOEHM
#include <gc/gc.h>
#define NEW(type) ((type *)GC_MALLOC(sizeof(type)))
#else
#define NEW(type) ((type *)malloc(sizeof(type)))
#endif

typedef struct object {
    struct object *next, *self;
    uint64_t word;
} object;

static object *list;

static void run(uint32_t objects, const char *folder)
{
    (void)folder;
#ifdef BOEHM
    GC_INIT();
#endif
    for (uint32_t i = 0; i < objects; i++) {
        object *it = NEW(object);
        if (it == NULL) {
            exit(1);
        }
        *it = (object){list, it, i};
        list = it;
    }
    step("making");
#ifdef BOEHM
    GC_gcollect();
    step("marking");
#else
    while (list != NULL) {
        object *next = list->next;
        free(list);
        list = next;
    }
    step("freeing");
#endif
}

#endif

int main(int count, char **given)
{
    if (count != 3) {
        return 2;
    }
    began = seconds();
    run((uint32_t)strtoul(given[1], NULL, 10), given[2]);
    return 0;
}
