// A file for each object, which is removed once the object is freed. Each is removed once, and none
// too early, also if the process is killed at any moment.
//
//     cc examples/files/files.c $(pkg-config --cflags --libs markring) -o files && ./files FOLDER STEPS SEED
//
// A file is made before the image that first has its object is stored, and removed once an image is
// stored that hasn't the object any more. After a kill, the files of objects that the stored image
// hasn't are removed.
#include <markring.h>

#include <dirent.h>
#include <fcntl.h>
#include <inttypes.h>
#include <stdio.h>
#include <stdlib.h>
#include <string.h>
#include <sys/stat.h>
#include <unistd.h>

enum { REGISTERS = 8, SLOTS = 256, ROOM = 64, NAME = 64, IMAGE = 1 << 20 };

static markring_node node;
static markring_answer answer;
static uint8_t image[IMAGE];

// Ends the program unless the call succeeded.
static void must(int is_ok, const char *call)
{
    if (!is_ok) {
        fprintf(stderr, "%s failed\n", call);
        exit(1);
    }
}

#define MUST(call) must((call) == MARKRING_OK, #call)
#define SYSTEM(call) must((call) >= 0, #call)

static void name_file(char *name, const markring_ref *object)
{
    snprintf(name, NAME, "%" PRIu32 ".%" PRIu64, object->slot, object->generation);
}

static void make_file(const markring_ref *object)
{
    char name[NAME];
    name_file(name, object);
    int file = open(name, O_CREAT | O_EXCL | O_WRONLY, 0644);
    SYSTEM(file);
    SYSTEM(close(file));
}

// Stores the image in place of the one before.
static void store(size_t length)
{
    int file = open("../new", O_CREAT | O_TRUNC | O_WRONLY, 0644);
    SYSTEM(file);
    must(write(file, image, length) == (ssize_t)length, "write");
    SYSTEM(fsync(file));
    SYSTEM(close(file));
    SYSTEM(rename("../new", "../node"));
}

// Saves the node, and removes the files of what is gone for good.
static void save(void)
{
    markring_freed gone[ROOM];
    size_t length, count;
    uint64_t mark;
    MUST(markring_node_image(&node, image, sizeof image, &length, &mark));
    store(length);
    MUST(markring_node_kept(&node, mark));
    do {
        MUST(markring_node_freed(&node, gone, ROOM, &count));
        for (size_t i = 0; i < count; i++) {
            char name[NAME];
            name_file(name, &gone[i].reference);
            SYSTEM(unlink(name));
        }
    } while (count == ROOM);
}

// Removes the files whose objects the node hasn't. Returns how many are left.
static uint32_t remove_others(void)
{
    uint32_t files = 0;
    DIR *folder = opendir(".");
    must(folder != NULL, "opendir");
    for (struct dirent *at = readdir(folder); at != NULL; at = readdir(folder)) {
        markring_object object;
        uint32_t slot;
        uint64_t generation;
        if (sscanf(at->d_name, "%" SCNu32 ".%" SCNu64, &slot, &generation) != 2) {
            continue;
        }
        int status = markring_node_object(&node, slot, &object);
        if (status == MARKRING_OK && object.reference.generation == generation) {
            files++;
        } else {
            SYSTEM(unlink(at->d_name));
        }
    }
    closedir(folder);
    return files;
}

// Opens the node that was stored last, or makes one. Each of its objects must have its file.
static void begin(void)
{
    markring_shape shape = {.nodes = 2, .registers = REGISTERS, .slots = SLOTS, .places = 1, .wide = 1};
    markring_state state;
    FILE *file = fopen("../node", "rb");
    if (file == NULL) {
        MUST(markring_node_make(&node, &shape, 0, 0));
    } else {
        size_t length = fread(image, 1, sizeof image, file);
        fclose(file);
        MUST(markring_node_from_image(&node, image, length, 0));
    }
    MUST(markring_node_track_freed(&node, 1));
    MUST(markring_node_state(&node, &state));
    must(remove_others() == state.live, "an object has no file: it was removed too early, or twice; this");
}

// A new object, with its file, in a register. What the register had is lost.
static void make_object(uint16_t reg)
{
    if (markring_node_alloc(&node, reg, 0, &answer) != MARKRING_OK) {
        return; // the node is full until it reclaims
    }
    make_file(&answer.reference);
}

int main(int count, char **words)
{
    must(count == 4, "files FOLDER STEPS SEED");
    srandom((unsigned)atoi(words[3]));
    (void)mkdir(words[1], 0755);
    SYSTEM(chdir(words[1]));
    (void)mkdir("files", 0755);
    SYSTEM(chdir("files"));
    begin();
    for (int i = atoi(words[2]); i > 0; i--) {
        make_object((uint16_t)(random() % REGISTERS));
        if (random() % 8 == 0) {
            (void)markring_node_reclaim(&node, &answer);
        }
        if (random() % 4 == 0) {
            save();
        }
    }
    (void)markring_node_reclaim(&node, &answer);
    save();
    markring_state state;
    MUST(markring_node_state(&node, &state));
    must(remove_others() == state.live, "an object has no file; this");
    printf("%" PRIu32 " objects, each with its file\n", state.live);
    MUST(markring_node_free(&node));
    return 0;
}
