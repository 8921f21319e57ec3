// The programs of a node, for whoever writes a host of their own around the nodes of markring.h:
// which process speaks for a program, which of its requests is performed, and which answer may
// leave. These decisions are proved (crate `programs`). libmarkring-host makes them by these calls,
// and docs/PROCESSES.md ("Programs") says what they mean to programs. C11, or C++.
//
// A process that speaks for a program has a session, a random number: to a node, two processes with
// one session are one. Its first packet is an opening, whose number is one more than how many
// processes have opened the program. Then its requests follow, each with the next number. Packets
// may be lost, repeated and late, and may come from anybody.
//
// # What a host owes
//
// - It keeps a markring_program, which begins as {0}, for each program of a node, changes it by
//   these calls alone, and stores it with the node: one save holds both as they are when it
//   begins. It stores the results of the last request, too. A process that goes on begins with
//   what is stored.
// - It performs the events of a request only if markring_program_judge_request says that it is the
//   next one, and calls markring_program_perform before it takes any other packet. If memory is
//   short or the bytes aren't events, it may do neither.
// - It keeps a markring_images for each process that runs the node, which begins as {0}, and
//   changes it by these calls alone. It calls markring_images_change whenever the node or a program
//   changes. It takes an image or a batch for a save only if markring_images_may_begin says 1, and
//   calls markring_images_begin before anything else happens. It calls markring_images_stored or
//   markring_images_failed when it knows what became of the save.
// - For each answer it asks markring_images_due when it has made the answer. For an answer to a
//   request that was performed, it asks that when the program has last changed. The answer leaves
//   only once markring_images_may_leave says 1.
//
// Then the requests of a program are performed once and in order, and nothing that an answer has
// shown is taken back. An earlier process that comes late is refused. So it is whatever is lost,
// repeated, late or forged, and whenever the process ends (`programs::laws`).
//
// These calls can't fail, take any numbers, and take no memory. Each pointer is valid and isn't
// null. One thread at a time uses a
// struct.
#ifndef MARKRING_PROGRAMS_H
#define MARKRING_PROGRAMS_H

#include <stdint.h>

#ifdef __cplusplus
extern "C" {
#endif

typedef struct markring_program {
    // That of the process that speaks for the program; 0 before the first opening.
    uint64_t session;
    // How many processes have opened it.
    uint64_t round;
    // The number of the last request that was performed.
    uint64_t number;
} markring_program;

// The session of a program that markring_program_forget was called for. No process has it, nor 0.
#define MARKRING_PROGRAM_FORGOTTEN UINT64_MAX

// What an opening or a request is.
enum markring_program_verdict {
    // The next one. An opening: its process begins to speak for the program, and those before it no
    // longer do.
    MARKRING_PROGRAM_NEXT = 0,
    // It was taken before, and is answered again: the last request, or an opening of the process
    // that speaks for the program.
    MARKRING_PROGRAM_REPEATED = 1,
    // Its number was used. An opening: its number isn't the next one.
    MARKRING_PROGRAM_STALE = 2,
    // The number of the request is above the next one.
    MARKRING_PROGRAM_AHEAD = 3,
    // The process doesn't speak for the program.
    MARKRING_PROGRAM_SUPERSEDED = 4,
    // The session of the opening is that of no process. Or the number of the request is 0.
    MARKRING_PROGRAM_MALFORMED = 5
};

// What an opening is.
int markring_program_judge_opening(
    const markring_program *program, uint64_t session, uint64_t number);

// The same, and takes the opening if it is the next one. No other changes anything.
int markring_program_open(markring_program *program, uint64_t session, uint64_t number);

// What a request is.
int markring_program_judge_request(
    const markring_program *program, uint64_t session, uint64_t number);

// The same, and notes that the request was performed if it is the next one. No other changes
// anything.
int markring_program_perform(markring_program *program, uint64_t session, uint64_t number);

// 1 if the process with this session speaks for the program, else 0.
int markring_program_speaks_for(const markring_program *program, uint64_t session);

// Nobody speaks for the program until it is opened again.
void markring_program_forget(markring_program *program);

// The images that a process takes of its node for saves, each with a number, from 1 on.
typedef struct markring_images {
    // The number of the last one that was taken.
    uint64_t taken;
    // That of the last one of which is known that it is stored; 0 before the first one.
    uint64_t kept;
    // 1 if something has changed since the last one was taken, or that couldn't be stored; else 0.
    uint8_t changed;
    // 1 while the last one is being saved, else 0.
    uint8_t saving;
} markring_images;

// Something has changed.
void markring_images_change(markring_images *images);

// 1 if a save may begin, else 0: something has changed, no save is under way, and a number is left
// (of 2^64 - 2).
int markring_images_may_begin(const markring_images *images);

// The same. If it is 1, the save has begun: its image is the next one.
int markring_images_begin(markring_images *images);

// The save that was under way is stored, or has failed. Without one, nothing happens.
void markring_images_stored(markring_images *images);
void markring_images_failed(markring_images *images);

// The number of the image that will hold all that has happened so far.
uint64_t markring_images_due(const markring_images *images);

// 1 if an answer may leave that shows what the image `due` holds, else 0.
int markring_images_may_leave(const markring_images *images, uint64_t due);

#ifdef __cplusplus
}
#endif

#endif
