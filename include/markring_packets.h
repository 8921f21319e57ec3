// What travels between the processes of a space, and between a process and its programs, as bytes.
// This is for whoever writes a host of their own around the nodes of markring.h: it reads packets
// and requests, and writes packets and answers. docs/FORMATS.md ("Packets") has the tables.
//
// Each value has one spelling, and none is a prefix of another one. What is read is exactly what
// the bytes spell (crate `packets`). libmarkring-host reads and writes by these calls.
//
// These calls take any bytes, also those of a hostile sender, and take no memory. Each pointer is
// valid and isn't null, and bytes that are read and places that are written don't overlap.
#ifndef MARKRING_PACKETS_H
#define MARKRING_PACKETS_H

#include "markring.h"
#include "markring_lineage.h"

#ifdef __cplusplus
extern "C" {
#endif

// How many bytes each has.
#define MARKRING_PACKETS_HEAD 67
#define MARKRING_PACKETS_REQUEST 24
#define MARKRING_PACKETS_ANSWER 49
#define MARKRING_PACKETS_EVENT 25
#define MARKRING_PACKETS_RESULT 43
#define MARKRING_PACKETS_REFERENCE 13
#define MARKRING_PACKETS_FREED 21
#define MARKRING_PACKETS_OBJECT 29

// The head of a packet between nodes. It is read only if the sender has a nonce and a first save,
// which isn't later than its last one, and `needs_cycle` is 0 or 1.
typedef struct markring_packet_head {
    // The id of the space, of which the first byte is the highest.
    uint64_t space;
    // The sender's node and the receiver's.
    uint8_t from;
    uint8_t to;
    markring_process sender;
    // What the sender knows of the receiver's process: its nonce, and the number of its last save.
    uint64_t known_nonce;
    uint64_t known_saves;
    // How many objects the sender has.
    uint32_t live;
    // 1 if a program found the sender full, else 0.
    uint8_t needs_cycle;
    // What the receiver said last of an earlier process of the sender, if that fits the sender's
    // line (markring_lineage_word); or 1; or 0, if the sender is of an earlier version.
    uint64_t fits;
} markring_packet_head;

// The head of a request of a program.
typedef struct markring_request_head {
    uint8_t kind;
    uint8_t program;
    uint64_t session;
    uint64_t number;
    uint16_t count; // of events that follow
} markring_request_head;

// The head of an answer.
typedef struct markring_answer_head {
    uint8_t kind;
    uint8_t program;
    uint64_t session;
    uint64_t number; // kind, program, session, number: as in the request
    uint8_t verdict;
    uint64_t last;  // the number of the program's last request that was performed
    uint64_t round; // how many processes have opened the program
    uint8_t nodes;
    uint8_t own;
    uint16_t registers;
    uint32_t slots;
    uint16_t count; // of results that follow
} markring_answer_head;

// # Reading
//
// Each reads what the bytes begin with. They return 1; or 0, and write nothing, if the bytes begin
// with no such value.
int markring_packets_read_head(const uint8_t *bytes, size_t length, markring_packet_head *head);
int markring_packets_read_request(
    const uint8_t *bytes, size_t length, markring_request_head *head);
int markring_packets_read_event(const uint8_t *bytes, size_t length, markring_event *event);
int markring_packets_read_reference(
    const uint8_t *bytes, size_t length, markring_ref *reference);

// The frame that the bytes begin with, behind its length: it begins at `*start`. Returns its end;
// or 0, and writes nothing, if the bytes begin with no length or are fewer than it says.
size_t markring_packets_frame(const uint8_t *bytes, size_t length, size_t *start);

// # Writing
//
// Each writes to the begin of these bytes, and returns how many it wrote; or 0, if there is no room
// for all. Then nothing is written.
size_t markring_packets_put_head(uint8_t *to, size_t room, const markring_packet_head *head);
size_t markring_packets_put_answer(uint8_t *to, size_t room, const markring_answer_head *head);
size_t markring_packets_put_result(
    uint8_t *to, size_t room, uint16_t status, const markring_answer *answer);
size_t markring_packets_put_reference(uint8_t *to, size_t room, const markring_ref *reference);
size_t markring_packets_put_freed(uint8_t *to, size_t room, const markring_freed *freed);
size_t markring_packets_put_object(uint8_t *to, size_t room, const markring_object *object);

// The length of a frame of this many bytes: 2 bytes, or 6 from 65,535 on.
size_t markring_packets_put_length(uint8_t *to, size_t room, uint32_t size);

#ifdef __cplusplus
}
#endif

#endif
