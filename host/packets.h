// What travels between hosts, and between a host and its programs, as bytes. docs/FORMATS.md
// ("Packets") has the tables. Each kind begins with four bytes that name it and its version.
//
// Nodes read and write by the library (packets.c), clients without it (spelling.c).
#ifndef HOST_PACKETS_H
#define HOST_PACKETS_H

#include "bytes.h"

#include <markring_packets.h>
#include <markring_remote.h>

enum {
    // A window of frames of a plain space is at most 1,920 bytes with lengths and numbers. In a
    // wide space, letters are longer: a packet has at most this many bytes of frames, which is
    // enough for the longest one; and a window, this many.
    WINDOW_BYTES = 1920,
    WIDE_WINDOW_BYTES = 1 << 17,
    PACKET_HEAD = MARKRING_PACKETS_HEAD,
    PACKET_ACK = 2 + 11,
    PACKET_BYTES = PACKET_HEAD + PACKET_ACK + WINDOW_BYTES,
    WIDE_PACKET_BYTES = PACKET_HEAD + PACKET_ACK + WIDE_WINDOW_BYTES,
    // Events in a request, and programs of a node.
    REQUEST_EVENTS = MARKRING_REMOTE_EVENTS,
    PROGRAMS = 64,
    REQUEST_HEAD = MARKRING_PACKETS_REQUEST,
    EVENT_BYTES = MARKRING_PACKETS_EVENT,
    ANSWER_HEAD = MARKRING_PACKETS_ANSWER,
    RESULT_BYTES = MARKRING_PACKETS_RESULT,
    // The number of a result and the length of its letter's bytes, before these.
    LETTER_HEAD = 2 + 4,
    // What follows the result of an answer: objects that were freed, each with its word; objects;
    // and contents of places.
    REFERENCE_RECORD = MARKRING_PACKETS_REFERENCE,
    FREED_RECORD = MARKRING_PACKETS_FREED,
    OBJECT_RECORD = MARKRING_PACKETS_OBJECT,
    // The longest request and answer without bytes of objects and letters; and with them, which is
    // less than the 1,048,576 bytes that servers take, unless they are told otherwise.
    REQUEST_BYTES = REQUEST_HEAD + REQUEST_EVENTS * EVENT_BYTES,
    ANSWER_BYTES = ANSWER_HEAD + REQUEST_EVENTS * RESULT_BYTES,
    BYTES_MOST = MARKRING_REMOTE_BYTES,
    LONGEST_REQUEST = REQUEST_BYTES + REQUEST_EVENTS * 4 + BYTES_MOST,
    LONGEST_ANSWER = ANSWER_BYTES + REQUEST_EVENTS * LETTER_HEAD + BYTES_MOST,
    // Of what follows the result of an answer, at most.
    FREED_IN_ANSWER = MARKRING_REMOTE_FREED,
    OBJECTS_IN_ANSWER = MARKRING_REMOTE_OBJECTS,
    PLACES_IN_ANSWER = UINT8_MAX,
    SPACE_ID = 8
};

_Static_assert(LONGEST_REQUEST <= 1048576 && LONGEST_ANSWER <= 1048576,
    "a server with the usual max_payload takes all messages");
_Static_assert(FREED_IN_ANSWER * FREED_RECORD <= BYTES_MOST
        && OBJECTS_IN_ANSWER * OBJECT_RECORD <= BYTES_MOST,
    "no answer is longer");

// A process that runs a node.
typedef markring_process process;

// The head of a packet from one node to another. Frames follow, each after its length. `fits` is
// NO_WORD if nothing was heard of an earlier process; 0 from a host of an earlier version.
typedef markring_packet_head packet_head;

enum { NO_WORD = 1 };

// The id of a space as packets have it.
static inline uint64_t space_number(const uint8_t *id)
{
    reader from = reader_of(id, SPACE_ID);
    return read_number(&from, SPACE_ID);
}

void write_packet_head(writer *to, const packet_head *it);
bool read_packet_head(reader *from, packet_head *it);

// A frame after its length. Reading returns NULL if no whole one follows.
void write_frame(writer *to, const uint8_t *frame, size_t length);
const uint8_t *read_frame(reader *from, size_t *length);

typedef enum request_kind {
    // A process begins to speak for a program. The number is the next round.
    REQUEST_OPEN = 1,
    REQUEST_PERFORM = 2, // Events, in order, up to the first one that is refused.
    REQUEST_READ = 3,    // What registers hold.
    REQUEST_WAIT = 4,    // Answered once a letter waits at the node.
    // As REQUEST_OPEN; the program has these registers, and no others. The first one and how many
    // they are follow the head, with two bytes each.
    REQUEST_OPEN_APART = 5,
    // Bytes of one object: its register (2), the offset (4) and how many (4) follow the head. The
    // answer has one result, and behind it the bytes.
    REQUEST_READ_BYTES = 6,
    // As REQUEST_OPEN and REQUEST_OPEN_APART; the answer has the letters of the last request, too.
    REQUEST_OPEN_LETTERS = 7,
    REQUEST_OPEN_APART_LETTERS = 8,
    // As REQUEST_PERFORM; some event is a Resolve, which earlier versions don't know.
    REQUEST_PERFORM_RESOLVING = 9,
    // What the node frees is to be listed for the program. The answer has one result: `sum` is the
    // list, `number` that of the last entry that the program has, `done` 1 if the list is new.
    REQUEST_TRACK_FREED = 10,
    // Entries of that list: the list (8), the number of the last entry that the program has (8) and
    // how many at most (4) follow the head. The answer has one result, with the list, `number` of
    // the last one that follows and `count` of them; and these.
    REQUEST_FREED = 11,
    // Objects in the slots from one on: the slot (4) and how many at most (4) follow the head. The
    // answer has one result: `count` of objects follow; `label` is the next slot, and `done` 1 if
    // no other slot has an object.
    REQUEST_OBJECTS = 12,
    // What the places of an object hold, whose reference (13) follows the head. The answer has one
    // result: `count` of places follow.
    REQUEST_PLACES = 13
} request_kind;

enum { READ_BYTES = 2 + 4 + 4, READ_FREED = 8 + 8 + 4, READ_OBJECTS = 4 + 4 };

static inline bool is_performing(uint8_t kind)
{
    return kind == REQUEST_PERFORM || kind == REQUEST_PERFORM_RESOLVING;
}

// The bytes of each of what follows the result of an answer of this kind; 0 for other kinds.
static inline size_t record_of(uint8_t kind)
{
    return kind == REQUEST_FREED     ? FREED_RECORD
        : kind == REQUEST_OBJECTS    ? OBJECT_RECORD
        : kind == REQUEST_PLACES     ? REFERENCE_RECORD
                                     : 0;
}

typedef markring_request_head request_head;

void write_request_head(writer *to, const request_head *it);
bool read_request_head(reader *from, request_head *it);

void write_event(writer *to, const markring_event *it);

// An event, with its bytes if it is one that has some: they follow it, after their length (4). What
// is read points into the request.
static inline bool has_bytes(uint8_t kind)
{
    return kind == MARKRING_REMOTE_SET_BYTES || kind == MARKRING_REMOTE_PATCH
        || kind == MARKRING_REMOTE_POST;
}

// How many bytes of a letter the event may bring, at most.
static inline size_t room_of(const markring_event *it)
{
    return it->kind == MARKRING_REMOTE_ACCEPT_INTO ? it->count : 0;
}

void write_remote_event(writer *to, const markring_remote_event *it);
void read_remote_event(reader *from, markring_remote_event *it);

typedef enum verdict {
    VERDICT_DONE = 0,
    // Later requests of this program were performed; or it was opened since this process looked.
    VERDICT_STALE = 1,
    // An earlier request of this program is missing.
    VERDICT_AHEAD = 2,
    // Another process speaks for this program, or none has opened it.
    VERDICT_SUPERSEDED = 3,
    // The bytes aren't a request, or there is no such program.
    VERDICT_MALFORMED = 4,
    // The program has other registers, or another program has one of these, or the node hasn't.
    VERDICT_REGISTERS = 5,
    // The request or its answer would carry more than BYTES_MOST bytes of objects and letters.
    VERDICT_TOO_LONG = 6,
    // A program of the node has registers for itself.
    VERDICT_APART = 7,
    // The program has no such list of what was freed, or not from there on.
    VERDICT_LOST = 8
} verdict;

typedef markring_answer_head answer_head;

void write_answer_head(writer *to, const answer_head *it);
bool read_answer_head(reader *from, answer_head *it);

void write_result(writer *to, const markring_result *it);
void read_result(reader *from, markring_result *it);

void write_reference(writer *to, const markring_ref *it);
void read_reference(reader *from, markring_ref *it);
void read_reference_record(reader *from, markring_ref *it);
void write_freed_record(writer *to, const markring_freed *it);
void read_freed_record(reader *from, markring_freed *it);
void write_object_record(writer *to, const markring_object *it);
void read_object_record(reader *from, markring_object *it);

// The bytes of a letter that was accepted, as they follow the results: after the number of its
// result, and their length. What is read points into the answer.
typedef struct letter_bytes {
    uint16_t result;
    uint32_t length;
    const uint8_t *bytes;
} letter_bytes;

void write_letter_head(writer *to, uint16_t result, size_t length);
bool read_letter(reader *from, letter_bytes *it);

#endif
