// What goes to another node, and when, for whoever writes a host of their own around the nodes of
// markring.h. These decisions are proved (crate `sending`): which messages are sent next, when they
// are sent again, whether a packet is due without any, and until when nothing has to be done.
// libmarkring-host makes them by these calls.
//
// A message that a saved image holds is released (markring_link), and may be sent. Packets may be
// lost, repeated and late, so what isn't acknowledged is sent again: a while after the window was
// sent, it is sent from its begin.
//
// # What a host owes
//
// - It keeps a markring_sending for each other node, begins it when its process begins, changes it
//   by these calls alone, and doesn't save it.
// - It has turns; in each it calls markring_sending_turn for each other node, with what
//   markring_node_link says. It has one by the time that markring_sending_until says. Its clock
//   doesn't go back. Milliseconds are meant.
// - In a turn, as long as markring_sending_is_open says 1, it offers the frames that
//   markring_node_frames gives after `sent`, in their order, until one doesn't go. It sends those
//   that go.
// - If messages go, or if a packet is due, it sends a packet, with the acknowledgement and the
//   number of the last save that is stored, and calls markring_sending_left.
// - It calls markring_sending_again when it is connected again, and when another process runs the
//   other node.
//
// Then the messages that are on their way are the first ones that aren't acknowledged, in order,
// each once. They have at most MARKRING_SENDING_BYTES, unless one is alone. What isn't acknowledged
// is sent again after the longest pause at the latest, and not before a pause, which is twice as
// long each time. Other nodes hear of each save in time (`sending::laws`).
//
// These calls can't fail, take any numbers, and take no memory. Each pointer is valid and isn't
// null. One thread at a time uses a struct.
#ifndef MARKRING_SENDING_H
#define MARKRING_SENDING_H

#include <stdint.h>

#ifdef __cplusplus
extern "C" {
#endif

enum markring_sending_limit {
    // How many messages are on their way at most, and how many bytes, unless one is alone.
    MARKRING_SENDING_WINDOW = 32,
    MARKRING_SENDING_BYTES = 1048576,
    // Milliseconds after the window was sent, until it is sent from its begin again: at first, and
    // at most.
    MARKRING_SENDING_FIRST_PAUSE = 50,
    MARKRING_SENDING_LONGEST_PAUSE = 1600,
    // Milliseconds until another node hears of a save.
    MARKRING_SENDING_TELL = 1000
};

// A flag is 0 for no; any other number means yes.
typedef struct markring_sending {
    // The number of the last message of which is known that the other node has acknowledged it; and
    // that of the last one that is on its way.
    uint64_t acknowledged;
    uint64_t sent;
    // How many bytes are on their way.
    uint64_t flight;
    // When the window is sent from its begin again, or 0; and how long after the last time.
    uint64_t again_at;
    uint64_t pause;
    // Messages of the other node up to this one are received and saved.
    uint64_t received;
    // The last save of which a packet spoke; and when one has to speak of a later one, or 0.
    uint64_t told;
    uint64_t tell_at;
    // The bytes of each message that is on its way.
    uint32_t lengths[MARKRING_SENDING_WINDOW];
    // The next message has to wait until others are acknowledged.
    uint8_t blocked;
    // A packet has to go, whether or not it has messages.
    uint8_t due;
} markring_sending;

// A new process, which has sent nothing yet, takes up the messages after `acknowledged`. It has
// received and saved those of the other node up to `received`. A packet is due.
void markring_sending_begin(markring_sending *it, uint64_t acknowledged, uint64_t received);

// All that was sent may be lost: the window is sent from its begin, and a packet is due.
void markring_sending_again(markring_sending *it);

// A turn at this time: messages up to `released` are released, those up to `acknowledged` are
// acknowledged, and the save `stored` is the last one that is stored. Returns 1 if the window is
// sent from its begin again because it wasn't acknowledged in time; otherwise 0.
int markring_sending_turn(
    markring_sending *it, uint64_t now, uint64_t released, uint64_t acknowledged, uint64_t stored);

// Whether messages may be offered: 1, or 0 if the next one would be too much.
int markring_sending_is_open(const markring_sending *it);

// Offers the message after `sent`, which has this number, and a frame of this length. Returns 1 if
// it goes: it is on its way now. 0 if it is another message, if the window is full, or if too many
// bytes would be on their way; one message may always be.
int markring_sending_offer(markring_sending *it, uint64_t number, uint32_t length);

// Whether a packet has to go, even without messages: 1 or 0.
int markring_sending_is_due(const markring_sending *it);

// A packet has to go.
void markring_sending_owe(markring_sending *it);

// Messages of the other node up to this one are received and saved. A packet is due, for the
// acknowledgement, unless that was so before.
void markring_sending_received(markring_sending *it, uint64_t number);

// The other node has to hear of the last save that is stored: a packet is due, unless one spoke of
// it.
void markring_sending_tell(markring_sending *it, uint64_t stored);

// A packet goes, which speaks of the last save that is stored.
void markring_sending_left(markring_sending *it, uint64_t stored);

// The time of the next turn that has something to do, if nothing else happens before; UINT64_MAX if
// no time is set.
uint64_t markring_sending_until(const markring_sending *it);

#ifdef __cplusplus
}
#endif

#endif
