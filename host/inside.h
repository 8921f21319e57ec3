// What the parts of a host share.
#ifndef HOST_INSIDE_H
#define HOST_INSIDE_H

#include "showing.h"

#include <markring_lineage.h>
#include <markring_programs.h>
#include <markring_sending.h>

enum {
    NODES = 64,
    // Milliseconds: how soon a failed save or a refused allocation is tried again.
    RETRY = 100,
    // How soon another Fetch of a node is taken that has too many letters to take.
    FETCH_PAUSE = 1000,
    // What the collector does in one turn, at most.
    SCANS = 256,
    SWEEPS = 4096,
    // A node with more objects leaves a reclaim of all to a cycle, which goes in steps.
    RECLAIM_MOST = 32768,
    // What any event adds to an image, at most, if the node doesn't join a cycle and the object
    // has at most PLAIN_PLACES; what a message from another node does; and what joining does, for
    // each register and each letter. Bytes that an event writes into an object come on top.
    GROWTH = 640,
    MESSAGE_GROWTH = 128,
    JOINING = 40,
    // What a place of an object adds, at most, if the object is scanned: a message that asks
    // another node to mark. What an object adds that becomes grey.
    SCAN_GROWTH = 40,
    GREY_BYTES = 4,
    // What is gone, at least, with an object that is freed: one that is made in its slot adds as
    // much less. What a register loses that becomes empty.
    FREED_BYTES = 13,
    DROPPED_BYTES = 13,
    // What a message has in an image, at least.
    LEAST_MESSAGE = 9,
    // What a reference in a letter adds, at most.
    REFERENCE_BYTES = 14,
    // What an object without bytes and a message have in an image, about.
    OBJECT_BYTES = 64,
    MESSAGE_BYTES = 32,
    // An image of a node of a plain space has at most this many bytes.
    IMAGE_LIMIT = 67108864,
    // A large image is scanned only while fewer messages aren't acknowledged.
    SCAN_MESSAGES = 32768,
    HELD_ANSWERS = 1024,
    HELD_BYTES = 16 << 20, // in them
    FREED_MOST = MARKRING_REMOTE_FREED_LISTED,
    WINDOW = MARKRING_WINDOW,
    LINE = 256,
    REGISTERS_MOST = UINT16_MAX, // of a node
    PLAIN_PLACES = 8,            // that an object of a plain space has at most
    // Milliseconds without an answer, after which a node is late, or lost.
    SILENCE = 10000
};

// What was noted of another node: whether messages wait for it; when it was heard, and when it
// acknowledged something.
typedef struct peer_notes {
    bool is_seen, is_lost, waits, is_congested;
    uint64_t heard_at, moved_at, moved_to;
} peer_notes;

typedef struct notes {
    void (*note)(void *context, const host_note *what);
    void *context;
    uint64_t looked_at;
    uint64_t cycle, ended, swept, cycle_began, freed_before;
    uint64_t waits_in; // the cycle of which was noted that it waits for this node
    uint8_t waits_for;
    bool is_slow, has_many_letters, is_full;
    uint64_t slow_at, slow_count, slowest;
} notes;

// The letters with bytes that a node has for another one, as far as this process knows: of each,
// the number of its message, and how many bytes of the image it has. The first one is the oldest.
typedef struct parcel {
    uint64_t number;
    size_t bytes;
} parcel;

typedef struct queue {
    parcel *parcels; // `room` of them, of which `count` are used, from `first` on and around
    size_t first, count, room;
    size_t bytes; // of all
} queue;

// What a message of a wide space means for the host: how many bytes of a letter it brings, and how
// many it asks for.
typedef struct load {
    uint64_t number;
    uint32_t brings, asks;
} load;

typedef struct peer {
    process known, saved_known; // now, and in the last save
    markring_sending sending;   // what is on its way to it, and what is due
    queue queue;
    load early[WINDOW]; // what came early, by its number modulo WINDOW
    uint64_t fetch_at;  // before this time, no Fetch is taken while too many bytes wait
    uint32_t live;
    bool needs_cycle;
    // Its last word on a process of this node that fits the folder, and whether it knows this one.
    uint64_t heard;
    bool knows_this;
    peer_notes notes;
} peer;

typedef struct program {
    markring_program now, saved; // who speaks for it, and its last request; and in the last save
    uint8_t *results; // those of the last request
    uint16_t count;
    uint8_t *letters; // that it accepted with their bytes
    size_t letters_length;
    // The registers that it has for itself, if any. They are given once.
    uint16_t first_register, registers;
    uint64_t due; // the image that holds the program as it is now
    bool waits;   // somebody waits for the answer, to a request of this kind
    uint8_t kind;
    uint64_t asked_at;
    char reply[HOST_REPLY];
    // Somebody waits for a letter, with a request of this head.
    bool awaits_letter;
    request_head waiting;
    char letter_reply[HOST_REPLY];
    // The number of its list of what was freed, or 0, and that of the last entry that it has.
    uint64_t list, had;
    bool is_list_new; // it hasn't asked for entries yet
} program;

// The objects that were freed, as far as the library has handed them out and some program hasn't
// got them: the entries from `first` on, before `end`, in a block with `room`.
typedef struct freed_list {
    markring_freed *entries;
    size_t first, end, room;
    uint64_t most; // of the entries, with those that the library has
    uint64_t before; // how many entries were dropped: the number of the last one
    uint64_t lists;  // of programs that were begun
    // How many objects were freed before there was a list, and how many the library has handed out.
    uint64_t taken;
} freed_list;

// An answer that waits for a save.
typedef struct held {
    struct held *next;
    uint64_t due;
    size_t length;
    char reply[HOST_REPLY];
    uint8_t bytes[];
} held;

struct markring_host {
    host_shape shape;
    host_options options;
    host_calls calls;
    host_counts counts;
    host_end end;
    char reason[HOST_REASON];
    markring_node node;
    peer peers[NODES];
    program programs[PROGRAMS];
    // For each register the program that has it for itself, plus one; or 0.
    uint8_t owners[REGISTERS_MOST];
    held *first, **last;
    size_t held_count, held_bytes;
    freed_list freed;
    uint64_t nonce, run, stored; // of this process: its number, its first save, its last one
    // The processes that ran this node, up to this one. `line_saved`: the last save holds it.
    markring_ancestor line[LINE];
    size_t line_count;
    bool line_saved;
    markring_images images; // that this process has taken for saves
    uint64_t mark;          // of the last one
    // Room for the frames of a packet, and for a packet.
    uint8_t *window, *packet;
    size_t window_room, packet_room;
    // The bytes of letters that wait, as far as this process has received them.
    size_t letter_bytes;
    bool stopping, has_work;
    uint64_t save_at, work_at; // not before these times
    store_value value;
    // The bytes of the last whole value, and of the entries behind it; and how many saves have to
    // be whole values.
    size_t whole, entries;
    int whole_due;
    // A rewrite is under way; the last one was given up, so that the next whole value is made here.
    bool rewriting, rewrite_failed;
    // The image had `measured` bytes when that was looked at last, and has at most `size`. Since
    // then about `moved` bytes have come or gone. It isn't looked at twice in one turn, nor before
    // something has happened.
    size_t measured, size, moved;
    bool is_measured;
    uint64_t measured_at, turn_at; // when it was looked at, and when the last turn began
    // How many bytes have come in all, at most: now, when the last save was taken, and when that
    // was taken whose size the rewrite under way will tell.
    size_t grown, grown_saved, grown_rewritten;
    // Slots that are free, at least: those that were freed and not used again since.
    uint64_t spare;
    // The cycle and the letters, when this was looked at last.
    uint64_t joined, letters;
    uint32_t told_live; // as last told to node 0
    bool needs_cycle;
    uint64_t needed_in; // the cycle in which a program found the node full
    bool asked;         // for a cycle
    // The objects that the last reclaim left, and the last one of all.
    uint32_t objects_kept, objects_kept_by_all;
    // How often the node has reclaimed in this turn because it was full.
    int full_reclaims;
    uint64_t cycle_at, objects_after, saved_at, save_took, save_began;
    uint64_t unreachable_at; // since when the place of saves can't be reached; 0 if it can be
    char stop_reply[HOST_REPLY];
    notes notes;
    host_times saves, cycles, requests;
};

// Ends the host, unless it has ended.
void end_with(host *it, host_end end, const char *format, ...)
    __attribute__((format(printf, 3, 4)));

// The number of the image that holds all that has happened so far.
uint64_t due_image(const host *it);

// Keeps an answer until the image `due` is stored. It is lost if there is no memory.
void hold_answer(host *it, uint64_t due, const char *reply, const uint8_t *bytes, size_t length);

// Whether the image of the node is so large that programs may not let it grow.
bool is_full(host *it);

// Whether it is so large that the node takes no messages, nor scans.
bool is_tight(host *it);

// Messages of this node that aren't acknowledged.
uint64_t count_unacknowledged(host *it);

// Whether the node takes messages: if not, programs have to accept letters or to clear places.
bool takes_messages(host *it);

// What a letter with this many references and bytes has in an image, about.
size_t parcel_bytes(size_t references, size_t bytes);

// Makes room for one more letter in a queue. Returns whether there is memory.
bool make_room_in_queue(queue *it);
// Adds a letter, for which there is room.
void add_to_queue(queue *it, uint64_t number, size_t bytes);
// Drops what was acknowledged.
void trim_queue(queue *it, uint64_t acknowledged);
// Whether the letters for this node have more bytes than they may.
bool is_over_byte_limit(const host *it, uint8_t to);

// An event that was Ok has changed the node. `grown` is how many bytes the image has got, at most;
// `gone`, about how many it has lost.
void note_change(host *it, size_t grown, size_t gone);

// This many bytes of the image are gone for sure. (`note_change` says about how many are gone.)
void note_loss(host *it, size_t bytes);

bool copy_reply(char *to, const char *reply);

// This process is the last one in the line.
void begin_line(host *it);
// What was known of the processes before this one is forgotten.
void forget_line(host *it);

void collect(host *it, uint64_t now);
// Node 0 begins a cycle soon.
void ask_for_cycle(host *it);
// Receives the messages that were early, and whose turn has come. Returns whether it got all.
bool receive_all_early(host *it);
// Frees private garbage of a node that is full. Returns whether it has slots again.
bool reclaim_if_full(host *it);
void send_packets(host *it, uint64_t now);
void answer_programs(host *it, uint64_t now);
// Gives the program its registers, if the node has them and no other program does.
bool give_registers(host *it, uint8_t number, uint16_t first, uint16_t count);
// Parts of the answers to requests.
void fill_head(const host *it, const request_head *request, answer_head *head);
// An answer without results.
void refuse(host *it, const request_head *request, verdict why, const char *reply);
// Whether the request is of the process that speaks for the program.
bool speaks_for(const program *at, const request_head *request);

// Whether a program has registers for itself, and may come back.
bool has_apart(const host *it);
void track_freed(host *it, const request_head *request, reader *from, const char *reply);
void read_freed(host *it, const request_head *request, reader *from, const char *reply);
void read_objects(host *it, const request_head *request, reader *from, const char *reply);
void read_places(host *it, const request_head *request, reader *from, const char *reply);
// What was freed is no longer listed for anybody.
void end_lists(host *it);
// If more is listed than may be, the programs that have the least of it lose their lists.
void bound_lists(host *it);

// All objects of the space, as far as node 0 knows.
uint64_t count_objects(const host *it, uint32_t own_live);

// The value that is saved: all of the host that lasts, and the image. Writing returns what the
// library returns; MARKRING_SHORT_BUFFER if the room isn't exactly right.
size_t saved_size(const host *it, size_t image);
int write_saved(host *it, writer *to, size_t image);

// An entry behind it: what of that has changed since the last save, and a batch.
size_t entry_size(const host *it, size_t batch);
int write_entry(host *it, writer *to, size_t batch);

int read_saved(host *it, const store_value *value);

// Whether more is known of other nodes' processes than in the last save.
bool knows_more(const host *it);

// The limits of unacknowledged messages and of the bytes of letters in them, of the folder or of
// this process.
uint64_t limit_of(const host *it);
uint64_t byte_limit_of(const host *it);

// Notes for the operator: what has changed in a turn, a packet that came, a link as it is now, a
// save that is over.
void begin_notes(host *it, uint64_t now);
void note_turn(host *it, uint64_t now);
void note_heard(host *it, uint8_t from, uint64_t now);
void note_link(host *it, uint8_t to, const markring_link *link, uint64_t now);
void note_saved(host *it, uint64_t now);
void observe(host_times *it, uint64_t time);

// Whether messages wait for this node, and it has acknowledged nothing for a while.
bool is_late(const peer *it, uint64_t now);

void answer_status(host *it, uint64_t now, const char *reply);

#endif
