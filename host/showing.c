// The numbers of a host, and its status as JSON.
#include "inside.h"

#include <stdarg.h>
#include <stdio.h>

enum { STATUS_BYTES = 4096 };

#define NUMBER(name, field, metric, help) {name, metric, help, offsetof(host_view, field), false}
#define TIME(name, field, metric, help) {name, metric, help, offsetof(host_view, field), true}

const host_number HOST_NUMBER[] = {
    NUMBER("nodes", nodes, "nodes", "Nodes of the space"),
    NUMBER("registers", registers, "registers", "Registers of the node"),
    NUMBER("slots", slots, "slots", "Objects that the node has room for"),
    NUMBER("places", places, "places", "Places that an object has at most"),
    NUMBER("bytes", bytes, "bytes", "Bytes that an object has at most"),
    NUMBER("wide", wide, "wide", "Whether the space is wide"),
    NUMBER("limit", limit, "message_limit",
        "Unacknowledged messages to one node, from which on programs can send it nothing; 0 for "
        "any number"),
    NUMBER("byte_limit", byte_limit, "byte_limit",
        "Bytes of unacknowledged letters to one node, from which on programs can post it nothing; 0 "
        "for any number"),
    NUMBER("cycle", cycle, "cycle", "The last collection cycle that the node has joined"),
    NUMBER("ended", ended, "cycle_ended", "The last cycle whose marking the node knows to be over"),
    NUMBER("swept", swept, "cycle_swept", "The last cycle that the node has swept"),
    NUMBER("token", token, "token", "Whether the node has the token of the cycle's marking"),
    NUMBER("live", live, "objects", "Objects of the node"),
    NUMBER("letters", letters, "letters", "Letters that wait for programs"),
    NUMBER("letter_bytes", letter_bytes, "letter_bytes",
        "About how many bytes these letters have, of those that came since the process began"),
    NUMBER("unacknowledged", unacknowledged, "unacknowledged_messages",
        "Messages that other nodes haven't acknowledged"),
    NUMBER("queued_bytes", queued_bytes, "queued_bytes",
        "About how many bytes letters have that other nodes haven't acknowledged, of those sent "
        "since the process began"),
    NUMBER("image", image, "image_bytes", "The node's image, when it was measured last"),
    NUMBER("save", save, "save", "The number of the last save"),
    TIME("saved_ago", saved_ago, "save_age_seconds", "Time since the last save"),
    TIME("save_took", save_took, "last_save_seconds", "Time that the last save took"),
    TIME("database_lost", database_lost, "database_lost_seconds",
        "Time since the node's database can't be reached; 0 if it can be, or if there isn't one"),
    NUMBER("run", run, "first_save", "The number of the first save of this process"),
    NUMBER("packets_in", counts.packets_in, "packets_received_total", "Packets of other nodes"),
    NUMBER("packets_out", counts.packets_out, "packets_sent_total", "Packets to other nodes"),
    NUMBER("frames_in", counts.frames_in, "frames_received_total", "Frames that were taken"),
    NUMBER("frames_out", counts.frames_out, "frames_sent_total", "Frames that were sent"),
    NUMBER("bytes_out", counts.bytes_out, "sent_bytes_total", "Bytes of packets to other nodes"),
    NUMBER("saves", counts.saves, "saves_total", "Saves that succeeded"),
    NUMBER("failed_saves", counts.failed_saves, "failed_saves_total", "Saves that failed"),
    NUMBER("requests", counts.requests, "requests_total", "Requests that were performed"),
    NUMBER("repeated_requests", counts.repeated_requests, "repeated_requests_total",
        "Requests that came again after they were performed"),
    NUMBER("refused_requests", counts.refused_requests, "refused_requests_total",
        "Requests that were refused as a whole"),
    NUMBER("foreign", counts.foreign, "foreign_packets_total",
        "Packets and requests that aren't for this node or not of this space"),
    NUMBER("malformed", counts.malformed, "malformed_frames_total", "Frames that are malformed"),
    NUMBER("outdated", counts.outdated, "outdated_packets_total", "Packets of earlier processes"),
    NUMBER("repeats", counts.repeats, "repeated_frames_total", "Frames that came again"),
    NUMBER("resends", counts.resends, "resends_total", "Windows that were sent again"),
    NUMBER("full", counts.full, "postponed_frames_total",
        "Frames that weren't taken because too many letters wait"),
    NUMBER("dropped", counts.dropped, "dropped_total",
        "Frames, requests and answers that were dropped for lack of memory or room"),
    NUMBER("freed", counts.freed, "freed_objects_total", "Objects that cycles have freed"),
    NUMBER("reclaimed", counts.reclaimed, "reclaimed_objects_total",
        "Private objects that the node has freed without a cycle"),
};
const size_t HOST_NUMBERS = sizeof HOST_NUMBER / sizeof *HOST_NUMBER;

uint64_t host_number_of(const host_view *view, const host_number *which)
{
    uint64_t number;
    memcpy(&number, (const uint8_t *)view + which->at, sizeof number);
    return number;
}

static void look_at_links(host *it, uint64_t now, host_view *to)
{
    for (uint8_t other = 0; other < it->shape.nodes; other++) {
        markring_link link;
        host_peer_view *seen = &to->peers[other];
        if (other != it->shape.own && markring_node_link(&it->node, other, &link) == MARKRING_OK) {
            seen->unacknowledged = link.appended - link.acknowledged;
            seen->is_seen = it->peers[other].notes.is_seen;
            seen->is_late = is_late(&it->peers[other], now);
            to->unacknowledged += seen->unacknowledged;
            to->queued_bytes += it->peers[other].queue.bytes;
        }
    }
}

void host_look(host *it, uint64_t now, host_view *to)
{
    markring_state state = {0};
    memset(to, 0, sizeof *to);
    (void)markring_node_state(&it->node, &state);
    memcpy(to->space, it->shape.name, sizeof to->space);
    to->own = it->shape.own;
    to->nodes = it->shape.nodes;
    to->registers = it->shape.registers;
    to->slots = it->shape.slots;
    to->places = it->shape.places;
    to->bytes = it->shape.bytes;
    to->wide = it->shape.wide;
    to->limit = limit_of(it);
    to->byte_limit = byte_limit_of(it);
    to->letter_bytes = state.letters > 0 ? it->letter_bytes : 0;
    to->cycle = state.cycle;
    to->ended = state.ended;
    to->swept = state.swept;
    to->token = state.has_token;
    to->live = state.live;
    to->letters = state.letters;
    to->image = it->measured;
    to->save = it->stored;
    to->saved_ago = now - it->saved_at;
    to->save_took = it->save_took;
    to->database_lost = it->unreachable_at > 0 ? now - it->unreachable_at + 1 : 0;
    to->run = it->run;
    to->counts = it->counts;
    to->saves = it->saves;
    to->cycles = it->cycles;
    to->requests = it->requests;
    look_at_links(it, now, to);
}

// ## The status

typedef struct line {
    char text[STATUS_BYTES];
    size_t length;
} line;

static void add(line *to, const char *format, ...) __attribute__((format(printf, 2, 3)));

static void add(line *to, const char *format, ...)
{
    va_list words;
    size_t room = sizeof to->text - to->length;
    va_start(words, format);
    int length = vsnprintf(to->text + to->length, room, format, words);
    va_end(words);
    to->length += length > 0 && (size_t)length < room ? (size_t)length : 0;
}

static void add_late(line *to, const host_view *view)
{
    const char *before = "";
    add(to, ", \"late\": [");
    for (unsigned i = 0; i < view->nodes; i++) {
        if (view->peers[i].is_late) {
            add(to, "%s%u", before, i);
            before = ", ";
        }
    }
    add(to, "]}");
}

void answer_status(host *it, uint64_t now, const char *reply)
{
    host_view view;
    line to = {.length = 0};
    host_look(it, now, &view);
    add(&to, "{\"space\": \"%s\", \"node\": %d", view.space, (int)view.own);
    for (size_t i = 0; i < HOST_NUMBERS; i++) {
        const host_number *which = &HOST_NUMBER[i];
        unsigned long long number = host_number_of(&view, which);
        add(&to, ", \"%s\": %llu", which->name, number);
    }
    add_late(&to, &view);
    it->calls.answer(it->calls.context, reply, (const uint8_t *)to.text, to.length);
}
