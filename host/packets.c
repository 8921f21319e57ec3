// What a node reads of packets and requests, and writes of packets and answers: over the library.
// (Clients do the other half of requests and answers: spelling.c.)
#include "packets.h"

// A value of this many bytes was read, or not.
static bool move_on(reader *from, int is_there, size_t length)
{
    (void)read_bytes(from, is_there == 1 ? length : from->left + 1);
    return from->ok;
}

// This many bytes were written; 0: there was no room for them.
static void note_written(writer *to, size_t length)
{
    to->ok = to->ok && length > 0;
    to->length += to->ok ? length : 0;
}

// What is to be read, and how many bytes; the place of the next bytes, and room for how many.
#define REST(from) (from)->at, (from)->ok ? (from)->left : 0
#define NEXT(to) (to)->start + (to)->length, (to)->ok ? (to)->room - (to)->length : 0

void write_packet_head(writer *to, const packet_head *it)
{
    note_written(to, markring_packets_put_head(NEXT(to), it));
}

bool read_packet_head(reader *from, packet_head *it)
{
    return move_on(from, markring_packets_read_head(REST(from), it), PACKET_HEAD);
}

void write_frame(writer *to, const uint8_t *frame, size_t length)
{
    note_written(to, markring_packets_put_length(NEXT(to), (uint32_t)length));
    write_bytes(to, frame, length);
}

const uint8_t *read_frame(reader *from, size_t *length)
{
    size_t start = 0, end = markring_packets_frame(REST(from), &start);
    const uint8_t *bytes = read_bytes(from, end > 0 ? end : from->left + 1);
    *length = end - start;
    return bytes != NULL ? bytes + start : NULL;
}

bool read_request_head(reader *from, request_head *it)
{
    return move_on(from, markring_packets_read_request(REST(from), it), REQUEST_HEAD);
}

void read_remote_event(reader *from, markring_remote_event *it)
{
    memset(it, 0, sizeof *it);
    (void)move_on(
        from, markring_packets_read_event(REST(from), &it->event), EVENT_BYTES);
    size_t length = has_bytes(it->event.kind) ? (size_t)read_number(from, 4) : 0;
    it->bytes = read_bytes(from, length);
    it->length = it->bytes != NULL ? length : 0;
}

void read_reference(reader *from, markring_ref *it)
{
    memset(it, 0, sizeof *it);
    (void)move_on(from, markring_packets_read_reference(REST(from), it), REFERENCE_RECORD);
}

void write_answer_head(writer *to, const answer_head *it)
{
    note_written(to, markring_packets_put_answer(NEXT(to), it));
}

void write_result(writer *to, const markring_result *it)
{
    note_written(
        to, markring_packets_put_result(NEXT(to), (uint16_t)it->status, &it->answer));
}

void write_reference(writer *to, const markring_ref *it)
{
    note_written(to, markring_packets_put_reference(NEXT(to), it));
}

void write_freed_record(writer *to, const markring_freed *it)
{
    note_written(to, markring_packets_put_freed(NEXT(to), it));
}

void write_object_record(writer *to, const markring_object *it)
{
    note_written(to, markring_packets_put_object(NEXT(to), it));
}

void write_letter_head(writer *to, uint16_t result, size_t length)
{
    write_number(to, result, 2);
    write_number(to, length, 4);
}
