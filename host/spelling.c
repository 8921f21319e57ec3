// What a client writes of requests and reads of answers. (Nodes do the other half: packets.c.)
#include "packets.h"

static const uint8_t REQUEST[4] = {0x4D, 0x52, 0x51, 0x01};
static const uint8_t ANSWER[4] = {0x4D, 0x52, 0x41, 0x01};

void write_request_head(writer *to, const request_head *it)
{
    write_bytes(to, REQUEST, sizeof REQUEST);
    write_number(to, it->kind, 1);
    write_number(to, it->program, 1);
    write_number(to, it->session, 8);
    write_number(to, it->number, 8);
    write_number(to, it->count, 2);
}

void write_event(writer *to, const markring_event *it)
{
    write_number(to, it->kind, 1);
    write_number(to, it->node, 1);
    write_number(to, it->place, 1);
    write_number(to, it->reg, 2);
    write_number(to, it->source, 2);
    write_number(to, it->object, 2);
    write_number(to, it->label, 4);
    write_number(to, it->count, 4);
    write_number(to, it->word, 8);
}

void write_remote_event(writer *to, const markring_remote_event *it)
{
    write_event(to, &it->event);
    if (has_bytes(it->event.kind)) {
        write_number(to, it->length, 4);
        write_bytes(to, it->bytes, it->length);
    }
}

bool read_answer_head(reader *from, answer_head *it)
{
    const uint8_t *bytes = read_bytes(from, sizeof ANSWER);
    bool is_answer = bytes != NULL && memcmp(bytes, ANSWER, sizeof ANSWER) == 0;
    it->kind = (uint8_t)read_number(from, 1);
    it->program = (uint8_t)read_number(from, 1);
    it->session = read_number(from, 8);
    it->number = read_number(from, 8);
    it->verdict = (uint8_t)read_number(from, 1);
    it->last = read_number(from, 8);
    it->round = read_number(from, 8);
    it->nodes = (uint8_t)read_number(from, 1);
    it->own = (uint8_t)read_number(from, 1);
    it->registers = (uint16_t)read_number(from, 2);
    it->slots = (uint32_t)read_number(from, 4);
    it->count = (uint16_t)read_number(from, 2);
    return is_answer && from->ok;
}

void read_reference_record(reader *from, markring_ref *it)
{
    it->node = (uint8_t)read_number(from, 1);
    it->slot = (uint32_t)read_number(from, 4);
    it->generation = read_number(from, 8);
}

void read_result(reader *from, markring_result *it)
{
    memset(it, 0, sizeof *it);
    it->status = (int)read_number(from, 2);
    it->answer.kind = (uint8_t)read_number(from, 1);
    it->answer.node = (uint8_t)read_number(from, 1);
    it->answer.colour = (uint8_t)read_number(from, 1);
    it->answer.done = (uint8_t)read_number(from, 1);
    it->answer.label = (uint32_t)read_number(from, 4);
    it->answer.count = (uint32_t)read_number(from, 4);
    it->answer.number = read_number(from, 8);
    it->answer.sum = (int64_t)read_number(from, 8);
    read_reference_record(from, &it->answer.reference);
}

void read_freed_record(reader *from, markring_freed *it)
{
    read_reference_record(from, &it->reference);
    it->word = read_number(from, 8);
}

void read_object_record(reader *from, markring_object *it)
{
    memset(it, 0, sizeof *it);
    read_reference_record(from, &it->reference);
    it->word = read_number(from, 8);
    it->bytes = (uint32_t)read_number(from, 4);
    it->places = (uint8_t)read_number(from, 1);
    it->marked = (uint8_t)read_number(from, 1);
    it->shared = (uint8_t)read_number(from, 1);
    it->age = (uint8_t)read_number(from, 1);
}

bool read_letter(reader *from, letter_bytes *it)
{
    it->result = (uint16_t)read_number(from, 2);
    it->length = (uint32_t)read_number(from, 4);
    it->bytes = read_bytes(from, it->length);
    return it->bytes != NULL;
}
