// The value that a host saves: all of it that lasts, and the image of its node. An entry behind it
// has what has changed of that, and a batch of the node's events.
#include "inside.h"

#include <stdlib.h>

// A value begins with its version, which isn't the length of a name; one of the first version has
// none. Its entries are of the same version.
typedef enum version { FIRST = 0, SECOND = 0x82, THIRD = 0x83 } version;

enum { FIXED = 1 + 1 + SPACE_ID + 1 + 1 + 8 + 8, KNOWN = 24, RECORD = 31 + 4, PART = 16 };

static size_t program_size(const program *at)
{
    return RECORD + at->count * (size_t)RESULT_BYTES + at->letters_length;
}

static bool is_opened(const program *at)
{
    return at->now.session != 0;
}

static bool is_program_new(const program *at)
{
    return at->now.session != at->saved.session || at->now.round != at->saved.round
        || at->now.number != at->saved.number;
}

static bool is_known_new(const peer *at)
{
    return at->known.nonce != at->saved_known.nonce || at->known.run != at->saved_known.run
        || at->known.saves != at->saved_known.saves;
}

bool knows_more(const host *it)
{
    for (int i = 0; i < it->shape.nodes; i++) {
        if (is_known_new(&it->peers[i])) {
            return true;
        }
    }
    return false;
}

// What the line has besides its first element, which isn't written.
static size_t line_size(const host *it)
{
    return 2 + (it->line_count - 1) * (size_t)PART;
}

size_t saved_size(const host *it, size_t image)
{
    size_t size = FIXED + strlen(it->shape.name) + it->shape.nodes * (size_t)KNOWN + 1 + 8 + image;
    size += line_size(it);
    for (int i = 0; i < PROGRAMS; i++) {
        if (is_opened(&it->programs[i])) {
            size += program_size(&it->programs[i]);
        }
    }
    return size;
}

size_t entry_size(const host *it, size_t batch)
{
    size_t size = 1 + 1 + 8 + batch + (it->line_saved ? 2 : line_size(it));
    for (int i = 0; i < it->shape.nodes; i++) {
        size += is_known_new(&it->peers[i]) ? 1 + (size_t)KNOWN : 0;
    }
    for (int i = 0; i < PROGRAMS; i++) {
        size += is_program_new(&it->programs[i]) ? program_size(&it->programs[i]) : 0;
    }
    return size;
}

// Writes the programs that meet the test.
static void write_programs(const host *it, writer *to, bool (*meets)(const program *at))
{
    uint8_t count = 0;
    for (int i = 0; i < PROGRAMS; i++) {
        count = (uint8_t)(count + meets(&it->programs[i]));
    }
    write_number(to, count, 1);
    for (int i = 0; i < PROGRAMS; i++) {
        const program *at = &it->programs[i];
        if (meets(at)) {
            write_number(to, (uint64_t)i, 1);
            write_number(to, at->now.session, 8);
            write_number(to, at->now.round, 8);
            write_number(to, at->now.number, 8);
            write_number(to, at->first_register, 2);
            write_number(to, at->registers, 2);
            write_number(to, at->count, 2);
            write_bytes(to, at->results, at->count * (size_t)RESULT_BYTES);
            write_number(to, at->letters_length, 4);
            write_bytes(to, at->letters, at->letters_length);
        }
    }
}

static void write_known(writer *to, const process *known)
{
    write_number(to, known->nonce, 8);
    write_number(to, known->run, 8);
    write_number(to, known->saves, 8);
}

static void write_line(writer *to, const host *it)
{
    write_number(to, it->line_count - 1, 2);
    for (size_t i = 1; i < it->line_count; i++) {
        write_number(to, it->line[i].nonce, 8);
        write_number(to, it->line[i].run, 8);
    }
}

// The save that was written has all that lasts. If it fails, the next one is a whole value.
static void note_written(host *it)
{
    it->line_saved = true;
    for (int i = 0; i < it->shape.nodes; i++) {
        it->peers[i].saved_known = it->peers[i].known;
    }
    for (int i = 0; i < PROGRAMS; i++) {
        it->programs[i].saved = it->programs[i].now;
    }
}

typedef int (*library_call)(
    markring_node *of, uint8_t *bytes, size_t room, size_t *needed, uint64_t *mark);

// Writes the bytes of a library's call, which come last and have this length.
static int write_last(host *it, writer *to, size_t length, library_call call)
{
    size_t needed = 0;
    int status = MARKRING_SHORT_BUFFER;
    if (to->ok && to->room - to->length == length) {
        status = call(&it->node, to->start + to->length, length, &needed, &it->mark);
    }
    if (status == MARKRING_OK && needed != length) {
        status = MARKRING_SHORT_BUFFER;
    }
    if (status == MARKRING_OK) {
        note_written(it);
    }
    return status;
}

int write_entry(host *it, writer *to, size_t batch)
{
    uint8_t count = 0;
    for (int i = 0; i < it->shape.nodes; i++) {
        count = (uint8_t)(count + is_known_new(&it->peers[i]));
    }
    write_number(to, count, 1);
    for (int i = 0; i < it->shape.nodes; i++) {
        if (is_known_new(&it->peers[i])) {
            write_number(to, (uint64_t)i, 1);
            write_known(to, &it->peers[i].known);
        }
    }
    if (it->line_saved) {
        write_number(to, 0, 2);
    } else {
        write_line(to, it);
    }
    write_programs(it, to, is_program_new);
    write_number(to, batch, 8);
    return write_last(it, to, batch, markring_node_batch);
}

int write_saved(host *it, writer *to, size_t image)
{
    size_t name = strlen(it->shape.name);
    write_number(to, THIRD, 1);
    write_number(to, name, 1);
    write_bytes(to, it->shape.name, name);
    write_bytes(to, it->shape.space, SPACE_ID);
    write_number(to, it->shape.own, 1);
    write_number(to, it->shape.nodes, 1);
    write_number(to, it->shape.limit, 8);
    write_number(to, it->shape.byte_limit, 8);
    for (int i = 0; i < it->shape.nodes; i++) {
        write_known(to, &it->peers[i].known);
    }
    write_line(to, it);
    write_programs(it, to, is_opened);
    write_number(to, image, 8);
    return write_last(it, to, image, markring_node_image);
}

static bool read_shape(host_shape *it, version of, reader *from)
{
    size_t name = read_number(from, 1);
    const uint8_t *text = name <= HOST_NAME ? read_bytes(from, name) : NULL;
    const uint8_t *space = read_bytes(from, SPACE_ID);
    if (text == NULL || space == NULL) {
        return false;
    }
    memcpy(it->name, text, name);
    memcpy(it->space, space, SPACE_ID);
    it->own = (uint8_t)read_number(from, 1);
    it->nodes = (uint8_t)read_number(from, 1);
    it->limit = read_number(from, 8);
    it->byte_limit = of == THIRD ? read_number(from, 8) : BYTE_LIMIT;
    return from->ok && it->nodes <= NODES && it->own < it->nodes;
}

// Reads the version of a value; one of the first version has none.
static version read_version(const store_value *value, reader *from)
{
    *from = reader_of(value->buffer + STORE_HEAD, value->length);
    return value->length > 0 && (*from->at == SECOND || *from->at == THIRD)
        ? (version)read_number(from, 1)
        : FIRST;
}

bool read_saved_shape(const store_value *value, host_shape *to)
{
    reader from;
    version of = read_version(value, &from);
    memset(to, 0, sizeof *to);
    return read_shape(to, of, &from);
}

static void read_known(host *it, uint64_t node, reader *from)
{
    process *known = &it->peers[node].known;
    known->nonce = read_number(from, 8);
    known->run = read_number(from, 8);
    known->saves = read_number(from, 8);
}

// Reads the line, if it has changed. The saves of its processes are before those of this one.
static int read_line(host *it, reader *from)
{
    uint64_t count = read_number(from, 2);
    if (count >= LINE) {
        return MARKRING_BAD_IMAGE;
    }
    for (uint64_t i = 1; i <= count; i++) {
        uint64_t nonce = read_number(from, 8), run = read_number(from, 8);
        if (!from->ok || run <= it->line[i - 1].run || run >= it->run) {
            return MARKRING_BAD_IMAGE;
        }
        it->line[i] = (markring_ancestor){nonce, run};
    }
    it->line_count = count > 0 ? count + 1 : it->line_count;
    return from->ok ? MARKRING_OK : MARKRING_BAD_IMAGE;
}

// Reads bytes into a block of their own, which replaces another one.
static int read_block(uint8_t **block, size_t length, reader *from)
{
    const uint8_t *bytes = read_bytes(from, length);
    if (bytes == NULL) {
        return MARKRING_BAD_IMAGE;
    }
    free(*block);
    *block = length > 0 ? malloc(length) : NULL;
    if (*block != NULL) {
        memcpy(*block, bytes, length);
    }
    return *block == NULL && length > 0 ? MARKRING_MEMORY : MARKRING_OK;
}

// Reads the results of a program's last request, and its letters.
static int read_results(program *at, version of, reader *from)
{
    uint16_t count = (uint16_t)read_number(from, 2);
    at->count = 0;
    at->letters_length = 0;
    if (count > REQUEST_EVENTS) {
        return MARKRING_BAD_IMAGE;
    }
    int status = read_block(&at->results, count * (size_t)RESULT_BYTES, from);
    size_t letters = status == MARKRING_OK && of == THIRD ? (size_t)read_number(from, 4) : 0;
    status = status == MARKRING_OK ? read_block(&at->letters, letters, from) : status;
    if (status == MARKRING_OK) {
        at->count = count;
        at->letters_length = letters;
    }
    return status;
}

// Reads a program, which replaces what was read of it before. One of the first version has no
// registers for itself.
static int read_program(host *it, version of, reader *from)
{
    uint64_t number = read_number(from, 1);
    program *at = &it->programs[number < PROGRAMS ? number : 0];
    if (number >= PROGRAMS) {
        return MARKRING_BAD_IMAGE;
    }
    at->now.session = read_number(from, 8);
    at->now.round = read_number(from, 8);
    at->now.number = read_number(from, 8);
    at->first_register = of != FIRST ? (uint16_t)read_number(from, 2) : 0;
    at->registers = of != FIRST ? (uint16_t)read_number(from, 2) : 0;
    int status = read_results(at, of, from);
    return status == MARKRING_OK && at->now.session == 0 ? MARKRING_BAD_IMAGE : status;
}

static int read_programs(host *it, version of, reader *from)
{
    uint64_t count = read_number(from, 1);
    int status = MARKRING_OK;
    for (uint64_t i = 0; i < count && status == MARKRING_OK; i++) {
        status = read_program(it, of, from);
    }
    return status;
}

// Reads what is last in a value or an entry, after its length: an image or a batch.
static const uint8_t *read_last(reader *from, size_t *length)
{
    *length = (size_t)read_number(from, 8);
    return from->ok && *length == from->left ? read_bytes(from, *length) : NULL;
}

// Reads an entry, whose batch goes behind the others. One of the first version has no line.
static int read_entry(host *it, reader *from, version of, writer *batches)
{
    size_t length = 0;
    uint64_t count = read_number(from, 1);
    for (uint64_t i = 0; i < count; i++) {
        uint64_t node = read_number(from, 1);
        if (!from->ok || node >= it->shape.nodes) {
            return MARKRING_BAD_IMAGE;
        }
        read_known(it, node, from);
    }
    int status = of != FIRST ? read_line(it, from) : MARKRING_OK;
    status = status == MARKRING_OK ? read_programs(it, of, from) : status;
    const uint8_t *batch = status == MARKRING_OK ? read_last(from, &length) : NULL;
    if (status == MARKRING_OK && batch == NULL) {
        return MARKRING_BAD_IMAGE;
    }
    write_bytes(batches, batch, length);
    return status;
}

// Makes the node of its image and its batches.
static int read_node(host *it, const uint8_t *image, size_t length, const writer *batches)
{
    markring_state state;
    int status = markring_node_from_batches(
        &it->node, image, length, batches->start, batches->length, limit_of(it));
    if (status != MARKRING_OK) {
        return status;
    }
    status = markring_node_state(&it->node, &state);
    if (status == MARKRING_OK && (state.own != it->shape.own || state.nodes != it->shape.nodes)) {
        return MARKRING_BAD_IMAGE;
    }
    it->shape.registers = state.registers;
    it->shape.slots = state.slots;
    it->shape.wide = state.wide != 0;
    it->shape.places = state.places;
    it->shape.bytes = state.bytes;
    it->joined = state.cycle;
    status = status == MARKRING_OK ? markring_node_image_size(&it->node, &it->size) : status;
    it->measured = it->size;
    return status;
}

// Reads the entries behind a value, and makes the node.
static int read_entries(
    host *it, const store_value *value, version of, const uint8_t *image, size_t length)
{
    size_t at = 0, size = 0;
    int status = MARKRING_OK;
    uint8_t *room = malloc(it->entries + 1);
    if (room == NULL) {
        return MARKRING_MEMORY;
    }
    writer batches = writer_of(room, it->entries);
    const uint8_t *entry = store_next(value, &at, &size);
    while (entry != NULL && status == MARKRING_OK) {
        reader from = reader_of(entry, size);
        status = read_entry(it, &from, of, &batches);
        entry = store_next(value, &at, &size);
    }
    if (status == MARKRING_OK) {
        status = read_node(it, image, length, &batches);
    }
    free(room);
    return status;
}

int read_saved(host *it, const store_value *value)
{
    size_t image_length = 0;
    reader from;
    version of = read_version(value, &from);
    if (!read_shape(&it->shape, of, &from)) {
        return MARKRING_BAD_IMAGE;
    }
    for (int i = 0; i < it->shape.nodes; i++) {
        read_known(it, (uint64_t)i, &from);
    }
    int status = of != FIRST ? read_line(it, &from) : MARKRING_OK;
    status = status == MARKRING_OK ? read_programs(it, of, &from) : status;
    const uint8_t *image = status == MARKRING_OK ? read_last(&from, &image_length) : NULL;
    if (status == MARKRING_OK && image == NULL) {
        status = MARKRING_BAD_IMAGE;
    }
    it->whole = value->length;
    it->whole_due = value->whole > 0 || of == THIRD ? value->whole : 1;
    it->entries = value->end - STORE_HEAD - value->length - STORE_TAIL;
    if (status == MARKRING_OK) {
        status = read_entries(it, value, of, image, image_length);
    }
    for (uint8_t i = 0; i < PROGRAMS && status == MARKRING_OK; i++) {
        const program *at = &it->programs[i];
        bool is_right = give_registers(it, i, at->first_register, at->registers);
        status = is_right ? MARKRING_OK : MARKRING_BAD_IMAGE;
    }
    if (status == MARKRING_OK) {
        note_written(it);
    }
    return status;
}
