// Numbers as bytes, big-endian: a reader and a writer over a range of bytes. Both remember the
// first failure, so a caller tests once, at the end.
#ifndef HOST_BYTES_H
#define HOST_BYTES_H

#include <stdbool.h>
#include <stddef.h>
#include <stdint.h>
#include <stdlib.h>
#include <string.h>

// Reads from `at` on. `ok` is false once a read went past the end; such a read gives 0.
typedef struct reader {
    const uint8_t *at;
    size_t left;
    bool ok;
} reader;

static inline reader reader_of(const uint8_t *bytes, size_t length)
{
    reader it = {bytes, length, true};
    return it;
}

// The next `length` bytes, or NULL if there are fewer.
static inline const uint8_t *read_bytes(reader *it, size_t length)
{
    const uint8_t *found = it->at;
    if (!it->ok || it->left < length) {
        it->ok = false;
        return NULL;
    }
    it->at += length;
    it->left -= length;
    return found;
}

// The next number, of this many bytes, at most 8.
static inline uint64_t read_number(reader *it, size_t length)
{
    const uint8_t *bytes = read_bytes(it, length);
    uint64_t number = 0;
    for (size_t i = 0; bytes != NULL && i < length; i++) {
        number = number << 8 | bytes[i];
    }
    return number;
}

// Bytes that grow.
typedef struct growing {
    uint8_t *bytes;
    size_t length, room;
} growing;

// Makes room for this many more bytes. Returns whether there is memory.
static inline bool make_more_room(growing *it, size_t more)
{
    if (more <= it->room - it->length) {
        return true;
    }
    size_t room = 2 * it->room + more;
    uint8_t *bytes = realloc(it->bytes, room);
    if (bytes == NULL) {
        return false;
    }
    it->bytes = bytes;
    it->room = room;
    return true;
}

// Writes from `at` on. `ok` is false once a write went past the end; such a write does nothing.
typedef struct writer {
    uint8_t *start;
    size_t length, room;
    bool ok;
} writer;

static inline writer writer_of(uint8_t *bytes, size_t room)
{
    writer it = {bytes, 0, room, true};
    return it;
}

static inline void write_bytes(writer *it, const void *bytes, size_t length)
{
    if (!it->ok || it->room - it->length < length) {
        it->ok = false;
        return;
    }
    if (length > 0) {
        memcpy(it->start + it->length, bytes, length);
    }
    it->length += length;
}

static inline void write_number(writer *it, uint64_t number, size_t length)
{
    uint8_t bytes[8];
    for (size_t i = 0; i < length; i++) {
        bytes[i] = (uint8_t)(number >> 8 * (length - 1 - i));
    }
    write_bytes(it, bytes, length);
}

#endif
