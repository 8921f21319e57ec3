// The letters with bytes that a node has for another one.
#include "inside.h"

#include <stdlib.h>

enum { LEAST_ROOM = 16 };

size_t parcel_bytes(size_t references, size_t bytes)
{
    return MESSAGE_BYTES + REFERENCE_BYTES * references + bytes;
}

// Makes room for one more. Returns whether there is memory.
bool make_room_in_queue(queue *it)
{
    if (it->count < it->room) {
        return true;
    }
    size_t room = it->room > 0 ? 2 * it->room : LEAST_ROOM;
    parcel *parcels = malloc(room * sizeof *parcels);
    if (parcels == NULL) {
        return false;
    }
    for (size_t i = 0; i < it->count; i++) {
        parcels[i] = it->parcels[(it->first + i) % it->room];
    }
    free(it->parcels);
    it->parcels = parcels;
    it->first = 0;
    it->room = room;
    return true;
}

void add_to_queue(queue *it, uint64_t number, size_t bytes)
{
    it->parcels[(it->first + it->count) % it->room] = (parcel){number, bytes};
    it->count++;
    it->bytes += bytes;
}

void trim_queue(queue *it, uint64_t acknowledged)
{
    while (it->count > 0 && it->parcels[it->first].number <= acknowledged) {
        it->bytes -= it->parcels[it->first].bytes;
        it->first = (it->first + 1) % it->room;
        it->count--;
    }
}
