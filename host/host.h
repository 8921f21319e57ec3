// The host of markring_host.h, under the names that the host's own sources use.
#ifndef HOST_HOST_H
#define HOST_HOST_H

#include "packets.h"
#include "store.h"

typedef markring_host host;
typedef markring_host_calls host_calls;
typedef markring_host_counts host_counts;
typedef markring_host_end host_end;
typedef markring_host_options host_options;
typedef markring_host_shape host_shape;

#define host_changed markring_host_changed
#define host_connected markring_host_connected
#define host_control markring_host_control
#define host_counted markring_host_counted
#define host_create markring_host_create
#define host_ended markring_host_ended
#define host_free markring_host_free
#define host_is markring_host_is
#define host_leave markring_host_leave
#define host_node markring_host_node
#define host_open markring_host_open
#define host_packet markring_host_packet
#define host_reason markring_host_reason
#define host_rename markring_host_rename
#define host_rewrite markring_host_rewrite
#define host_rewritten markring_host_rewritten
#define host_request markring_host_request
#define host_saved markring_host_saved
#define host_taken markring_host_taken
#define host_turn markring_host_turn
#define host_unreachable markring_host_unreachable
#define host_wait markring_host_wait
#define host_wrote markring_host_wrote

#define HOST_RUNS MARKRING_HOST_RUNS
#define HOST_REPLY MARKRING_HOST_REPLY
#define HOST_NAME MARKRING_HOST_NAME
#define HOST_TAKES MARKRING_HOST_TAKES
#define HOST_REASON MARKRING_HOST_REASON
#define IMAGE_MOST MARKRING_HOST_IMAGE_MOST
#define IMAGE_TIGHT MARKRING_HOST_IMAGE_TIGHT
#define LETTERS_MOST MARKRING_HOST_LETTERS_MOST
#define LETTER_BYTES_MOST MARKRING_HOST_LETTER_BYTES_MOST
#define BYTE_LIMIT MARKRING_HOST_BYTE_LIMIT
#define ENTRIES_LEAST MARKRING_HOST_ENTRIES_LEAST
#define HOST_LEFT MARKRING_HOST_LEFT
#define HOST_OLDER MARKRING_HOST_OLDER
#define HOST_UNSURE MARKRING_HOST_UNSURE
#define HOST_TOO_LARGE MARKRING_HOST_TOO_LARGE
#define HOST_BROKEN MARKRING_HOST_BROKEN

// Reads of a value what the node is, without its places and bytes. Returns whether it can be read.
bool read_saved_shape(const store_value *value, host_shape *to);

_Static_assert((int)SPACE_ID == (int)MARKRING_HOST_SPACE_ID, "an id has one length");

#endif
