// Images that meet each condition of docs/FORMATS.md ("Images") just so, and images that break one.
#include "check.h"

enum { NODES = 3, SLOT_COUNT = 3 };

typedef struct slot {
    uint8_t kind; // 0 free, 2 without further generations, else an object
    uint64_t generation, mark, word;
    uint8_t places;
    markring_ref at[2]; // nothing, or a reference
    uint32_t bytes;     // in a wide space, how many bytes it has; each is 7
} slot;

// What an image holds. Rows have few entries, of which the first `.._count` are written.
typedef struct image {
    uint8_t version, most_places, nodes, own, token, token_colour, colour, letter_from, body_tag;
    uint16_t registers;
    uint32_t slots, most_bytes, cursor, used, free_count, grey_count, asked_count, letter_count;
    uint32_t free[2], grey[2];
    // In a wide space: how many entries of the same letter follow each, and how many bytes the
    // first one has. What a Post or a Fetch in the links has; each byte is 7.
    uint8_t letter_more[3], post_count;
    uint32_t letter_bytes, post_bytes, fetch_count;
    uint64_t cycle, ended, swept, reports[NODES - 1], base[NODES], received[NODES], stamp;
    int64_t earlier, recent;
    markring_ref reg, asked[2], letter;
    slot all[SLOT_COUNT];
} image;

static const markring_ref FAR = {2, 1, 1};

// Node 1 of three while it marks in cycle 2, with an object in slot 0 that is grey, a free slot,
// and an object in slot 2 of the cycle before. It has a message for each other node.
static image busy(void)
{
    image it;
    memset(&it, 0, sizeof it);
    it.version = 2;
    it.nodes = NODES;
    it.own = 1;
    it.registers = 1;
    it.slots = 8;
    it.cycle = 2;
    it.ended = it.swept = 1;
    it.colour = MARKRING_BLACK;
    it.used = SLOT_COUNT;
    it.all[0] = (slot){1, 1, 2, 5, 2, {{0, 0, 0}, {2, 1, 1}}, 0};
    it.all[1] = (slot){0, 2, 0, 0, 0, {{0, 0, 0}, {0, 0, 0}}, 0};
    it.all[2] = (slot){1, 3, 1, 0, 0, {{0, 0, 0}, {0, 0, 0}}, 0};
    it.free_count = it.grey_count = it.asked_count = it.letter_count = 1;
    it.free[0] = 1;
    it.asked[0] = it.reg = FAR;
    it.asked[1] = (markring_ref){0, 1, 1};
    it.letter = (markring_ref){1, 0, 1};
    it.base[0] = 3;
    it.received[0] = 4;
    it.body_tag = 1;
    it.stamp = 2;
    return it;
}

// The same node in a wide space, whose objects have up to 9 places and 3 bytes.
static image wide(void)
{
    image it = busy();
    it.version = 4;
    it.most_places = 9;
    it.most_bytes = 3;
    it.all[2].bytes = 2;
    return it;
}

// The same node once it has swept the cycle.
static image swept(void)
{
    image it = busy();
    it.ended = it.swept = 2;
    it.grey_count = 0;
    return it;
}

// Node 0 of the same space.
static image zero(void)
{
    image it = swept();
    it.own = 0;
    it.reports[0] = it.reports[1] = 2;
    it.letter = FAR;
    it.letter_from = 2;
    it.base[1] = 3;
    it.received[1] = 4;
    it.reg = (markring_ref){0, 0, 1};
    it.asked[1] = (markring_ref){1, 1, 1};
    return it;
}

static void add_ref(bytes *to, markring_ref it)
{
    add_number(to, it.node, 1);
    add_number(to, it.slot, 4);
    add_number(to, it.generation, 8);
}

static void add_optional(bytes *to, markring_ref it)
{
    int is_some = it.generation != 0;
    add_number(to, (uint64_t)is_some, 1);
    if (is_some) {
        add_ref(to, it);
    }
}

static void add_row(bytes *to, const uint32_t *row, uint32_t count)
{
    add_number(to, count, 4);
    for (uint32_t i = 0; i < count; i++) {
        add_number(to, row[i], 4);
    }
}

static void add_sevens(bytes *to, uint32_t count)
{
    for (; count > 0; count--) {
        add_number(to, 7, 1);
    }
}

static void add_slots(bytes *to, const image *it)
{
    add_number(to, it->used, 4);
    for (uint32_t i = 0; i < it->used; i++) {
        const slot *one = &it->all[i];
        add_number(to, one->kind, 1);
        if (one->kind == 2) {
            continue;
        }
        add_number(to, one->generation, 8);
        if (one->kind != 0) {
            add_number(to, one->mark, 8);
            add_number(to, one->word, 8);
            if (it->version >= 4) {
                add_number(to, one->bytes, 4);
                add_sevens(to, one->bytes);
            }
            add_number(to, one->places, 1);
            for (int place = 0; place < one->places; place++) {
                add_optional(to, place < 2 ? one->at[place] : (markring_ref){0, 0, 0});
            }
        }
    }
}

// For each other node: what it has acknowledged, one message, and what was received.
static void add_links(bytes *to, const image *it)
{
    for (uint8_t node = 0; node < NODES; node++) {
        if (node == it->own) {
            continue;
        }
        add_number(to, it->base[node], 8);
        add_number(to, 1, 4);
        add_number(to, it->stamp, 8);
        add_number(to, it->body_tag, 1);
        if (it->body_tag == 9) {
            add_number(to, 5, 4);
            add_number(to, it->post_count, 1);
            for (uint8_t i = 0; i < it->post_count; i++) {
                add_optional(to, i == 0 ? it->letter : (markring_ref){0, 0, 0});
            }
            add_number(to, it->post_bytes, 4);
            add_sevens(to, it->post_bytes);
        } else if (it->body_tag == 10) {
            add_ref(to, (markring_ref){node, 0, 1});
            add_number(to, 5, 4);
            add_number(to, UINT32_MAX, 4);
            add_number(to, it->fetch_count, 4);
        }
        add_number(to, it->received[node], 8);
    }
}

static bytes spelled(const image *it)
{
    bytes all = {0};
    add_number(&all, 0x4D52, 2);
    add_number(&all, it->version, 1);
    if (it->version >= 4) {
        add_number(&all, it->most_places, 1);
        add_number(&all, it->most_bytes, 4);
    }
    add_number(&all, it->nodes, 1);
    add_number(&all, it->own, 1);
    add_number(&all, it->registers, 2);
    add_number(&all, it->slots, 4);
    add_number(&all, it->cycle, 8);
    add_number(&all, it->ended, 8);
    add_number(&all, it->swept, 8);
    add_number(&all, it->cursor, 4);
    add_number(&all, it->colour, 1);
    add_number(&all, (uint64_t)it->earlier, 8);
    add_number(&all, (uint64_t)it->recent, 8);
    add_number(&all, it->token, 1);
    if (it->token == 1) {
        add_number(&all, it->token_colour, 1);
        add_number(&all, 0, 8);
    }
    for (int i = 0; i < NODES - 1 && it->own == 0; i++) {
        add_number(&all, it->reports[i], 8);
    }
    for (int i = 0; i < it->registers; i++) {
        add_optional(&all, it->reg);
    }
    add_slots(&all, it);
    add_row(&all, it->free, it->free_count);
    add_row(&all, it->grey, it->grey_count);
    add_number(&all, it->asked_count, 4);
    for (uint32_t i = 0; i < it->asked_count; i++) {
        add_ref(&all, it->asked[i]);
    }
    add_number(&all, it->letter_count, 4);
    for (uint32_t i = 0; i < it->letter_count; i++) {
        add_number(&all, it->letter_from, 1);
        add_number(&all, 7, 4);
        add_optional(&all, it->letter);
        if (it->version >= 4) {
            add_number(&all, it->letter_more[i], 1);
            add_number(&all, i == 0 ? it->letter_bytes : 0, 4);
            add_sevens(&all, i == 0 ? it->letter_bytes : 0);
        }
    }
    add_links(&all, it);
    return all;
}

static void expect(int status, const image *it, const char *change, int line)
{
    markring_node node = {0};
    bytes given = spelled(it);
    check_status(status, markring_node_from_image(&node, given.at, given.length, 0), change,
        __FILE__, line);
    HOLDS((node.at != NULL) == (status == MARKRING_OK));
    if (node.at != NULL) {
        bytes again = image_of(&node);
        check(same_bytes(&given, &again), change, __FILE__, line);
        drop_bytes(&again);
        OK(markring_node_free(&node));
    }
    drop_bytes(&given);
}

// The image with these changes is one, or isn't.
#define TRY(status, base, change) \
    do { \
        image it = base(); \
        change; \
        expect((status), &it, #base ", " #change, __LINE__); \
    } while (0)
#define GOOD(base, change) TRY(MARKRING_OK, base, change)
#define BAD(base, change) TRY(MARKRING_BAD_IMAGE, base, change)

static void sizes_and_phases(void)
{
    GOOD(busy, (void)0);
    GOOD(swept, (void)0);
    GOOD(zero, (void)0);
    BAD(busy, it.version = 0);
    BAD(busy, it.version = 3);
    BAD(busy, it.version = 4);
    BAD(busy, it.own = 3);
    BAD(busy, it.registers = 0);
    GOOD(busy, it.registers = 256);
    BAD(busy, it.registers = 257);
    GOOD(busy, it.slots = 3);
    BAD(busy, it.slots = 2);
    GOOD(busy, it.slots = 1048576);
    BAD(busy, it.slots = 1048577);
    // swept <= ended <= cycle <= swept + 1
    BAD(busy, it.swept = 2);
    BAD(busy, it.ended = 3);
    BAD(busy, it.cycle = 3);
    BAD(swept, it.ended = 1);
    GOOD(swept, it.swept = 1);
    GOOD(swept, it.cycle = it.ended = it.swept = UINT64_C(1) << 48);
    BAD(swept, it.cycle = it.ended = it.swept = (UINT64_C(1) << 48) + 1);
    // The cursor: at most the number of used slots, and 0 unless the node sweeps.
    GOOD(swept, it.swept = 1; it.cursor = 3);
    BAD(swept, it.swept = 1; it.cursor = 4);
    BAD(swept, it.cursor = 1);
    BAD(busy, it.cursor = 1);
    // The token and the colours.
    GOOD(busy, it.token = 1);
    GOOD(busy, it.token = 1; it.token_colour = 1);
    BAD(busy, it.token = 1; it.token_colour = 2);
    BAD(busy, it.token = 2);
    BAD(busy, it.colour = 2);
    BAD(swept, it.token = 1);
    BAD(swept, it.token = 1; it.swept = 1);
    // Reports, of node 0 alone.
    GOOD(zero, it.reports[0] = 0);
    BAD(zero, it.reports[0] = 3);
    BAD(zero, it.reports[1] = 3);
}

static void slots(void)
{
    // Generations, marks, kinds, places.
    BAD(busy, it.all[0].generation = 0);
    GOOD(busy, it.all[0].generation = UINT64_MAX);
    BAD(busy, it.all[1].generation = 1);
    GOOD(busy, it.all[1].generation = UINT64_MAX);
    BAD(busy, it.all[2].mark = 3);
    GOOD(busy, it.all[2].mark = 2);
    for (uint8_t kind = 3; kind <= 8; kind++) {
        BAD(busy, it.all[2].kind = kind);
    }
    GOOD(busy, it.all[2].kind = 2);
    GOOD(busy, it.all[2].places = 8);
    BAD(busy, it.all[2].places = 9);
    // The free list: exactly the free slots, each once.
    BAD(busy, it.free_count = 0);
    BAD(busy, it.free[0] = 2);
    BAD(busy, it.free[0] = 3);
    BAD(busy, it.free_count = 2; it.free[1] = 1);
    BAD(busy, it.all[2].kind = 0);
    GOOD(busy, it.all[2].kind = 0; it.free_count = 2; it.free[1] = 2);
    GOOD(busy, it.all[2].kind = 0; it.free_count = 2; it.free[0] = 2; it.free[1] = 1);
    BAD(busy, it.all[1].kind = 2);
    // The grey list: objects marked in this cycle, each at most once; none once marking has ended.
    GOOD(busy, it.grey_count = 0);
    BAD(busy, it.grey[0] = 1);
    BAD(busy, it.grey[0] = 2);
    GOOD(busy, it.grey[0] = 2; it.all[2].mark = 2);
    BAD(busy, it.grey[0] = 3);
    BAD(busy, it.grey_count = 2; it.grey[1] = 0);
    GOOD(busy, it.grey_count = 2; it.grey[1] = 2; it.all[2].mark = 2);
    BAD(busy, it.all[0].mark = 1);
    BAD(busy, it.ended = 2);
    GOOD(busy, it.ended = 2; it.grey_count = 0);
}

// The sizes and places of wide spaces.
static void wide_sizes(void)
{
    GOOD(wide, (void)0);
    BAD(wide, it.version = 5);
    BAD(wide, it.version = 6);
    BAD(wide, it.own = 3);
    BAD(wide, it.registers = 0);
    GOOD(wide, it.registers = 256);
    GOOD(wide, it.registers = 257);
    GOOD(wide, it.registers = 65535);
    BAD(wide, it.slots = 2);
    GOOD(wide, it.slots = 1048576);
    GOOD(wide, it.slots = 1048577);
    GOOD(wide, it.slots = 16777216);
    BAD(wide, it.slots = 16777217);
    for (uint8_t kind = 3; kind <= 7; kind++) {
        GOOD(wide, it.all[2].kind = kind);
    }
    BAD(wide, it.all[2].kind = 8);
    BAD(wide, it.all[2].kind = 255);
    GOOD(wide, it.all[2].places = 9);
    BAD(wide, it.all[2].places = 10);
    GOOD(wide, it.most_places = 2);
    BAD(wide, it.most_places = 1);
    BAD(wide, it.most_places = 0);
    GOOD(wide, it.most_places = 8; it.all[2].places = 8);
    BAD(wide, it.most_places = 8; it.all[2].places = 9);
    GOOD(wide, it.all[2].bytes = 0);
    GOOD(wide, it.all[2].bytes = 3);
    BAD(wide, it.all[2].bytes = 4);
    GOOD(wide, it.most_bytes = 2);
    BAD(wide, it.most_bytes = 1);
    BAD(wide, it.most_bytes = 0);
    GOOD(wide, it.most_bytes = 0; it.all[2].bytes = 0);
    GOOD(wide, it.most_bytes = 16777216);
    BAD(wide, it.most_bytes = 16777217);
    GOOD(wide, it.most_places = 255; it.all[2].places = 255);
    BAD(wide, it.most_places = 254; it.all[2].places = 255);
    GOOD(wide, it.slots = 16777216; it.reg.slot = 16777215);
    BAD(wide, it.slots = 16777216; it.reg.slot = 16777216);
    GOOD(wide, it.slots = 1048577; it.letter.slot = 1048576);
    BAD(wide, it.slots = 1048577; it.letter.slot = 1048577);
}

// Letters with several references and bytes, those on their way too, and fetches.
static void letters(void)
{
    BAD(wide, it.letter_more[0] = 1);
    GOOD(wide, it.letter_count = 2; it.letter_more[0] = 1);
    BAD(wide, it.letter_count = 2; it.letter_more[1] = 1);
    GOOD(wide, it.letter_count = 3; it.letter_more[0] = 2; it.letter_more[1] = 1);
    BAD(wide, it.letter_count = 3; it.letter_more[0] = 3; it.letter_more[1] = 1);
    GOOD(wide, it.letter_count = 3; it.letter_more[1] = 1);
    BAD(wide, it.letter_more[0] = 255);
    GOOD(wide, it.letter_bytes = 1);
    // (The answer to a Fetch may have more bytes than an object.)
    GOOD(wide, it.letter_bytes = 65535);
    BAD(busy, it.body_tag = 9);
    GOOD(wide, it.body_tag = 9);
    GOOD(wide, it.body_tag = 9; it.post_count = 1);
    GOOD(wide, it.body_tag = 9; it.post_count = 9);
    BAD(wide, it.body_tag = 9; it.post_count = 10);
    BAD(wide, it.body_tag = 9; it.post_count = 1; it.letter_count = 0; it.letter.slot = 8);
    GOOD(wide, it.body_tag = 9; it.post_bytes = 65535);
    BAD(wide, it.body_tag = 9; it.post_bytes = 65536);
    BAD(busy, it.body_tag = 10);
    GOOD(wide, it.body_tag = 10);
    GOOD(wide, it.body_tag = 10; it.fetch_count = 65527);
    BAD(wide, it.body_tag = 10; it.fetch_count = 65528);
    BAD(wide, it.body_tag = 11);
}

static void references(void)
{
    // To a node and a slot within the sizes.
    GOOD(busy, it.reg.slot = 7);
    BAD(busy, it.reg.slot = 8);
    BAD(busy, it.reg.node = 3);
    GOOD(busy, it.reg.generation = 0);
    BAD(busy, it.all[0].at[1].slot = 8);
    BAD(busy, it.all[0].at[1].node = 3);
    GOOD(busy, it.all[0].at[0] = it.reg);
    BAD(busy, it.letter.slot = 8);
    BAD(busy, it.letter.node = 3);
    GOOD(busy, it.letter.generation = 0);
    // Those asked for: of other nodes, each at most once.
    GOOD(busy, it.asked_count = 0);
    GOOD(busy, it.asked_count = 2);
    BAD(busy, it.asked_count = 2; it.asked[1] = it.asked[0]);
    BAD(busy, it.asked[0].node = 1);
    BAD(busy, it.asked[0].node = 3);
    BAD(busy, it.asked[0].slot = 8);
    BAD(busy, it.asked[0].generation = 0);
    // A letter's sender is another node.
    GOOD(busy, it.letter_from = 2);
    BAD(busy, it.letter_from = 1);
    BAD(busy, it.letter_from = 3);
}

static void links(void)
{
    uint64_t last = UINT64_C(1) << 48;
    BAD(busy, it.stamp = 3);
    GOOD(busy, it.stamp = 0);
    BAD(busy, it.body_tag = 0);
    BAD(busy, it.body_tag = 9);
    GOOD(busy, it.body_tag = 8);
    // The message has the number after the last one acknowledged.
    GOOD(busy, it.base[0] = last - 1);
    BAD(busy, it.base[0] = last);
    BAD(busy, it.base[2] = UINT64_MAX);
    GOOD(busy, it.received[2] = last);
    BAD(busy, it.received[2] = last + 1);
    // The balances: at most all messages sent and received, which are 4 and 1, 4 and 0.
    GOOD(busy, it.earlier = 9);
    BAD(busy, it.earlier = 10);
    GOOD(busy, it.recent = -9);
    BAD(busy, it.recent = -10);
    GOOD(busy, it.earlier = -4; it.recent = 5);
    BAD(busy, it.earlier = -5; it.recent = 5);
    BAD(busy, it.earlier = INT64_MIN);
    BAD(busy, it.earlier = INT64_MAX; it.recent = INT64_MAX);
    BAD(busy, it.earlier = INT64_MIN; it.recent = INT64_MIN);
}

int main(void)
{
    sizes_and_phases();
    slots();
    wide_sizes();
    letters();
    references();
    links();
    return report();
}
