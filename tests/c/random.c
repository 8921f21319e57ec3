// Programs of random events on all nodes of a space, over a net that loses, repeats and reorders
// frames, with cycles of the collector, and with crashes after which a node continues from its last
// stored image. Every answer is compared with a space without a collector (docs/PROOF.md), which is
// written here from the rules. At checkpoints the programs stop, everything is received and saved,
// and one whole cycle has to free the garbage: each node then has exactly the objects that the model
// reaches. Again and again, all objects in a node's slots are compared with the model, reachable or
// not. Half of the spaces are wide, and their objects have bytes. There, nodes also reclaim: of the
// private objects, those have to go that the model doesn't need, and no others; of the young ones,
// if a reclaim is limited to them. The model knows the ages of objects, too. Letters there have
// several references, and bytes, and nodes fetch words and bytes of other nodes' objects.
//
//     random SEEDS STEPS [NODES]
#include "check.h"

// ROUNDS bounds what must end by itself.
enum { MOST = 4, REGISTERS = 5, SLOTS = 48, IMAGE = 1 << 17, NET = 64, ROUNDS = 1000 };
// The most places of an object in plain and in wide spaces.
enum { PLAIN_PLACES = 8, PLACES = 20 };
// The most bytes of an object in wide spaces; those of its word.
enum { BYTES = 60, WORD = 8 };
// The most bytes of a frame: a letter with a reference of each register and all bytes.
enum { FRAME = 20 + 4 + 1 + 14 * REGISTERS + 4 + WORD + BYTES };

// ## The model

typedef enum age { OLD, YOUNG, REMEMBERED } age;

typedef struct object {
    markring_ref name;
    uint64_t word;
    uint8_t places;
    markring_ref at[PLACES];
    uint32_t length;
    uint8_t bytes[BYTES];
    int is_shared;
    age age;
} object;

// What a letter has: the contents of registers, and bytes.
typedef struct content {
    uint8_t count, length;
    markring_ref references[REGISTERS];
    uint8_t bytes[WORD + BYTES];
} content;

// A Give (tag 4), a Put (5), a Get (6), a Post (9) or a Fetch (10), as in frames. A Give and a Put
// have one reference or nothing.
typedef struct message {
    uint8_t tag, place;
    uint32_t label, offset, count;
    markring_ref about;
    content content;
} message;

typedef struct letter {
    uint8_t from;
    uint32_t label;
    content content;
} letter;

// A program's part of a node: what it would be if nothing were ever freed. Rows are in `bytes`.
typedef struct model {
    markring_ref registers[REGISTERS];
    bytes objects, letters;
    // Letters accepted of those that came, in bytes.
    size_t accepted;
    // Messages of programs for each node, and how many of each node were received.
    bytes sent[MOST];
    size_t received[MOST];
} model;

static const markring_ref NOTHING;
static int is_wide;

static uint8_t most_places(void)
{
    return is_wide ? PLACES : PLAIN_PLACES;
}

static object *find(model *it, markring_ref name)
{
    object *all = (object *)(void *)it->objects.at;
    for (size_t i = it->objects.length / sizeof *all; i-- > 0;) {
        if (same_ref(all[i].name, name)) {
            return &all[i];
        }
    }
    return NULL;
}

static void copy_model(model *to, const model *from)
{
    model copy = *from;
    bytes *rows[2 + MOST] = {&copy.objects, &copy.letters};
    bytes *old[2 + MOST] = {&to->objects, &to->letters};
    for (int i = 0; i < MOST; i++) {
        rows[2 + i] = &copy.sent[i];
        old[2 + i] = &to->sent[i];
    }
    for (int i = 0; i < 2 + MOST; i++) {
        bytes fresh = {0};
        add(&fresh, rows[i]->at, rows[i]->length);
        drop_bytes(old[i]);
        *rows[i] = fresh;
    }
    *to = copy;
}

static void drop_model(model *it)
{
    drop_bytes(&it->objects);
    drop_bytes(&it->letters);
    for (int i = 0; i < MOST; i++) {
        drop_bytes(&it->sent[i]);
    }
    memset(it, 0, sizeof *it);
}

// ## The space

typedef struct site {
    markring_node node;
    model now, stored;
    uint8_t *image;
    size_t length;
    // The mark of an image that is stored and not kept yet, or 0.
    uint64_t mark;
} site;

typedef struct packet {
    uint8_t from, to;
    size_t length;
    uint8_t frame[FRAME];
} packet;

static site sites[MOST];
static uint8_t nodes;
static uint64_t seed, limit;
static packet net[NET];
static int in_net;
// The tags of the messages from one node to another, by their numbers.
static bytes tags[MOST][MOST];
static unsigned long crashes, cycles, answers, lost;
// Objects that the cycles of checkpoints freed, and those that were reached there.
static unsigned long freed, kept;
static unsigned long written, patched, read, reclaimed, young, looked_at;
// Letters with several references, letters with bytes, fetched words, and ranges of bytes.
static unsigned long several, with_bytes, fetched, ranges;

static message *sent_by(model *it, uint8_t to, size_t index)
{
    HOLDS(index < it->sent[to].length / sizeof(message));
    return (message *)(void *)it->sent[to].at + index;
}

// What the model's test of own place says, or 0 and the object.
static int own_place(uint8_t own_number, uint16_t reg, uint8_t place, object **it)
{
    model *now = &sites[own_number].now;
    if (reg >= REGISTERS) {
        return MARKRING_NO_REGISTER;
    }
    if (!markring_ref_is_some(now->registers[reg])) {
        return MARKRING_EMPTY_REGISTER;
    }
    if (now->registers[reg].node != own_number) {
        return MARKRING_REMOTE;
    }
    // Whatever a register refers to is live.
    *it = find(now, now->registers[reg]);
    HOLDS(*it != NULL);
    return *it == NULL || place >= (*it)->places ? MARKRING_NO_FIELD : MARKRING_OK;
}

static int far_place(uint8_t own_number, uint16_t reg, uint8_t place)
{
    markring_ref it = sites[own_number].now.registers[reg];
    if (!markring_ref_is_some(it)) {
        return MARKRING_EMPTY_REGISTER;
    }
    return it.node == own_number ? MARKRING_LOCAL
        : place >= most_places() ? MARKRING_NO_FIELD
                                 : MARKRING_OK;
}

static int is_congested(uint8_t own_number, uint8_t to)
{
    markring_link link;
    if (limit == 0 || markring_node_link(&sites[own_number].node, to, &link) != MARKRING_OK) {
        return 0;
    }
    return link.appended - link.acknowledged >= limit;
}

// The object is shared from now on, if it is the node's own.
static void share(uint8_t own_number, markring_ref it)
{
    object *own_object = it.node == own_number ? find(&sites[own_number].now, it) : NULL;
    if (own_object != NULL) {
        own_object->is_shared = 1;
    }
}

// An old object is to name this one.
static void remember(uint8_t own_number, markring_ref it)
{
    object *own_object = it.node == own_number ? find(&sites[own_number].now, it) : NULL;
    if (own_object != NULL && own_object->age == YOUNG) {
        own_object->age = REMEMBERED;
    }
}

static void send_in_model(uint8_t own_number, uint8_t to, message it)
{
    share(own_number, it.about);
    for (uint8_t i = 0; i < it.content.count; i++) {
        share(own_number, it.content.references[i]);
    }
    add(&sites[own_number].now.sent[to], &it, sizeof it);
}

// The answer has this kind and this reference.
static void expect(const markring_answer *answer, int kind, markring_ref reference)
{
    EQUAL((uint64_t)kind, answer->kind);
    HOLDS(same_ref(answer->reference, reference));
}

static void expect_sent(uint8_t own_number, uint8_t to, const markring_answer *answer)
{
    markring_link link;
    OK(markring_node_link(&sites[own_number].node, to, &link));
    expect(answer, MARKRING_ANSWER_SENT, NOTHING);
    EQUAL(link.appended, answer->number);
}

static void alloc(uint8_t own_number, uint16_t reg, uint8_t places)
{
    markring_answer answer;
    model *now = &sites[own_number].now;
    int status = markring_node_alloc(&sites[own_number].node, reg, places, &answer);
    if (reg >= REGISTERS) {
        IS(MARKRING_NO_REGISTER, status);
    } else if (places > most_places()) {
        IS(MARKRING_TOO_MANY_FIELDS, status);
    } else if (status != MARKRING_ARENA_FULL && OK(status)) {
        object it = {0};
        it.name = answer.reference;
        it.places = places;
        it.is_shared = !is_wide;
        it.age = is_wide ? YOUNG : OLD;
        EQUAL(MARKRING_ANSWER_NEW, answer.kind);
        HOLDS(it.name.node == own_number && it.name.slot < SLOTS && it.name.generation > 0);
        HOLDS(find(now, it.name) == NULL);
        add(&now->objects, &it, sizeof it);
        now->registers[reg] = it.name;
    }
}

// How many registers a letter fills, and how many entries of the node it is.
static uint8_t entries(const letter *it)
{
    return it->content.count > 0 ? it->content.count : 1;
}

// The answer is this letter.
static void expect_letter(const markring_answer *answer, const letter *it)
{
    expect(answer, MARKRING_ANSWER_LETTER, it->content.references[0]);
    HOLDS(answer->node == it->from && answer->label == it->label);
    HOLDS(answer->count == entries(it) && answer->number == it->content.length);
}

// Looks at the letter that waits, and accepts it, with its bytes or without.
static void accept_waiting(markring_node *node, uint16_t reg, model *now)
{
    markring_answer answer;
    uint8_t all[WORD + BYTES];
    size_t needed = 0;
    letter *it = (letter *)(void *)(now->letters.at + now->accepted);
    content *in = &it->content;
    int expected = reg + entries(it) > REGISTERS ? MARKRING_NO_REGISTER : MARKRING_OK, status;
    OK(markring_node_letter(node, &answer));
    expect_letter(&answer, it);
    if (below(&seed, 2) != 0) {
        OK(markring_node_letter_bytes(node, all, sizeof all, &needed));
        status = markring_node_accept(node, reg, &answer);
    } else {
        if (in->length > 0) {
            IS(MARKRING_SHORT_BUFFER,
                markring_node_accept_into(node, reg, all, in->length - 1u, &needed, &answer));
        }
        status = markring_node_accept_into(node, reg, all, sizeof all, &needed, &answer);
    }
    HOLDS(needed == in->length && memcmp(all, in->bytes, needed) == 0);
    if (!IS(expected, status) || expected != MARKRING_OK) {
        return;
    }
    expect_letter(&answer, it);
    now->accepted += sizeof *it;
    memcpy(now->registers + reg, in->references, entries(it) * sizeof *in->references);
    several += in->count > 1;
    with_bytes += in->length > 0;
}

static void accept(uint8_t own_number, uint16_t reg)
{
    markring_answer answer;
    uint8_t none = 0;
    size_t needed = 77;
    model *now = &sites[own_number].now;
    markring_node *node = &sites[own_number].node;
    if (now->accepted < now->letters.length) {
        accept_waiting(node, reg, now);
        return;
    }
    IS(MARKRING_NO_LETTER, markring_node_accept(node, reg, &answer));
    IS(MARKRING_NO_LETTER, markring_node_letter(node, &answer));
    IS(MARKRING_NO_LETTER, markring_node_letter_bytes(node, &none, 0, &needed));
    IS(MARKRING_NO_LETTER, markring_node_accept_into(node, reg, &none, 0, &needed, &answer));
    EQUAL(77, needed);
}

// A letter with contents of registers and bytes, often too many.
static void post(uint8_t own_number, uint8_t to)
{
    markring_answer answer;
    message it = {.tag = 9, .label = (uint32_t)draw(&seed)};
    uint8_t given[BYTES + 1];
    uint16_t first = (uint16_t)below(&seed, REGISTERS + 1);
    uint8_t count = (uint8_t)below(&seed, REGISTERS + 2u - first);
    size_t length = below(&seed, 3) == 0 ? 0 : below(&seed, BYTES + 2);
    for (size_t i = 0; i < length; i++) {
        given[i] = (uint8_t)draw(&seed);
    }
    int expected = is_congested(own_number, to) ? MARKRING_CONGESTED
        : to >= nodes                           ? MARKRING_NO_NODE
        : to == own_number                      ? MARKRING_SELF_SEND
        : first + count > REGISTERS             ? MARKRING_NO_REGISTER
        : !is_wide                              ? MARKRING_TOO_MANY_FIELDS
        : length > BYTES                        ? MARKRING_TOO_MANY_BYTES
                                                : MARKRING_OK;
    if (IS(expected, markring_node_post(&sites[own_number].node, to, it.label, first, count, given,
                         length, &answer))
        && expected == MARKRING_OK) {
        it.content.count = count;
        it.content.length = (uint8_t)length;
        memcpy(it.content.references, sites[own_number].now.registers + first,
            count * sizeof *it.content.references);
        memcpy(it.content.bytes, given, length);
        send_in_model(own_number, to, it);
        expect_sent(own_number, to, &answer);
    }
}

static void give(uint8_t own_number, uint8_t to, uint16_t reg)
{
    markring_answer answer;
    message it = {.tag = 4, .label = (uint32_t)draw(&seed), .content = {.count = 1}};
    int congested = is_congested(own_number, to);
    int status = markring_node_give(&sites[own_number].node, to, it.label, reg, &answer);
    if (congested) {
        IS(MARKRING_CONGESTED, status);
    } else if (to == own_number || to >= nodes) {
        IS(to >= nodes ? MARKRING_NO_NODE : MARKRING_SELF_SEND, status);
    } else if (OK(status)) {
        it.content.references[0] = sites[own_number].now.registers[reg];
        send_in_model(own_number, to, it);
        expect_sent(own_number, to, &answer);
    }
}

static void put_or_get(uint8_t own_number, uint16_t object, uint8_t place, uint16_t reg, int is_put)
{
    markring_answer answer;
    model *now = &sites[own_number].now;
    markring_node *node = &sites[own_number].node;
    uint8_t to = now->registers[object].node;
    int congested = markring_ref_is_some(now->registers[object]) && is_congested(own_number, to);
    int expected = congested ? MARKRING_CONGESTED : far_place(own_number, object, place);
    message it = {.tag = is_put ? 5 : 6, .place = place, .label = (uint32_t)draw(&seed)};
    it.about = now->registers[object];
    int status = is_put ? markring_node_put(node, object, place, reg, &answer)
                        : markring_node_get(node, object, place, it.label, &answer);
    if (IS(expected, status) && status == MARKRING_OK) {
        it.content.count = (uint8_t)is_put;
        it.content.references[0] = is_put ? now->registers[reg] : NOTHING;
        send_in_model(own_number, to, it);
        expect_sent(own_number, to, &answer);
    }
}

// A register with another node's object, from this one on if there is one; otherwise this one.
static uint16_t far_register(uint8_t own_number, uint16_t reg)
{
    const model *now = &sites[own_number].now;
    for (uint16_t i = 0; i < REGISTERS; i++) {
        markring_ref it = now->registers[(reg + i) % REGISTERS];
        if (markring_ref_is_some(it) && it.node != own_number) {
            return (uint16_t)((reg + i) % REGISTERS);
        }
    }
    return reg;
}

// Asks for the word and bytes of another node's object.
static void fetch(uint8_t own_number, uint16_t object)
{
    markring_answer answer;
    model *now = &sites[own_number].now;
    uint8_t to = now->registers[object].node;
    int congested = markring_ref_is_some(now->registers[object]) && is_congested(own_number, to);
    message it = {.tag = 10, .label = (uint32_t)draw(&seed), .about = now->registers[object]};
    // More often than not a range that the object may have.
    it.offset = below(&seed, 3) != 0 ? below(&seed, 4) : below(&seed, BYTES + 2);
    it.count = below(&seed, 4) != 0 ? below(&seed, 8) : below(&seed, 2) << 31;
    int expected = congested ? MARKRING_CONGESTED : far_place(own_number, object, 0);
    if (expected == MARKRING_OK && (!is_wide || it.count >= UINT32_C(1) << 31)) {
        expected = MARKRING_TOO_MANY_BYTES;
    }
    if (IS(expected, markring_node_fetch(&sites[own_number].node, object, it.label, it.offset,
                         it.count, &answer))
        && expected == MARKRING_OK) {
        send_in_model(own_number, to, it);
        expect_sent(own_number, to, &answer);
    }
}

static void read_and_write(uint8_t own_number, uint16_t object_reg, uint8_t place, uint16_t reg)
{
    markring_answer answer;
    model *now = &sites[own_number].now;
    markring_node *node = &sites[own_number].node;
    object *it = NULL;
    uint64_t word = draw(&seed);
    int is_empty = !markring_ref_is_some(now->registers[reg]);
    int expected = own_place(own_number, object_reg, place, &it);
    int without_place = own_place(own_number, object_reg, 0, &it);
    without_place = it != NULL ? MARKRING_OK : without_place;
    switch (below(&seed, 5)) {
    case 0:
        if (IS(expected, markring_node_load(node, reg, object_reg, place, &answer))
            && expected == MARKRING_OK) {
            expect(&answer, MARKRING_ANSWER_VALUE, it->at[place]);
            now->registers[reg] = it->at[place];
        }
        break;
    case 1:
        expected = is_empty ? MARKRING_EMPTY_REGISTER : expected;
        if (IS(expected, markring_node_store(node, object_reg, place, reg, &answer))
            && expected == MARKRING_OK) {
            expect(&answer, MARKRING_ANSWER_DONE, NOTHING);
            it->at[place] = now->registers[reg];
            if (it->age == OLD) {
                remember(own_number, now->registers[reg]);
            }
        }
        break;
    case 2:
        if (IS(expected, markring_node_clear(node, object_reg, place, &answer))
            && expected == MARKRING_OK) {
            it->at[place] = NOTHING;
        }
        break;
    case 3:
        if (IS(without_place, markring_node_word(node, object_reg, &answer)) && it != NULL) {
            expect(&answer, MARKRING_ANSWER_WORD, NOTHING);
            EQUAL(it->word, answer.number);
        }
        break;
    default:
        if (IS(without_place, markring_node_set_word(node, object_reg, word, &answer))
            && it != NULL) {
            it->word = word;
        }
    }
}

// Writes all bytes of an object, if there aren't too many.
static void set_bytes(markring_node *node, uint16_t reg, object *it, int without_place)
{
    markring_answer answer;
    uint8_t given[BYTES + 1];
    uint32_t length = below(&seed, 3) != 0 ? below(&seed, BYTES + 2) : below(&seed, 4);
    for (uint32_t i = 0; i < length; i++) {
        given[i] = (uint8_t)draw(&seed);
    }
    int expected = it == NULL               ? without_place
        : !is_wide || length > BYTES        ? MARKRING_TOO_MANY_BYTES
                                            : MARKRING_OK;
    if (IS(expected, markring_node_set_bytes(node, reg, given, length, &answer))
        && expected == MARKRING_OK) {
        expect(&answer, MARKRING_ANSWER_DONE, NOTHING);
        memcpy(it->bytes, given, length);
        it->length = length;
        written++;
    }
}

// A number up to this one, or now and then one more, or any.
static uint32_t near(uint32_t most)
{
    uint32_t kind = below(&seed, 8);
    return kind == 0 ? most + 1 : kind == 1 ? (uint32_t)draw(&seed) : below(&seed, most + 1);
}

// Overwrites a range of an object's bytes, or reads one.
static void patch_or_read(markring_node *node, uint16_t reg, object *it, int without_place)
{
    markring_answer answer;
    uint8_t given[BYTES + 1] = {0};
    size_t needed = 0;
    int is_patch = below(&seed, 2) == 0;
    uint32_t length = it != NULL ? it->length : 0, offset = near(length);
    uint32_t count = offset <= length ? near(length - offset) : below(&seed, 3);
    count = is_patch && count > BYTES ? BYTES : count;
    int has_all = offset <= length && count <= length - offset && (is_wide || !is_patch);
    int expected = it == NULL ? without_place : has_all ? MARKRING_OK : MARKRING_NO_BYTES;
    for (uint32_t i = 0; is_patch && i < count; i++) {
        given[i] = (uint8_t)draw(&seed);
    }
    int status = is_patch
        ? markring_node_patch(node, reg, offset, given, count, &answer)
        : markring_node_bytes(node, reg, offset, count, given, sizeof given, &needed);
    if (!IS(expected, status) || expected != MARKRING_OK) {
        return;
    }
    if (is_patch) {
        expect(&answer, MARKRING_ANSWER_DONE, NOTHING);
        memcpy(it->bytes + offset, given, count);
    }
    HOLDS(memcmp(it->bytes + offset, given, count) == 0 && (is_patch || needed == count));
    patched += is_patch && count > 0;
    read += !is_patch && count > 0;
}

// Bytes of an object, written and read.
static void use_bytes(uint8_t own_number, uint16_t reg)
{
    markring_node *node = &sites[own_number].node;
    object *it = NULL;
    uint32_t length = 77;
    int without_place = own_place(own_number, reg, 0, &it);
    without_place = it != NULL ? MARKRING_OK : without_place;
    if (it == NULL || it->length == 0 || below(&seed, 3) == 0) {
        set_bytes(node, reg, it, without_place);
    }
    for (int times = 0; times < 2; times++) {
        patch_or_read(node, reg, it, without_place);
    }
    IS(without_place, markring_node_bytes_length(node, reg, &length));
    EQUAL(it != NULL ? it->length : 77, length);
}

static void copy_or_drop(uint8_t own_number, uint16_t reg, uint16_t source, int is_copy)
{
    markring_answer answer;
    markring_ref *registers = sites[own_number].now.registers;
    markring_node *node = &sites[own_number].node;
    int is_empty = !markring_ref_is_some(registers[is_copy ? source : reg]);
    int status = is_copy ? markring_node_copy(node, reg, source, &answer)
                         : markring_node_drop(node, reg, &answer);
    if (IS(is_empty ? MARKRING_EMPTY_REGISTER : MARKRING_OK, status) && !is_empty) {
        registers[reg] = is_copy ? registers[source] : NOTHING;
    }
}

static void program(uint8_t own_number)
{
    uint16_t reg = (uint16_t)below(&seed, REGISTERS), other = (uint16_t)below(&seed, REGISTERS);
    // Numbers about the limit of wide spaces, too.
    uint8_t more = is_wide && below(&seed, 2) != 0 ? PLACES - 2 : 0;
    uint8_t place = (uint8_t)(more + below(&seed, 3));
    answers++;
    switch (below(&seed, 16)) {
    case 0:
    case 1:
        alloc(own_number, (uint16_t)(reg + below(&seed, 8) / 7),
            (uint8_t)(more + below(&seed, more > 0 ? 4 : 10)));
        break;
    case 2: copy_or_drop(own_number, reg, other, 1); break;
    case 3: copy_or_drop(own_number, reg, other, 0); break;
    case 4:
    case 5: accept(own_number, reg); break;
    case 6: give(own_number, (uint8_t)below(&seed, nodes + below(&seed, 2)), reg); break;
    case 7: post(own_number, (uint8_t)below(&seed, nodes + below(&seed, 2))); break;
    case 8: put_or_get(own_number, reg, place, other, 1); break;
    case 9: put_or_get(own_number, reg, place, other, 0); break;
    case 10:
    case 11: use_bytes(own_number, reg); break;
    case 12:
    case 13:
        fetch(own_number, below(&seed, 4) != 0 ? far_register(own_number, reg) : reg);
        break;
    default: read_and_write(own_number, reg, place, other);
    }
}

// ## The net

// The answer to a Fetch: the object's word and the range of its bytes, if it has that. (An object
// that a message names is never freed before.)
static message fetched_of(const message *it, const object *about)
{
    message answer = {.tag = 9, .label = it->label};
    content *in = &answer.content;
    if (!HOLDS(about != NULL)) {
        return answer;
    }
    fetched++;
    for (int i = 0; i < WORD; i++) {
        in->bytes[in->length++] = (uint8_t)(about->word >> 8 * (WORD - 1 - i));
    }
    if (it->offset <= about->length && it->count <= about->length - it->offset) {
        memcpy(in->bytes + WORD, about->bytes + it->offset, it->count);
        in->length = (uint8_t)(in->length + it->count);
        ranges += it->count > 0;
    }
    return answer;
}

// The model receives the message with this number, if it is one of a program.
static void receive_in_model(uint8_t from, uint8_t to, uint64_t number)
{
    HOLDS(number <= tags[from][to].length);
    uint8_t tag = tags[from][to].at[number - 1];
    if (tag < 4 || tag == 7 || tag == 8) {
        return;
    }
    model *now = &sites[to].now;
    message it = *sent_by(&sites[from].now, to, now->received[from]++);
    EQUAL(it.tag, tag);
    object *about = tag == 4 || tag == 9 ? NULL : find(now, it.about);
    markring_ref *place = about != NULL && it.place < about->places ? &about->at[it.place] : NULL;
    if (tag == 4 || tag == 9) {
        letter came;
        memset(&came, 0, sizeof came);
        came.from = from;
        came.label = it.label;
        came.content = it.content;
        add(&now->letters, &came, sizeof came);
    } else if (tag == 5 && about != NULL) {
        if (about->age == OLD) {
            remember(to, it.content.references[0]);
        }
        if (place != NULL) {
            *place = it.content.references[0];
        }
    } else if (tag == 6) {
        message answer = {.tag = 4, .label = it.label, .content = {.count = 1}};
        answer.content.references[0] = place != NULL ? *place : NOTHING;
        send_in_model(to, from, answer);
    } else if (tag == 10) {
        send_in_model(to, from, fetched_of(&it, about));
    }
}

static void take(const packet *it)
{
    markring_answer answer;
    markring_node *node = &sites[it->to].node;
    markring_link link;
    uint64_t number;
    if (!OK(markring_node_link(node, it->from, &link))
        || !OK(markring_node_take(node, it->frame, it->length, &answer))) {
        return;
    }
    if (answer.kind == MARKRING_ANSWER_RECEIVED) {
        receive_in_model(it->from, it->to, link.received + 1);
    }
    while (markring_node_waiting(node, it->from, &number) == MARKRING_OK) {
        OK(markring_node_next(node, it->from, &answer));
        receive_in_model(it->from, it->to, number);
    }
}

// A node offers a frame of its window, or an acknowledgement, to the net.
static void offer(uint8_t from, uint8_t to, uint8_t place)
{
    packet it = {from, to, 0, {0}};
    size_t needed = 0;
    markring_link link;
    OK(markring_node_link(&sites[from].node, to, &link));
    int status = place < 32 ? markring_node_frame_at(&sites[from].node, to, place, it.frame,
                                  sizeof it.frame, &needed)
                            : markring_node_ack_for(&sites[from].node, to, it.frame,
                                  sizeof it.frame, &needed);
    int is_there = place >= 32 || place < link.released - link.acknowledged;
    if (!IS(is_there ? MARKRING_OK : MARKRING_NOTHING, status) || !is_there) {
        return;
    }
    it.length = needed;
    if (place < 32) {
        // The number is in the bytes 3 to 10, the tag in byte 19.
        uint64_t number = link.acknowledged + place + 1;
        EQUAL(number & 0xFF, it.frame[10]);
        while (tags[from][to].length < number) {
            add_number(&tags[from][to], 0, 1);
        }
        tags[from][to].at[number - 1] = it.frame[19];
        // Behind the tag of a Put and a Get are a reference and the place.
        int has_place = it.frame[19] == 5 || it.frame[19] == 6, is_new = it.frame[19] >= 9;
        EQUAL(is_new || (has_place && it.frame[33] >= PLAIN_PLACES) ? 0x46 : 0x45, it.frame[0]);
    }
    // A full net loses the packet that makes room.
    int at = in_net < NET ? in_net++ : (int)below(&seed, NET);
    net[at] = it;
}

static void deliver_one(void)
{
    if (in_net == 0) {
        return;
    }
    int at = (int)below(&seed, (uint32_t)in_net);
    packet it = net[at];
    uint32_t fate = below(&seed, 8);
    // Of eight packets one stays and comes again, and one is lost.
    if (fate != 0) {
        net[at] = net[--in_net];
    }
    if (fate == 1) {
        lost++;
    } else {
        take(&it);
    }
}

// ## Reclaiming

enum { FREE = 0, RETIRED = 2 };

// How a slot begins in an image.
typedef struct slot {
    uint8_t kind;
    uint64_t generation;
} slot;

static int is_object(slot it)
{
    return it.kind != FREE && it.kind != RETIRED;
}

static int is_shared(slot it)
{
    return it.kind == 1 || it.kind == 6 || it.kind == 7;
}

static age age_of(slot it)
{
    return it.kind == 1 || it.kind == 3 ? OLD : it.kind == 4 || it.kind == 6 ? YOUNG : REMEMBERED;
}

static uint64_t number_at(const uint8_t **at, int width)
{
    uint64_t number = 0;
    for (; width > 0; width--) {
        number = number << 8 | *(*at)++;
    }
    return number;
}

static void skip_optional(const uint8_t **at)
{
    *at += **at == 0 ? 1 : 14;
}

// The slots of a node of a wide space, from its image (docs/FORMATS.md, "Images").
static uint32_t read_slots(uint8_t own_number, slot to[SLOTS])
{
    static uint8_t image[IMAGE];
    size_t needed = 0;
    uint64_t mark = 0;
    const uint8_t *at = image + 8 + 8 + 28 + 17;
    OK(markring_node_image(&sites[own_number].node, image, IMAGE, &needed, &mark));
    EQUAL(4, image[2]);
    at += *at == 0 ? 1 : 10;
    at += own_number == 0 ? 8 * (nodes - 1) : 0;
    for (int reg = 0; reg < REGISTERS; reg++) {
        skip_optional(&at);
    }
    uint32_t count = (uint32_t)number_at(&at, 4);
    for (uint32_t i = 0; HOLDS(count <= SLOTS) && i < count; i++) {
        to[i].kind = *at++;
        to[i].generation = to[i].kind == RETIRED ? 0 : number_at(&at, 8);
        if (is_object(to[i])) {
            at += 16;
            uint32_t length = (uint32_t)number_at(&at, 4);
            at += length;
            for (int places = *at++; places > 0; places--) {
                skip_optional(&at);
            }
        }
    }
    return count;
}

// A node's slots, and which of them have an object that is needed. For a reclaim of the young, all
// that isn't young is needed, and what an old object names isn't followed.
typedef struct search {
    uint8_t own;
    int is_young;
    uint32_t count;
    slot slots[SLOTS];
    uint8_t needed[SLOTS];
} search;

// The object is needed, and what its places lead to at this node.
static void need(search *in, markring_ref it)
{
    int is_here = it.node == in->own && it.slot < in->count && is_object(in->slots[it.slot])
        && in->slots[it.slot].generation == it.generation;
    if (!is_here || in->needed[it.slot]) {
        return;
    }
    slot at = in->slots[it.slot];
    object *found = find(&sites[in->own].now, it);
    in->needed[it.slot] = 1;
    HOLDS(found != NULL && found->is_shared == is_shared(at) && found->age == age_of(at));
    int is_end = found == NULL || (in->is_young && found->age == OLD);
    for (int place = 0; !is_end && place < found->places; place++) {
        need(in, found->at[place]);
    }
}

// What is shared, or not young, and what registers and letters lead to.
static void need_all(search *in)
{
    model *now = &sites[in->own].now;
    for (uint32_t i = 0; i < in->count; i++) {
        slot at = in->slots[i];
        markring_ref it = {in->own, i, at.generation};
        if (is_object(at) && (is_shared(at) || (in->is_young && age_of(at) != YOUNG))) {
            need(in, it);
        }
    }
    for (int reg = 0; reg < REGISTERS; reg++) {
        need(in, now->registers[reg]);
    }
    for (size_t at = now->accepted; at < now->letters.length; at += sizeof(letter)) {
        letter *it = (letter *)(void *)(now->letters.at + at);
        for (uint8_t i = 0; i < it->content.count; i++) {
            need(in, it->content.references[i]);
        }
    }
}

// All objects of the node are old.
static void grow_old(uint8_t own_number)
{
    bytes *objects = &sites[own_number].now.objects;
    for (size_t at = 0; at < objects->length; at += sizeof(object)) {
        ((object *)(void *)(objects->at + at))->age = OLD;
    }
}

// (Only the mark of the last image can be kept, so none is taken while one waits for that.)
static void reclaim(uint8_t own_number, int is_young)
{
    slot after[SLOTS];
    search in = {.own = own_number, .is_young = is_young};
    markring_answer answer;
    markring_node *node = &sites[own_number].node;
    uint32_t lost_here = 0, looked_at = 0;
    in.count = is_wide ? read_slots(own_number, in.slots) : 0;
    need_all(&in);
    for (uint32_t i = 0; i < in.count; i++) {
        slot at = in.slots[i];
        lost_here += is_object(at) && !in.needed[i];
        looked_at += is_object(at) && (is_young ? age_of(at) != OLD : !is_shared(at));
    }
    int status = is_young ? markring_node_reclaim_young(node, &answer)
                          : markring_node_reclaim(node, &answer);
    int expected = looked_at > 0 ? MARKRING_OK : MARKRING_NOTHING_TO_DO;
    if (!IS(expected, status) || expected != MARKRING_OK) {
        return;
    }
    expect(&answer, MARKRING_ANSWER_RECLAIMED, NOTHING);
    EQUAL(lost_here, answer.count);
    *(is_young ? &young : &reclaimed) += lost_here;
    grow_old(own_number);
    EQUAL(in.count, read_slots(own_number, after));
    for (uint32_t i = 0; i < in.count; i++) {
        slot at = in.slots[i];
        int went = is_object(at) && !in.needed[i];
        int stays = is_object(at) ? (is_shared(at) ? 1 : 3) : at.kind;
        EQUAL(went ? FREE : stays, after[i].kind);
        EQUAL(at.generation + (uint64_t)went, after[i].generation);
    }
}

// ## Collecting, saving, crashing

static void collect(uint8_t own_number)
{
    markring_answer answer;
    markring_node *node = &sites[own_number].node;
    int status = MARKRING_OK;
    switch (below(&seed, 6)) {
    case 5:
        if (sites[own_number].mark == 0) {
            reclaim(own_number, below(&seed, 3) != 0);
        }
        return;
    case 0:
        status = markring_node_begin(node, &answer);
        cycles += status == MARKRING_OK;
        HOLDS(own_number == 0 ? status == MARKRING_OK || status == MARKRING_CYCLE_RUNNING
                              : status == MARKRING_NOT_DIRECTOR);
        return;
    case 1:
    case 2: status = markring_node_scan(node, &answer); break;
    case 3: status = markring_node_pass(node, &answer); break;
    default: status = markring_node_sweep(node, 1 + below(&seed, 20), &answer);
    }
    HOLDS(status == MARKRING_OK || status == MARKRING_NOTHING_TO_DO);
}

// Takes an image, which is stored; or says that the stored one is kept.
static void store(uint8_t own_number)
{
    site *it = &sites[own_number];
    if (it->mark != 0) {
        OK(markring_node_kept(&it->node, it->mark));
        it->mark = 0;
        return;
    }
    OK(markring_node_image(&it->node, it->image, IMAGE, &it->length, &it->mark));
    copy_model(&it->stored, &it->now);
}

static void crash(uint8_t own_number)
{
    site *it = &sites[own_number];
    OK(markring_node_free(&it->node));
    OK(markring_node_from_image(&it->node, it->image, it->length, limit));
    copy_model(&it->now, &it->stored);
    it->mark = 0;
    crashes++;
}

static void step(void)
{
    uint8_t own_number = (uint8_t)below(&seed, nodes), other = (uint8_t)below(&seed, nodes - 1u);
    other = (uint8_t)(other + (other >= own_number));
    uint32_t kind = below(&seed, 1000);
    if (kind < 350) {
        program(own_number);
    } else if (kind < 600) {
        deliver_one();
    } else if (kind < 800) {
        offer(own_number, other, (uint8_t)below(&seed, below(&seed, 2) != 0 ? 4 : 40));
    } else if (kind < 900) {
        collect(own_number);
    } else if (kind < 997) {
        store(own_number);
    } else {
        crash(own_number);
    }
}

// ## Checkpoints

// Saves all nodes, and moves all frames in order, until nothing is in flight.
static void settle(void)
{
    int moved = 1;
    in_net = 0;
    for (int rounds = 0; moved && failed == 0 && HOLDS(rounds < ROUNDS); rounds++) {
        moved = 0;
        for (uint8_t from = 0; from < nodes; from++) {
            sites[from].mark = 0;
            store(from);
            store(from);
        }
        for (uint8_t from = 0; from < nodes; from++) {
            for (uint8_t to = 0; to < nodes; to++) {
                markring_link link, back;
                if (to == from) {
                    continue;
                }
                OK(markring_node_link(&sites[from].node, to, &link));
                OK(markring_node_link(&sites[to].node, from, &back));
                moved |= link.appended != back.received || link.acknowledged != link.appended;
                for (uint8_t place = 0; place < 32 && place < link.released - link.acknowledged;
                     place++) {
                    offer(from, to, place);
                    take(&net[--in_net]);
                }
                offer(from, to, 32);
                take(&net[--in_net]);
            }
        }
    }
}

static void finish_cycle(void)
{
    markring_answer answer;
    markring_state state;
    for (int rounds = 0; failed == 0 && HOLDS(rounds < ROUNDS); rounds++) {
        settle();
        int status = markring_node_begin(&sites[0].node, &answer);
        if (status == MARKRING_OK) {
            cycles++;
            break;
        }
        IS(MARKRING_CYCLE_RUNNING, status);
        for (uint8_t node = 0; node < nodes; node++) {
            while (markring_node_scan(&sites[node].node, &answer) == MARKRING_OK) {
            }
            (void)markring_node_pass(&sites[node].node, &answer);
            if (markring_node_sweep(&sites[node].node, SLOTS, &answer) == MARKRING_OK) {
                freed += answer.count;
            }
        }
    }
    OK(markring_node_state(&sites[0].node, &state));
    EQUAL(state.cycle, state.ended + 1);
}

static unsigned reach(markring_ref it, bytes *seen)
{
    markring_ref *all = (markring_ref *)(void *)seen->at;
    if (!markring_ref_is_some(it)) {
        return 0;
    }
    for (size_t i = 0; i < seen->length / sizeof it; i++) {
        if (same_ref(all[i], it)) {
            return 0;
        }
    }
    add(seen, &it, sizeof it);
    object *found = find(&sites[it.node].now, it);
    HOLDS(found != NULL);
    for (int place = 0; found != NULL && place < found->places; place++) {
        (void)reach(found->at[place], seen);
    }
    return 1;
}

// An object of this node, if the register has one, has all its bytes.
static void expect_bytes(uint8_t node, uint16_t reg)
{
    uint8_t found[BYTES];
    size_t needed = 0;
    object *it = NULL;
    (void)own_place(node, reg, 0, &it);
    if (it != NULL) {
        OK(markring_node_bytes(&sites[node].node, reg, 0, it->length, found, BYTES, &needed));
        HOLDS(needed == it->length && memcmp(found, it->bytes, needed) == 0);
    }
}

// Nothing is in flight. What the model reaches from registers and letters is there, and after a cycle
// that begins now nothing else is. (It is over once the next one begins.)
static void checkpoint(void)
{
    bytes seen = {0};
    uint64_t objects[MOST] = {0}, waiting[MOST] = {0};
    for (int times = 0; times < 2; times++) {
        finish_cycle();
    }
    settle();
    for (uint8_t node = 0; node < nodes; node++) {
        model *now = &sites[node].now;
        for (int reg = 0; reg < REGISTERS; reg++) {
            markring_ref held = NOTHING;
            int status = markring_node_register(&sites[node].node, (uint16_t)reg, &held);
            HOLDS(status == MARKRING_OK || status == MARKRING_NOTHING);
            HOLDS(same_ref(held, now->registers[reg]));
            expect_bytes(node, (uint16_t)reg);
            (void)reach(now->registers[reg], &seen);
        }
        for (size_t at = now->accepted; at < now->letters.length; at += sizeof(letter)) {
            letter *it = (letter *)(void *)(now->letters.at + at);
            waiting[node] += entries(it);
            for (uint8_t i = 0; i < it->content.count; i++) {
                (void)reach(it->content.references[i], &seen);
            }
        }
    }
    kept += seen.length / sizeof(markring_ref);
    for (size_t i = 0; i < seen.length / sizeof(markring_ref); i++) {
        objects[((markring_ref *)(void *)seen.at)[i].node]++;
    }
    for (uint8_t node = 0; node < nodes; node++) {
        markring_state state;
        OK(markring_node_state(&sites[node].node, &state));
        EQUAL(objects[node], state.live);
        EQUAL(waiting[node], state.letters);
    }
    drop_bytes(&seen);
}

// ## Looking at objects

// An object that the node shows is the model's, with its places and bytes.
static void expect_object(markring_node *node, const object *it, const markring_object *shown)
{
    uint8_t found[BYTES];
    size_t needed = 0;
    uint32_t slot = shown->reference.slot;
    markring_ref held;
    HOLDS(shown->word == it->word && shown->places == it->places && shown->bytes == it->length);
    HOLDS(shown->shared == it->is_shared && shown->age == it->age && shown->marked <= 1);
    for (uint8_t place = 0; place < it->places; place++) {
        OK(markring_node_place(node, slot, place, &held));
        HOLDS(same_ref(held, it->at[place]));
    }
    IS(MARKRING_NO_FIELD, markring_node_place(node, slot, it->places, &held));
    OK(markring_node_bytes_at(node, slot, 0, it->length, found, BYTES, &needed));
    HOLDS(needed == it->length && memcmp(found, it->bytes, needed) == 0);
    IS(MARKRING_NO_BYTES,
        markring_node_bytes_at(node, slot, 1, it->length, found, BYTES, &needed));
}

// Looks at all slots of a node: each live object is there once, as the model has it.
static void look(uint8_t own_number)
{
    markring_node *node = &sites[own_number].node;
    markring_object shown;
    markring_state state;
    uint32_t slots = 0, live = 0;
    OK(markring_node_slots(node, &slots));
    for (uint32_t slot = 0; slot < slots; slot++) {
        int status = markring_node_object(node, slot, &shown);
        if (status == MARKRING_NOTHING) {
            continue;
        }
        OK(status);
        live++;
        HOLDS(shown.reference.node == own_number && shown.reference.slot == slot);
        object *it = find(&sites[own_number].now, shown.reference);
        if (HOLDS(it != NULL)) {
            expect_object(node, it, &shown);
        }
    }
    IS(MARKRING_NOTHING, markring_node_object(node, slots, &shown));
    OK(markring_node_state(node, &state));
    EQUAL(state.live, live);
    looked_at += live;
}

static void run(unsigned long steps, uint8_t size)
{
    nodes = size != 0 ? size : (uint8_t)(2 + below(&seed, MOST - 1));
    limit = below(&seed, 2) != 0 ? 6 + below(&seed, 40) : 0;
    for (uint8_t node = 0; node < nodes; node++) {
        markring_shape shape = {
            SLOTS, is_wide ? BYTES : 0, REGISTERS, nodes, most_places(), (uint8_t)is_wide};
        OK(markring_node_make(&sites[node].node, &shape, node, limit));
        sites[node].image = (uint8_t *)own(malloc(IMAGE));
        store(node);
        store(node);
    }
    // After a failure the model isn't the nodes' any more.
    for (unsigned long i = 1; i <= steps && failed == 0; i++) {
        step();
        if (i % 50 == 0) {
            look((uint8_t)(i / 50 % nodes));
        }
        if (i % (steps / 3 + 1) == 0 || i == steps) {
            checkpoint();
        }
    }
    in_net = 0;
    for (uint8_t node = 0; node < nodes; node++) {
        OK(markring_node_free(&sites[node].node));
        drop_model(&sites[node].now);
        drop_model(&sites[node].stored);
        free(sites[node].image);
        for (uint8_t to = 0; to < nodes; to++) {
            drop_bytes(&tags[node][to]);
        }
    }
    memset(sites, 0, sizeof sites);
}

int main(int length, char **given)
{
    unsigned long seeds = length > 1 ? strtoul(given[1], NULL, 10) : 40;
    unsigned long steps = length > 2 ? strtoul(given[2], NULL, 10) : 4000;
    uint8_t size = length > 3 ? (uint8_t)strtoul(given[3], NULL, 10) : 0;
    for (unsigned long i = 1; i <= seeds && failed == 0; i++) {
        seed = i * UINT64_C(0x9E3779B97F4A7C15) | 1;
        is_wide = i % 2 == 0;
        run(steps, size);
        if (failed != 0) {
            printf("seed %lu failed\n", i);
        }
    }
    HOLDS(crashes > 0 && cycles > 0 && lost > 0);
    // On average one in each program, or else too little happens.
    HOLDS(freed >= seeds && kept >= seeds);
    HOLDS(written > 0 && patched > 0 && read > 0 && reclaimed > 0 && young > 0);
    HOLDS(looked_at >= seeds && several > 0 && with_bytes > 0 && fetched > 0);
    // (few objects of short programs have bytes)
    HOLDS(ranges > 0 || steps < 1000);
    printf("%lu events of programs, %lu crashes, %lu cycles, %lu frames lost, %lu objects freed, "
           "%lu and %lu reclaimed, %lu kept, %lu looked at; bytes set %lu times, patched %lu "
           "times, read %lu times; %lu letters with several references, %lu with bytes, %lu "
           "words and %lu ranges fetched\n",
        answers, crashes, cycles, lost, freed, young, reclaimed, kept, looked_at, written, patched,
        read, several, with_bytes, fetched, ranges);
    return report();
}
