// Each event has a call of its own, and `act`, for nodes and, if the library has them, for cells.
// This program gives the same events to spaces of two nodes, one for each of these ways: the
// statuses, the answers and what the nodes show must be the same. It also looks at the fields of
// each answer, and at the inline functions of the header.
//
//     calls SEED EVENTS
#include "check.h"

enum { REGISTERS = 4, SLOTS = 12 };

// The call of an event, for handles of one type.
#define CALLS(type) \
    static int call_##type(markring_##type *at, const markring_event *it, markring_answer *answer) \
    { \
        switch (it->kind) { \
        case MARKRING_EVENT_ALLOC: \
            return markring_##type##_alloc(at, it->reg, it->place, answer); \
        case MARKRING_EVENT_COPY: \
            return markring_##type##_copy(at, it->reg, it->source, answer); \
        case MARKRING_EVENT_DROP: \
            return markring_##type##_drop(at, it->reg, answer); \
        case MARKRING_EVENT_LOAD: \
            return markring_##type##_load(at, it->reg, it->object, it->place, answer); \
        case MARKRING_EVENT_STORE: \
            return markring_##type##_store(at, it->object, it->place, it->reg, answer); \
        case MARKRING_EVENT_CLEAR: \
            return markring_##type##_clear(at, it->object, it->place, answer); \
        case MARKRING_EVENT_WORD: \
            return markring_##type##_word(at, it->object, answer); \
        case MARKRING_EVENT_SET_WORD: \
            return markring_##type##_set_word(at, it->object, it->word, answer); \
        case MARKRING_EVENT_GIVE: \
            return markring_##type##_give(at, it->node, it->label, it->reg, answer); \
        case MARKRING_EVENT_ACCEPT: \
            return markring_##type##_accept(at, it->reg, answer); \
        case MARKRING_EVENT_PUT: \
            return markring_##type##_put(at, it->object, it->place, it->reg, answer); \
        case MARKRING_EVENT_GET: \
            return markring_##type##_get(at, it->object, it->place, it->label, answer); \
        case MARKRING_EVENT_RECLAIM: \
            return markring_##type##_reclaim(at, answer); \
        case MARKRING_EVENT_RECLAIM_YOUNG: \
            return markring_##type##_reclaim_young(at, answer); \
        case MARKRING_EVENT_RESOLVE: \
            return markring_##type##_resolve( \
                at, it->reg, &(markring_ref){it->node, it->count, it->word}, answer); \
        case MARKRING_EVENT_BEGIN: \
            return markring_##type##_begin(at, answer); \
        case MARKRING_EVENT_SCAN: \
            return markring_##type##_scan(at, answer); \
        case MARKRING_EVENT_PASS: \
            return markring_##type##_pass(at, answer); \
        case MARKRING_EVENT_SWEEP: \
            return markring_##type##_sweep(at, it->count, answer); \
        default: \
            return markring_##type##_next(at, it->node, answer); \
        } \
    }

CALLS(node)

// Two spaces of nodes and two of cells: the first of each is given `act`.
static markring_node nodes[2][2];
CALLS(cell)
static markring_cell cells[2][2];
enum { WAYS = 4 };
static unsigned long seen[MARKRING_ANSWER_RECLAIMED + 1], refusals[28];

static markring_event draw_event(uint64_t *seed)
{
    // More of those that fill registers than of those that empty them.
    static const uint8_t KINDS[] = {1, 1, 1, 1, 2, 3, 4, 4, 5, 5, 6, 7, 8, 9, 9, 10, 10, 11, 12, 13,
        14, 14, 14, 15, 15, 16, 16, 17, MARKRING_EVENT_RECLAIM, MARKRING_EVENT_RECLAIM_YOUNG,
        MARKRING_EVENT_RESOLVE, MARKRING_EVENT_RESOLVE};
    markring_event event = {0};
    event.kind = KINDS[below(seed, sizeof KINDS)];
    event.node = (uint8_t)below(seed, 3);
    event.place = (uint8_t)below(seed, event.kind == MARKRING_EVENT_ALLOC ? 10 : 4);
    event.reg = (uint16_t)below(seed, REGISTERS + below(seed, 2));
    event.source = (uint16_t)below(seed, REGISTERS);
    event.object = (uint16_t)below(seed, REGISTERS + below(seed, 2));
    event.label = (uint32_t)draw(seed);
    event.count = below(seed, 8);
    event.word = event.kind == MARKRING_EVENT_RESOLVE ? 1 + below(seed, 2) : draw(seed);
    return event;
}

// The fields that the answer's kind uses may have any value, and all others are 0.
static void look_at(const markring_answer *answer)
{
    markring_answer it = *answer;
    uint64_t number = 77;
    uint32_t freed = 77;
    int64_t sum = 77;
    uint8_t done = 77, colour = 77;
    markring_letter letter;
    markring_ref reference = {77, 77, 77};
    HOLDS(it.kind <= MARKRING_ANSWER_RECLAIMED);
    seen[it.kind]++;
    HOLDS((it.reference.generation != 0) == markring_answer_ref(&it, &reference));
    HOLDS(same_ref(reference, it.reference) || (reference.node == 77 && reference.slot == 77));
    HOLDS((it.kind == MARKRING_ANSWER_WORD) == markring_answer_word(&it, &number));
    HOLDS((it.kind == MARKRING_ANSWER_SENT) == markring_answer_sent(&it, &number));
    HOLDS((it.kind == MARKRING_ANSWER_BEGUN) == markring_answer_begun(&it, &number));
    HOLDS((it.kind == MARKRING_ANSWER_ENDED) == markring_answer_ended(&it, &number));
    HOLDS((it.kind == MARKRING_ANSWER_LETTER) == markring_answer_letter(&it, &letter));
    HOLDS((it.kind == MARKRING_ANSWER_PASSED) == markring_answer_token(&it, &colour, &sum));
    HOLDS((it.kind == MARKRING_ANSWER_FREED) == markring_answer_freed(&it, &freed, &done));
    HOLDS((it.kind == MARKRING_ANSWER_RECLAIMED) == markring_answer_reclaimed(&it, &freed));
    switch (it.kind) {
    case MARKRING_ANSWER_NEW:
    case MARKRING_ANSWER_SCANNED:
        HOLDS(markring_ref_is_some(it.reference));
        memset(&it.reference, 0, sizeof it.reference);
        break;
    case MARKRING_ANSWER_VALUE:
        memset(&it.reference, 0, sizeof it.reference);
        break;
    case MARKRING_ANSWER_LETTER:
        HOLDS(letter.from == it.node && letter.label == it.label);
        HOLDS(same_ref(letter.reference, it.reference));
        HOLDS(letter.registers == it.count && letter.bytes == it.number);
        // These are letters with one register each.
        HOLDS(it.count == 1 && it.number == 0);
        it.node = 0;
        it.count = 0;
        it.label = 0;
        memset(&it.reference, 0, sizeof it.reference);
        break;
    case MARKRING_ANSWER_WORD:
    case MARKRING_ANSWER_SENT:
    case MARKRING_ANSWER_BEGUN:
    case MARKRING_ANSWER_ENDED:
        HOLDS(number == it.number);
        it.number = 0;
        break;
    case MARKRING_ANSWER_PASSED:
        HOLDS(sum == it.sum && colour == it.colour && colour <= MARKRING_BLACK);
        it.sum = 0;
        it.colour = 0;
        break;
    case MARKRING_ANSWER_FREED:
        HOLDS(freed == it.count && done == it.done && done <= 1);
        it.count = 0;
        it.done = 0;
        break;
    case MARKRING_ANSWER_RECLAIMED:
        HOLDS(freed == it.count);
        it.count = 0;
        break;
    default:
        break;
    }
    markring_answer zeros = {0};
    zeros.kind = it.kind;
    HOLDS(same_answer(&zeros, &it));
}

// Gives an event to node `own` of all spaces.
static void give_event(uint8_t own_number, const markring_event *event)
{
    markring_answer answers[WAYS];
    int statuses[WAYS];
    for (int i = 0; i < WAYS; i++) {
        blot(&answers[i]);
    }
    statuses[0] = markring_node_act(&nodes[0][own_number], event, &answers[0]);
    statuses[1] = call_node(&nodes[1][own_number], event, &answers[1]);
    statuses[2] = markring_cell_act(&cells[0][own_number], event, &answers[2]);
    statuses[3] = call_cell(&cells[1][own_number], event, &answers[3]);
    for (int i = 0; i < WAYS; i++) {
        EQUAL((uint64_t)statuses[0], (uint64_t)statuses[i]);
        if (statuses[0] == MARKRING_OK) {
            look_at(&answers[i]);
            HOLDS(same_answer(&answers[0], &answers[i]));
        } else {
            HOLDS(statuses[0] > 0 && statuses[0] <= MARKRING_NOT_NOW);
            refusals[statuses[0]]++;
            HOLDS(is_blotted(&answers[i]));
        }
    }
}

static void save_cell(markring_cell *cell)
{
    static uint8_t buffer[1 << 16];
    size_t needed = 0;
    uint64_t mark = 0;
    OK(markring_cell_image(cell, buffer, sizeof buffer, &needed, &mark));
    OK(markring_cell_save(cell, mark));
}

// Sends and receives once, and returns what the sender and the receiver know of the link.
static void send_once(int i, uint8_t from, uint8_t to, markring_link *sender,
    markring_link *receiver)
{
    uint8_t sent;
    markring_answer answer;
    OK(markring_cell_send(&cells[i][from], to, &sent));
    while (markring_cell_receive(&cells[i][to], from, &answer) == MARKRING_OK) {
    }
    OK(markring_cell_link(&cells[i][from], to, sender));
    OK(markring_cell_link(&cells[i][to], from, receiver));
}

static void save_cells(uint8_t own_number)
{
    save_cell(&cells[0][own_number]);
    save_cell(&cells[1][own_number]);
}

static void move_between_cells(int i, uint8_t from, uint8_t to)
{
    markring_link sender, receiver;
    do {
        send_once(i, from, to, &sender, &receiver);
    } while (receiver.received != sender.released);
}

static void acknowledge_between_cells(int i, uint8_t from, uint8_t to)
{
    markring_link sender, receiver;
    do {
        send_once(i, from, to, &receiver, &sender);
    } while (sender.acknowledged != receiver.received_saved);
}

// The node and the cell have the same object in a slot, or none.
static void compare_object(markring_node *node, markring_cell *cell, uint32_t slot)
{
    markring_object one = {0}, two = {0};
    int status = markring_node_object(node, slot, &one);
    IS(status, markring_cell_object(cell, slot, &two));
    HOLDS(same_ref(one.reference, two.reference) && one.word == two.word);
    HOLDS(one.places == two.places && one.marked == two.marked && one.shared == two.shared);
    HOLDS(one.bytes == 0 && two.bytes == 0 && one.age == MARKRING_OLD && two.age == MARKRING_OLD);
    for (uint8_t place = 0; place <= one.places; place++) {
        markring_ref held = {0}, other = {0};
        status = markring_node_place(node, slot, place, &held);
        IS(status, markring_cell_place(cell, slot, place, &other));
        HOLDS(same_ref(held, other));
    }
}

// The cells show the same as the node.
static void compare_cells(uint8_t own_number)
{
    for (int i = 0; i < 2; i++) {
        markring_state node, cell;
        OK(markring_node_state(&nodes[0][own_number], &node));
        OK(markring_cell_state(&cells[i][own_number], &cell));
        HOLDS(node.live == cell.live && node.cycle == cell.cycle && node.ended == cell.ended);
        HOLDS(node.grey == cell.grey && node.letters == cell.letters);
        HOLDS(node.earlier == cell.earlier && node.recent == cell.recent);
        for (uint16_t reg = 0; reg <= REGISTERS; reg++) {
            markring_ref one = {0}, two = {0};
            int status = markring_node_register(&nodes[0][own_number], reg, &one);
            IS(status, markring_cell_register(&cells[i][own_number], reg, &two));
            HOLDS(same_ref(one, two));
        }
        uint32_t slots = 0, others = 0;
        OK(markring_node_slots(&nodes[0][own_number], &slots));
        OK(markring_cell_slots(&cells[i][own_number], &others));
        EQUAL(slots, others);
        for (uint32_t slot = 0; slot <= slots; slot++) {
            compare_object(&nodes[0][own_number], &cells[i][own_number], slot);
        }
    }
}

static void open_cells(int i)
{
    markring_space space = {0};
    OK(markring_space_new(&space, 2, REGISTERS, SLOTS, 0));
    OK(open_space(&space));
    OK(markring_space_cell(&space, 0, &cells[i][0]));
    OK(markring_space_cell(&space, 1, &cells[i][1]));
    OK(markring_space_free(&space));
}

static void free_cells(int i)
{
    OK(markring_cell_free(&cells[i][0]));
    OK(markring_cell_free(&cells[i][1]));
}

// Moves all released frames of a node to the other node, in all spaces.
static void move(uint8_t from, uint8_t to)
{
    uint8_t frame[48];
    size_t needed = 0;
    markring_answer answer;
    for (int i = 0; i < 2; i++) {
        for (uint8_t place = 0; markring_node_frame_at(&nodes[i][from], to, place, frame,
                 sizeof frame, &needed) == MARKRING_OK; place++) {
            OK(markring_node_take(&nodes[i][to], frame, needed, &answer));
        }
        move_between_cells(i, from, to);
    }
}

// Acknowledges to a node all that the other one has received and saved, in all spaces.
static void acknowledge(uint8_t from, uint8_t to)
{
    uint8_t frame[48];
    size_t needed = 0;
    markring_answer answer;
    for (int i = 0; i < 2; i++) {
        OK(markring_node_ack_for(&nodes[i][from], to, frame, sizeof frame, &needed));
        OK(markring_node_take(&nodes[i][to], frame, needed, &answer));
        acknowledge_between_cells(i, from, to);
    }
}

static void save_all(uint8_t own_number)
{
    save(&nodes[0][own_number]);
    save(&nodes[1][own_number]);
    save_cells(own_number);
}

// Saves a node, and moves its frames to the other one, which is saved and acknowledges them.
static void deliver(uint8_t from, uint8_t to)
{
    save_all(from);
    move(from, to);
    save_all(to);
    move(to, from);
    acknowledge(to, from);
}

static void compare(void)
{
    for (uint8_t own_number = 0; own_number < 2; own_number++) {
        bytes first = image_of(&nodes[0][own_number]), second = image_of(&nodes[1][own_number]);
        HOLDS(same_bytes(&first, &second));
        compare_cells(own_number);
        drop_bytes(&first);
        drop_bytes(&second);
    }
}

// Numbers and names of docs/RULES.md ("Refusals").
static void look_at_texts(void)
{
    static const char *const NAMES[] = {"OK", "Memory", "ArenaFull", "NoRegister", "EmptyRegister",
        "Remote", "Local", "NoNode", "NoLetter", "NoField", "TooManyFields", "SelfSend",
        "LinkSpent", "CyclesSpent", "NotDirector", "CycleRunning", "NothingToDo", "OutOfOrder",
        "AckBeyond", "BadFrame", "WrongNode", "BadImage", "ImageTooLarge", "Disk", "Closed",
        "TooManyBytes", "NoBytes", "NotNow"};
    for (int i = 0; i < 28; i++) {
        HOLDS(strcmp(NAMES[i], markring_status_text(i)) == 0);
    }
    for (int i = MARKRING_NO_HANDLE; i <= MARKRING_AGES; i++) {
        HOLDS(strcmp("unknown", markring_status_text(i)) != 0);
    }
    HOLDS(strcmp("unknown", markring_status_text(28)) == 0);
    HOLDS(strcmp("unknown", markring_status_text(-1)) == 0);
}

int main(int length, char **given)
{
    uint64_t seed = length > 1 ? strtoull(given[1], NULL, 10) : 1;
    unsigned long events = length > 2 ? strtoul(given[2], NULL, 10) : 20000;
    for (int i = 0; i < 2; i++) {
        for (uint8_t own_number = 0; own_number < 2; own_number++) {
            OK(markring_node_new(&nodes[i][own_number], 2, REGISTERS, SLOTS, own_number, 0));
        }
        open_cells(i);
    }
    for (unsigned long i = 0; i < events; i++) {
        markring_event event = draw_event(&seed);
        give_event((uint8_t)below(&seed, 2), &event);
        if (i % 9 == 0) {
            deliver((uint8_t)(i / 9 % 2), (uint8_t)(1 - i / 9 % 2));
        }
        if (i % 50 == 0) {
            compare();
        }
    }
    // All kinds of answers of events came, and all refusals that events of such spaces can meet.
    for (int kind = 0; kind <= MARKRING_ANSWER_FREED; kind++) {
        HOLDS(seen[kind] > 0);
    }
    for (int status = MARKRING_ARENA_FULL; status <= MARKRING_SELF_SEND; status++) {
        HOLDS(refusals[status] > 0);
    }
    HOLDS(refusals[MARKRING_NOT_DIRECTOR] > 0 && refusals[MARKRING_CYCLE_RUNNING] > 0);
    HOLDS(refusals[MARKRING_NOTHING_TO_DO] > 0);
    // (a few events hardly ever meet this one)
    HOLDS(events < 20000 || refusals[MARKRING_NOT_NOW] > 0);
    look_at_texts();
    for (int i = 0; i < 2; i++) {
        for (int own_number = 0; own_number < 2; own_number++) {
            OK(markring_node_free(&nodes[i][own_number]));
        }
        free_cells(i);
    }
    return report();
}
