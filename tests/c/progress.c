// Collection never gets stuck. In random spaces of 2 to 64 nodes, at a random moment, the programs
// stop, and the collector plays its strategy (docs/PROOF.md, "Progress"): receive what is in flight;
// scan grey objects; pass the token; sweep; begin. No move may be refused. The marking has to end,
// then each node has to sweep the cycle, and then the next one, each within a bound that is computed
// from the images of the nodes at that moment. What was garbage then has to be gone at the end.
//
//     progress WORLDS
//
// It prints the largest ratios of moves to bounds.
#include "check.h"

enum { MOST = 64, REGISTERS = 4, SLOTS = 32, PLACES = 8, IMAGE = 1 << 18, FRAME = 48 };
// Tags of bodies, as in frames.
enum { BEGIN = 1, TOKEN, MARK, GIVE, PUT, GET, ENDED, SWEPT };

typedef struct site {
    markring_node node;
    uint8_t *stored;
    size_t length;
    // Messages ever appended for each node, and received from each.
    uint64_t appended[MOST], received[MOST];
} site;

static site sites[MOST];
static uint8_t nodes;
static uint64_t seed;

// ## What an image says

typedef struct object {
    markring_ref name;
    uint64_t mark;
    uint8_t places;
    markring_ref at[PLACES];
} object;

typedef struct message {
    uint8_t to, tag;
    uint64_t number;
    markring_ref about, reference;
} message;

// What counts and what is reached in the image of a node. The rows have objects, messages, the
// references in registers and letters, and the slots of grey objects.
typedef struct view {
    uint64_t cycle, ended;
    uint32_t registers, letters;
    bytes objects, messages, roots, grey;
} view;

typedef struct reader {
    const uint8_t *at, *end;
} reader;

static uint64_t number_of(reader *it, int length)
{
    uint64_t number = 0;
    if (it->end - it->at < length) {
        HOLDS(!"an image ends too soon");
        return 0;
    }
    while (length-- > 0) {
        number = number << 8 | *it->at++;
    }
    return number;
}

static markring_ref reference_of(reader *it)
{
    markring_ref made = {0};
    made.node = (uint8_t)number_of(it, 1);
    made.slot = (uint32_t)number_of(it, 4);
    made.generation = number_of(it, 8);
    return made;
}

static markring_ref optional_of(reader *it)
{
    static const markring_ref nothing;
    return number_of(it, 1) != 0 ? reference_of(it) : nothing;
}

static void read_root(reader *it, view *to)
{
    markring_ref root = optional_of(it);
    add(&to->roots, &root, sizeof root);
}

static void read_slots(reader *it, view *to, uint8_t own_number)
{
    uint32_t count = (uint32_t)number_of(it, 4);
    for (uint32_t slot = 0; slot < count; slot++) {
        object made = {0};
        uint8_t tag = (uint8_t)number_of(it, 1);
        if (tag == 2) {
            continue;
        }
        made.name.node = own_number;
        made.name.slot = slot;
        made.name.generation = number_of(it, 8);
        if (tag == 0) {
            continue;
        }
        made.mark = number_of(it, 8);
        (void)number_of(it, 8);
        made.places = (uint8_t)number_of(it, 1);
        for (uint8_t place = 0; place < made.places && HOLDS(made.places <= PLACES); place++) {
            made.at[place] = optional_of(it);
        }
        add(&to->objects, &made, sizeof made);
    }
}

static message read_message(reader *it)
{
    message made = {0};
    (void)number_of(it, 8);
    made.tag = (uint8_t)number_of(it, 1);
    switch (made.tag) {
    case TOKEN: (void)number_of(it, 1); (void)number_of(it, 8); break;
    case MARK: made.about = reference_of(it); break;
    case GIVE: (void)number_of(it, 4); made.reference = optional_of(it); break;
    case PUT:
        made.about = reference_of(it);
        (void)number_of(it, 1);
        made.reference = optional_of(it);
        break;
    case GET: made.about = reference_of(it); (void)number_of(it, 1); (void)number_of(it, 4); break;
    default: HOLDS(made.tag == BEGIN || made.tag == ENDED || made.tag == SWEPT);
    }
    return made;
}

static void read_links(reader *it, view *to, uint8_t own_number)
{
    for (uint8_t peer = 0; peer < nodes; peer++) {
        if (peer == own_number) {
            continue;
        }
        uint64_t number = number_of(it, 8);
        uint32_t count = (uint32_t)number_of(it, 4);
        while (count-- > 0) {
            message made = read_message(it);
            made.to = peer;
            made.number = ++number;
            add(&to->messages, &made, sizeof made);
        }
        (void)number_of(it, 8);
    }
}

static void read_image(const uint8_t *image, size_t length, view *to)
{
    reader it = {image + 3, image + length};
    HOLDS(number_of(&it, 1) == nodes);
    uint8_t own_number = (uint8_t)number_of(&it, 1);
    to->registers = (uint32_t)number_of(&it, 2);
    (void)number_of(&it, 4);
    to->cycle = number_of(&it, 8);
    to->ended = number_of(&it, 8);
    it.at += 8 + 4 + 1 + 8 + 8;
    it.at += *it.at != 0 ? 10 : 1;
    it.at += own_number == 0 ? 8 * (nodes - 1) : 0;
    for (uint32_t i = 0; i < to->registers; i++) {
        read_root(&it, to);
    }
    read_slots(&it, to, own_number);
    it.at += 4 * number_of(&it, 4);
    for (uint32_t count = (uint32_t)number_of(&it, 4); count > 0; count--) {
        uint32_t slot = (uint32_t)number_of(&it, 4);
        add(&to->grey, &slot, sizeof slot);
    }
    it.at += 13 * number_of(&it, 4);
    to->letters = (uint32_t)number_of(&it, 4);
    for (uint32_t i = 0; i < to->letters; i++) {
        it.at += 5;
        read_root(&it, to);
    }
    read_links(&it, to, own_number);
    HOLDS(it.at == it.end);
}

static void drop_view(view *it)
{
    drop_bytes(&it->objects);
    drop_bytes(&it->messages);
    drop_bytes(&it->roots);
    drop_bytes(&it->grey);
}

#define ROW(type, row) ((type *)(void *)(row).at)
#define COUNT(type, row) ((row).length / sizeof(type))

// ## The bounds

typedef struct bounds {
    uint64_t moves, cycle_moves, both_moves;
} bounds;

static uint64_t cost(uint8_t tag)
{
    switch (tag) {
    case TOKEN: return 0;
    case PUT: return 5;
    case GIVE: return 7;
    case GET: return 13;
    default: return 1;
    }
}

static uint64_t flight_of(uint8_t own_number, const view *it)
{
    uint64_t sum = 0;
    for (size_t i = 0; i < COUNT(message, it->messages); i++) {
        const message *one = &ROW(message, it->messages)[i];
        sum += one->number > sites[one->to].received[own_number] ? cost(one->tag) : 0;
    }
    return sum;
}

static uint64_t scan_work(const object *it)
{
    return 1 + 2 * (uint64_t)it->places;
}

static uint64_t node_work(const view *it, uint64_t cycle)
{
    uint64_t sum = it->cycle == cycle ? 0 : 1 + 2 * ((uint64_t)it->registers + it->letters);
    for (size_t i = 0; i < COUNT(object, it->objects); i++) {
        const object *one = &ROW(object, it->objects)[i];
        sum += one->mark == cycle ? 0 : scan_work(one);
        for (size_t k = 0; k < COUNT(uint32_t, it->grey); k++) {
            sum += ROW(uint32_t, it->grey)[k] == one->name.slot ? scan_work(one) : 0;
        }
    }
    return sum;
}

static uint64_t kept_work(const view *it)
{
    uint64_t sum = 2 * ((uint64_t)it->registers + it->letters);
    for (size_t i = 0; i < COUNT(object, it->objects); i++) {
        sum += scan_work(&ROW(object, it->objects)[i]);
    }
    return sum;
}

static bounds bounds_of(const view *views)
{
    uint64_t left = 0, kept = 0, n = nodes;
    for (uint8_t i = 0; i < nodes; i++) {
        left += flight_of(i, &views[i]) + node_work(&views[i], views[0].cycle);
        kept += kept_work(&views[i]);
    }
    bounds made;
    uint64_t next = left + kept + 6 * n;
    made.moves = 6 * n * (left + 1);
    made.cycle_moves = made.moves + left + 4 * n;
    made.both_moves = made.cycle_moves + 1 + 6 * n * (next + 1) + next + 4 * n;
    return made;
}

// ## Garbage

static int is_listed(const bytes *row, markring_ref it)
{
    for (size_t i = COUNT(markring_ref, *row); i-- > 0;) {
        if (same_ref(ROW(markring_ref, *row)[i], it)) {
            return 1;
        }
    }
    return 0;
}

static void add_reached(bytes *reached, markring_ref it)
{
    if (markring_ref_is_some(it) && !is_listed(reached, it)) {
        add(reached, &it, sizeof it);
    }
}

// Adds what the places of this object hold, in the views from `first` on, every second one.
static void follow(bytes *reached, const view *it, markring_ref name)
{
    for (size_t i = 0; i < COUNT(object, it->objects); i++) {
        const object *one = &ROW(object, it->objects)[i];
        for (uint8_t place = 0; same_ref(one->name, name) && place < one->places; place++) {
            add_reached(reached, one->at[place]);
        }
    }
}

// The objects that registers, letters and messages reach, by places of current or stored states:
// no choice of states reaches more.
static bytes reached_in(const view *current, const view *stored)
{
    bytes reached = {0};
    for (int i = 0; i < 2 * nodes; i++) {
        const view *it = i < nodes ? &current[i] : &stored[i - nodes];
        for (size_t k = 0; k < COUNT(markring_ref, it->roots); k++) {
            add_reached(&reached, ROW(markring_ref, it->roots)[k]);
        }
        for (size_t k = 0; k < COUNT(message, it->messages); k++) {
            add_reached(&reached, ROW(message, it->messages)[k].about);
            add_reached(&reached, ROW(message, it->messages)[k].reference);
        }
    }
    for (size_t k = 0; k < COUNT(markring_ref, reached); k++) {
        markring_ref name = ROW(markring_ref, reached)[k];
        follow(&reached, &current[name.node], name);
        follow(&reached, &stored[name.node], name);
    }
    return reached;
}

// ## The space

static void look(uint8_t own_number)
{
    for (uint8_t peer = 0; peer < nodes; peer++) {
        markring_link link;
        if (peer != own_number
            && markring_node_link(&sites[own_number].node, peer, &link) == MARKRING_OK) {
            sites[own_number].appended[peer] = link.appended;
            sites[own_number].received[peer] = link.received;
        }
    }
}

static void view_current(uint8_t own_number, view *to)
{
    bytes image = image_of(&sites[own_number].node);
    look(own_number);
    memset(to, 0, sizeof *to);
    read_image(image.at, image.length, to);
    drop_bytes(&image);
}

static void store(uint8_t own_number)
{
    uint64_t mark = 0;
    site *it = &sites[own_number];
    OK(markring_node_image(&it->node, it->stored, IMAGE, &it->length, &mark));
    OK(markring_node_kept(&it->node, mark));
}

static void restart(uint8_t own_number)
{
    site *it = &sites[own_number];
    OK(markring_node_free(&it->node));
    OK(markring_node_from_image(&it->node, it->stored, it->length, 0));
}

// The frame at this place of the window, or an acknowledgement, goes over if it is there.
static void carry(uint8_t from, uint8_t to, uint8_t place)
{
    uint8_t frame[FRAME];
    size_t length = 0;
    markring_answer answer;
    markring_node *sender = &sites[from].node;
    int status = place < 32 ? markring_node_frame_at(sender, to, place, frame, FRAME, &length)
                            : markring_node_ack_for(sender, to, frame, FRAME, &length);
    if (status == MARKRING_OK) {
        OK(markring_node_take(&sites[to].node, frame, length, &answer));
    }
}

static void act(uint8_t own_number, uint8_t other)
{
    markring_answer answer;
    markring_node *it = &sites[own_number].node;
    uint16_t reg = (uint16_t)below(&seed, REGISTERS), source = (uint16_t)below(&seed, REGISTERS);
    uint8_t place = (uint8_t)below(&seed, 3);
    switch (below(&seed, 15)) {
    case 0:
    case 1: (void)markring_node_alloc(it, reg, (uint8_t)(1 + below(&seed, 5)), &answer); break;
    case 2: (void)markring_node_drop(it, reg, &answer); break;
    case 3: (void)markring_node_load(it, reg, source, place, &answer); break;
    case 4:
    case 5: (void)markring_node_store(it, source, place, reg, &answer); break;
    case 6:
    case 7: (void)markring_node_give(it, other, 1, reg, &answer); break;
    case 8: (void)markring_node_put(it, source, place, reg, &answer); break;
    case 9: (void)markring_node_get(it, source, place, 1, &answer); break;
    case 10: (void)markring_node_accept(it, reg, &answer); break;
    case 11: (void)markring_node_scan(it, &answer); break;
    case 12: (void)markring_node_pass(it, &answer); break;
    case 13: (void)markring_node_sweep(it, 1 + below(&seed, 12), &answer); break;
    default: (void)markring_node_begin(&sites[0].node, &answer);
    }
}

static void disturb(void)
{
    uint8_t own_number = (uint8_t)below(&seed, nodes), other = (uint8_t)below(&seed, nodes - 1u);
    markring_answer answer;
    other = (uint8_t)(other + (other >= own_number));
    uint32_t kind = below(&seed, 100);
    if (kind < 50) {
        act(own_number, other);
    } else if (kind < 75) {
        carry(own_number, other, (uint8_t)(below(&seed, 3) != 0 ? 0 : below(&seed, 32)));
    } else if (kind < 80) {
        carry(own_number, other, 32);
    } else if (kind < 85) {
        (void)markring_node_next(&sites[own_number].node, other, &answer);
    } else if (kind < 99) {
        store(own_number);
    } else {
        restart(own_number);
    }
}

// ## The strategy

typedef struct summary {
    markring_state state[MOST];
    // What is in flight: how many messages, and the first link that has one.
    uint64_t waiting;
    uint8_t from, to;
    int grey, holder, unswept, unjoined;
} summary;

static uint64_t freed;
static unsigned long played, with_flight, with_grey, with_unjoined, found;

static summary summary_of(void)
{
    summary made;
    memset(&made, 0, sizeof made);
    made.grey = made.holder = made.unswept = made.unjoined = -1;
    for (uint8_t i = nodes; i-- > 0;) {
        (void)markring_node_state(&sites[i].node, &made.state[i]);
        made.grey = made.state[i].grey > 0 ? i : made.grey;
        made.holder = made.state[i].has_token ? i : made.holder;
        for (uint8_t to = nodes; to-- > 0;) {
            uint64_t waiting = sites[i].appended[to] - sites[to].received[i];
            if (to != i && waiting > 0) {
                made.waiting += waiting;
                made.from = i;
                made.to = to;
            }
        }
    }
    for (uint8_t i = nodes; i-- > 0;) {
        made.unswept = made.state[i].swept != made.state[0].cycle ? i : made.unswept;
        made.unjoined = made.state[i].cycle != made.state[0].cycle ? i : made.unjoined;
    }
    return made;
}

static void bring(uint8_t from, uint8_t to)
{
    uint8_t frame[FRAME];
    size_t length = 0;
    markring_answer answer;
    store(from);
    store(to);
    carry(to, from, 32);
    OK(markring_node_frame_at(&sites[from].node, to, 0, frame, FRAME, &length));
    if (OK(markring_node_take(&sites[to].node, frame, length, &answer))) {
        EQUAL(MARKRING_ANSWER_RECEIVED, answer.kind);
    }
    look(to);
}

// Plays the move that the space determines. Returns 0, and does nothing, if it is a Begin.
static int play(const summary *now)
{
    markring_answer answer;
    int marks = now->state[0].ended != now->state[0].cycle, at;
    if (now->waiting > 0) {
        bring(now->from, now->to);
        return 1;
    }
    if (marks && now->grey >= 0) {
        at = now->grey;
        OK(markring_node_scan(&sites[at].node, &answer));
    } else if (marks) {
        at = HOLDS(now->holder >= 0) ? now->holder : 0;
        OK(markring_node_pass(&sites[at].node, &answer));
    } else if (now->unswept >= 0) {
        at = now->unswept;
        OK(markring_node_sweep(&sites[at].node, SLOTS, &answer));
        HOLDS(answer.done == 1);
    } else {
        return 0;
    }
    look((uint8_t)at);
    return 1;
}

typedef struct ratio {
    double most;
    uint64_t moves, bound;
} ratio;

static ratio marking, cycle, both, soon;

static void note(ratio *it, uint64_t moves, uint64_t bound)
{
    HOLDS(moves <= bound);
    if (bound > 0 && (double)moves / (double)bound > it->most) {
        it->most = (double)moves / (double)bound;
        it->moves = moves;
        it->bound = bound;
    }
}

// Only the token is in flight, if anything, and nothing is left to mark.
static int is_terminated(const summary *now)
{
    return now->unjoined < 0 && now->grey < 0 && now->waiting == (now->holder < 0);
}

// Plays until the next move would be a Begin. Returns the moves so far, and notes when marking ended.
static uint64_t play_cycle(uint64_t count, const bounds *most)
{
    uint64_t terminated = UINT64_MAX;
    int marks = 1, first = 1;
    for (;; count++) {
        summary now = summary_of();
        int ended = now.state[0].ended == now.state[0].cycle;
        if (first && most != NULL && !ended) {
            with_grey += now.grey >= 0;
            with_unjoined += now.unjoined >= 0;
        }
        if (!ended && terminated == UINT64_MAX && is_terminated(&now)) {
            terminated = count;
        }
        if (marks && ended) {
            marks = 0;
            if (most != NULL) {
                note(&marking, count, most->moves);
            }
            if (terminated != UINT64_MAX) {
                note(&soon, count - terminated, 6 * (uint64_t)nodes);
                found++;
            }
        }
        first = 0;
        if (failed != 0 || !play(&now)) {
            return count;
        }
        played++;
    }
}

// After the strategy was played, no object is there that nothing reached at first.
static void check_garbage(const bytes *reached, const view *old)
{
    for (uint8_t i = 0; i < nodes; i++) {
        view now;
        view_current(i, &now);
        for (size_t k = 0; k < COUNT(object, now.objects); k++) {
            markring_ref name = ROW(object, now.objects)[k].name;
            HOLDS(is_listed(reached, name));
        }
        freed += COUNT(object, old[i].objects) - COUNT(object, now.objects);
        drop_view(&now);
    }
}

static void collect(void)
{
    static view current[MOST], stored[MOST];
    markring_answer answer;
    uint64_t waiting = 0;
    for (uint8_t i = 0; i < nodes; i++) {
        view_current(i, &current[i]);
        memset(&stored[i], 0, sizeof stored[i]);
        read_image(sites[i].stored, sites[i].length, &stored[i]);
    }
    bounds most = bounds_of(current);
    bytes reached = reached_in(current, stored);
    for (uint8_t i = 0; i < nodes; i++) {
        waiting += flight_of(i, &current[i]);
    }
    with_flight += waiting > 0;
    uint64_t count = play_cycle(0, &most);
    note(&cycle, count, most.cycle_moves);
    OK(markring_node_begin(&sites[0].node, &answer));
    look(0);
    count = play_cycle(count + 1, NULL);
    note(&both, count, most.both_moves);
    check_garbage(&reached, current);
    drop_bytes(&reached);
    for (uint8_t i = 0; i < nodes; i++) {
        drop_view(&current[i]);
        drop_view(&stored[i]);
    }
}

static void run(void)
{
    nodes = (uint8_t)(2 + (below(&seed, 24) == 0 ? below(&seed, MOST - 1) : below(&seed, 5)));
    uint32_t steps = below(&seed, 80u * nodes);
    for (uint8_t i = 0; i < nodes; i++) {
        OK(markring_node_new(&sites[i].node, nodes, REGISTERS, SLOTS, i, 0));
        store(i);
    }
    while (steps-- > 0) {
        disturb();
    }
    collect();
    for (uint8_t i = 0; i < nodes; i++) {
        OK(markring_node_free(&sites[i].node));
    }
}

static void print_ratio(const char *what, const ratio *it)
{
    printf("%s: at most %.3f of the bound (%" PRIu64 " of %" PRIu64 " moves)\n", what, it->most,
        it->moves, it->bound);
}

int main(int length, char **given)
{
    unsigned long worlds = length > 1 ? strtoul(given[1], NULL, 10) : 1000;
    for (int i = 0; i < MOST; i++) {
        sites[i].stored = (uint8_t *)own(malloc(IMAGE));
    }
    for (unsigned long i = 1; i <= worlds && failed == 0; i++) {
        seed = i * UINT64_C(0x9E3779B97F4A7C15) | 1;
        run();
        if (failed != 0) {
            printf("world %lu failed\n", i);
        }
    }
    for (int i = 0; i < MOST; i++) {
        free(sites[i].stored);
    }
    HOLDS(with_flight > 0 && with_grey > 0 && with_unjoined > 0 && found > 0 && freed > 0);
    printf("%lu moves; worlds with messages in flight %lu, grey objects %lu, nodes that hadn't "
           "joined %lu; %" PRIu64 " objects fewer\n",
        played, with_flight, with_grey, with_unjoined, freed);
    print_ratio("marking ended", &marking);
    print_ratio("the cycle was swept", &cycle);
    print_ratio("the next cycle was swept", &both);
    print_ratio("the end was found", &soon);
    return report();
}
