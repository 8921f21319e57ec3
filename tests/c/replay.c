// Runs a case of tests/scripts, of tests/nodes or of tests/bytes over the C library, and prints what
// it must print; for bytes, how many are read. docs/FORMATS.md ("Scripts") and tests/README.md say
// what the lines mean.
//
//     replay script|case FILE [K]
//
// With K, the K-th allocation for a command of tests/nodes is refused. The command then fails with
// MARKRING_MEMORY and changes nothing, and the same call is made again. So the case prints the same.
// The status is 5 if there are fewer allocations.
#include "check.h"
#include "refuse.h"

enum { NODES = 64, WORDS = 16, LINE = 1 << 18, LENGTH = 4 };

// A word of a line that is an event, its kind, and its numbers in order: r for `reg`, s for
// `source`, o for `object`, p for `place`, n for `node`, l for `label`, c for `count`, w for
// `word`. R is a reference, in one word.
static const struct {
    const char *word;
    uint8_t kind;
    const char *fields;
} EVENTS[] = {
    {"alloc", MARKRING_EVENT_ALLOC, "rp"},
    {"copy", MARKRING_EVENT_COPY, "rs"},
    {"drop", MARKRING_EVENT_DROP, "r"},
    {"load", MARKRING_EVENT_LOAD, "rop"},
    {"store", MARKRING_EVENT_STORE, "opr"},
    {"clear", MARKRING_EVENT_CLEAR, "op"},
    {"word", MARKRING_EVENT_WORD, "o"},
    {"setword", MARKRING_EVENT_SET_WORD, "ow"},
    {"give", MARKRING_EVENT_GIVE, "nlr"},
    {"accept", MARKRING_EVENT_ACCEPT, "r"},
    {"put", MARKRING_EVENT_PUT, "opr"},
    {"get", MARKRING_EVENT_GET, "opl"},
    {"resolve", MARKRING_EVENT_RESOLVE, "rR"},
    {"reclaim", MARKRING_EVENT_RECLAIM, ""},
    {"begin", MARKRING_EVENT_BEGIN, ""},
    {"scan", MARKRING_EVENT_SCAN, ""},
    {"pass", MARKRING_EVENT_PASS, ""},
    {"sweep", MARKRING_EVENT_SWEEP, "c"},
    {"next", MARKRING_EVENT_NEXT, "n"},
};

// The words of the line that is read.
static char *words[WORDS];
static int count;
static int refused;

static void split(char *line)
{
    count = 0;
    for (char *word = strtok(line, " \r\n"); word != NULL && count < WORDS;
         word = strtok(NULL, " \r\n")) {
        words[count++] = word;
    }
}

static uint64_t number_at(int place)
{
    return place < count ? strtoull(words[place], NULL, 10) : 0;
}

// Reads the reference at this place.
static void read_reference(int place, markring_event *event)
{
    unsigned node = 0;
    HOLDS(place < count);
    HOLDS(sscanf(words[place], "%u.%" SCNu32 ".%" SCNu64, &node, &event->count, &event->word) == 3);
    event->node = (uint8_t)node;
}

// Reads an event, whose word is at this place. Returns whether it is one.
static int read_event(int place, markring_event *event)
{
    memset(event, 0, sizeof *event);
    for (size_t i = 0; i < sizeof EVENTS / sizeof *EVENTS; i++) {
        if (place >= count || strcmp(words[place], EVENTS[i].word) != 0) {
            continue;
        }
        event->kind = EVENTS[i].kind;
        if (place + 1 < count && strcmp(words[place + 1], "young") == 0) {
            event->kind = MARKRING_EVENT_RECLAIM_YOUNG;
        }
        for (const char *field = EVENTS[i].fields; *field != 0; field++) {
            uint64_t number = number_at(++place);
            switch (*field) {
            case 'r': event->reg = (uint16_t)number; break;
            case 's': event->source = (uint16_t)number; break;
            case 'o': event->object = (uint16_t)number; break;
            case 'p': event->place = (uint8_t)number; break;
            case 'n': event->node = (uint8_t)number; break;
            case 'l': event->label = (uint32_t)number; break;
            case 'c': event->count = (uint32_t)number; break;
            case 'R': read_reference(place, event); break;
            default: event->word = number; break;
            }
        }
        return 1;
    }
    return 0;
}

static int print_refusal(int status)
{
    refused = 1;
    return printf("refused %d %s\n", status, markring_status_text(status));
}

static void print_state(markring_node *node)
{
    markring_state it;
    OK(markring_node_state(node, &it));
    printf("cycle %" PRIu64 " ended %" PRIu64 " swept %" PRIu64 " colour %s", it.cycle, it.ended,
        it.swept, it.colour == MARKRING_BLACK ? "black" : "white");
    printf(" old %" PRId64 " cur %" PRId64 " grey %" PRIu64 " live %" PRIu32, it.earlier, it.recent,
        it.grey, it.live);
    printf(" token %s letters %" PRIu64 "\n", it.has_token ? "yes" : "no", it.letters);
}

static void print_bytes(const uint8_t *at, size_t length)
{
    for (size_t i = 0; i < length; i++) {
        printf("%02X", at[i]);
    }
    putchar('\n');
}

// The bytes that a word spells, in two digits each.
static bytes bytes_of(const char *word)
{
    bytes all = {0};
    unsigned byte;
    while (sscanf(word, "%2X", &byte) == 1) {
        add_number(&all, byte, 1);
        word += 2;
    }
    return all;
}

// ## Scripts

static markring_node nodes[NODES];
static bytes saved[NODES];
// The frames ever released from one node to another, each after its length in LENGTH bytes.
static bytes net[NODES][NODES];
static uint64_t recorded[NODES][NODES];
static uint64_t freed[1 << 12], last_swept;

static void write_ref(markring_ref it)
{
    if (markring_ref_is_some(it)) {
        printf("%d.%" PRIu32 ".%" PRIu64, it.node, it.slot, it.generation);
    } else {
        putchar('-');
    }
}

static void print_ref(markring_ref it)
{
    write_ref(it);
    putchar('\n');
}

// A letter, with its counts if it can't be one of Give.
static void print_letter(const markring_answer *it)
{
    printf("from %d label %" PRIu32 " ", it->node, it->label);
    write_ref(it->reference);
    if (it->count > 1 || it->number > 0) {
        printf(" count %" PRIu32 " bytes %" PRIu64, it->count, it->number);
    }
    putchar('\n');
}

static void print_answer(const markring_answer *it)
{
    switch (it->kind) {
    case MARKRING_ANSWER_DONE: puts("ok"); break;
    case MARKRING_ANSWER_NEW:
    case MARKRING_ANSWER_VALUE: print_ref(it->reference); break;
    case MARKRING_ANSWER_WORD: printf("%" PRIu64 "\n", it->number); break;
    case MARKRING_ANSWER_SENT: printf("sent %" PRIu64 "\n", it->number); break;
    case MARKRING_ANSWER_LETTER: print_letter(it); break;
    case MARKRING_ANSWER_BEGUN: printf("cycle %" PRIu64 "\n", it->number); break;
    case MARKRING_ANSWER_SCANNED:
        fputs("scanned ", stdout);
        print_ref(it->reference);
        break;
    case MARKRING_ANSWER_PASSED:
        printf("passed %" PRId64 " %s\n", it->sum,
            it->colour == MARKRING_BLACK ? "black" : "white");
        break;
    case MARKRING_ANSWER_PROBE_AGAIN: puts("probe again"); break;
    case MARKRING_ANSWER_ENDED: printf("ended %" PRIu64 "\n", it->number); break;
    case MARKRING_ANSWER_FREED:
        printf("freed %" PRIu32 " %s\n", it->count, it->done ? "done" : "more");
        break;
    case MARKRING_ANSWER_RECLAIMED: printf("reclaimed %" PRIu32 "\n", it->count); break;
    case MARKRING_ANSWER_RECEIVED: puts("received"); break;
    case MARKRING_ANSWER_REPEAT: puts("repeat"); break;
    case MARKRING_ANSWER_EARLY: puts("early"); break;
    default: printf("answer %d\n", it->kind);
    }
}

static void acknowledgement(uint8_t frame[11], uint8_t from, uint8_t to, uint64_t number)
{
    bytes it = {0};
    add_number(&it, 0x42, 1);
    add_number(&it, from, 1);
    add_number(&it, to, 1);
    add_number(&it, number, 8);
    memcpy(frame, it.at, 11);
    drop_bytes(&it);
}

// Records the frames of an image that weren't recorded before. A copy of the node, to which all
// earlier ones are acknowledged, has the next one at the first place of its window.
static void record(uint8_t from, const bytes *image)
{
    markring_node copy = {0};
    markring_state state;
    OK(markring_node_from_image(&copy, image->at, image->length, 0));
    OK(markring_node_state(&copy, &state));
    for (uint8_t to = 0; to < state.nodes; to++) {
        markring_link link;
        if (to == from || !OK(markring_node_link(&copy, to, &link))) {
            continue;
        }
        for (uint64_t next = recorded[from][to] + 1; next <= link.released; next++) {
            static uint8_t frame[LINE];
            uint8_t ack[11];
            size_t needed = 0;
            markring_answer answer;
            acknowledgement(ack, to, from, next - 1);
            OK(markring_node_take(&copy, ack, sizeof ack, &answer));
            OK(markring_node_frame_at(&copy, to, 0, frame, sizeof frame, &needed));
            add_number(&net[from][to], needed, LENGTH);
            add(&net[from][to], frame, needed);
            recorded[from][to] = next;
        }
    }
    OK(markring_node_free(&copy));
}

static void save_node(uint8_t node)
{
    size_t needed = 0;
    uint64_t mark = 0;
    int status = markring_node_image_size(&nodes[node], &needed);
    if (status != MARKRING_OK) {
        print_refusal(status);
        return;
    }
    bytes image = {(uint8_t *)own(malloc(needed)), 0, needed};
    OK(markring_node_image(&nodes[node], image.at, needed, &image.length, &mark));
    record(node, &image);
    OK(markring_node_kept(&nodes[node], mark));
    drop_bytes(&saved[node]);
    saved[node] = image;
    puts("ok");
}

static void restart(uint8_t node)
{
    OK(markring_node_free(&nodes[node]));
    OK(markring_node_from_image(&nodes[node], saved[node].at, saved[node].length, 0));
    puts("ok");
}

static size_t frame_length(const uint8_t *at)
{
    size_t length = 0;
    for (int i = 0; i < LENGTH; i++) {
        length = length << 8 | at[i];
    }
    return length;
}

static void deliver(uint8_t from, uint8_t to, uint64_t number)
{
    markring_answer answer;
    markring_link link = {0};
    if (from == to) {
        puts("no frame");
        return;
    }
    OK(markring_node_link(&nodes[from], to, &link));
    if (number == 0 || number > link.released) {
        puts("no frame");
        return;
    }
    const uint8_t *at = net[from][to].at;
    while (--number > 0) {
        at += LENGTH + frame_length(at);
    }
    int status = markring_node_take(&nodes[to], at + LENGTH, frame_length(at), &answer);
    if (status == MARKRING_OK) {
        print_answer(&answer);
    } else {
        print_refusal(status);
    }
}

static void hand(uint8_t from, uint8_t to)
{
    uint8_t frame[11];
    size_t needed = 0;
    markring_link link;
    markring_answer answer;
    if (from == to) {
        puts("no frame");
        return;
    }
    OK(markring_node_link(&nodes[to], from, &link));
    OK(markring_node_ack_for(&nodes[to], from, frame, sizeof frame, &needed));
    int status = markring_node_take(&nodes[from], frame, needed, &answer);
    if (status == MARKRING_OK) {
        printf("ack %" PRIu64 "\n", link.received_saved);
    } else {
        print_refusal(status);
    }
}

// Prints the bytes of an object that the line asks for, or those of the oldest letter.
static void print_bytes_read(markring_node *node)
{
    static uint8_t all[LINE];
    size_t length = 0;
    int status = strcmp(words[1], "letter") == 0
        ? markring_node_letter_bytes(node, all, sizeof all, &length)
        : markring_node_bytes(node, (uint16_t)number_at(2), (uint32_t)number_at(3),
            (uint32_t)number_at(4), all, sizeof all, &length);
    if (status != MARKRING_OK) {
        print_refusal(status);
        return;
    }
    for (size_t i = 0; i < length; i++) {
        printf("%02x", all[i]);
    }
    puts(length == 0 ? "-" : "");
}

// Writes bytes of an object, or all of them.
static void write_bytes(markring_node *node)
{
    markring_answer answer;
    int is_patch = strcmp(words[1], "patch") == 0;
    uint16_t object = (uint16_t)number_at(2);
    bytes all = bytes_of(words[is_patch ? 4 : 3]);
    int status = is_patch
        ? markring_node_patch(node, object, (uint32_t)number_at(3), all.at, all.length, &answer)
        : markring_node_set_bytes(node, object, all.at, all.length, &answer);
    if (status == MARKRING_OK) {
        print_answer(&answer);
    } else {
        print_refusal(status);
    }
    drop_bytes(&all);
}

// Sends a letter with references and bytes, or asks for a word and bytes.
static void post_or_fetch(markring_node *node)
{
    markring_answer answer;
    int is_post = strcmp(words[1], "post") == 0;
    uint32_t label = (uint32_t)number_at(3);
    bytes all = bytes_of(is_post ? words[6] : "-");
    int status = is_post
        ? markring_node_post(node, (uint8_t)number_at(2), label, (uint16_t)number_at(4),
            (uint8_t)number_at(5), all.length > 0 ? all.at : (const uint8_t *)"", all.length,
            &answer)
        : markring_node_fetch(node, (uint16_t)number_at(2), label, (uint32_t)number_at(4),
            (uint32_t)number_at(5), &answer);
    if (status == MARKRING_OK) {
        print_answer(&answer);
    } else {
        print_refusal(status);
    }
    drop_bytes(&all);
}

static void act(uint8_t node)
{
    markring_event event;
    markring_answer answer;
    markring_state state;
    OK(markring_node_state(&nodes[node], &state));
    HOLDS(read_event(1, &event));
    blot(&answer);
    int status = markring_node_act(&nodes[node], &event, &answer);
    if (status != MARKRING_OK) {
        HOLDS(is_blotted(&answer));
        print_refusal(status);
        return;
    }
    print_answer(&answer);
    if (answer.kind == MARKRING_ANSWER_FREED) {
        freed[state.cycle] += answer.count;
        last_swept = state.cycle > last_swept ? state.cycle : last_swept;
    }
}

static void print_report(void)
{
    if (last_swept == 0) {
        puts("no sweep");
    }
    for (uint64_t cycle = 1; cycle <= last_swept; cycle++) {
        printf("cycle %" PRIu64 " freed %" PRIu64 "\n", cycle, freed[cycle]);
    }
}

static int exists(uint64_t node, uint8_t size)
{
    if (node < size) {
        return 1;
    }
    print_refusal(MARKRING_NO_NODE);
    return 0;
}

static void step(uint8_t size)
{
    if (strcmp(words[0], "report") == 0) {
        print_report();
    } else if (strcmp(words[0], "deliver") == 0) {
        if (exists(number_at(1), size) && exists(number_at(2), size)) {
            deliver((uint8_t)number_at(1), (uint8_t)number_at(2), number_at(3));
        }
    } else if (strcmp(words[0], "ack") == 0) {
        if (exists(number_at(1), size) && exists(number_at(2), size)) {
            hand((uint8_t)number_at(1), (uint8_t)number_at(2));
        }
    } else if (exists(number_at(0), size)) {
        uint8_t node = (uint8_t)number_at(0);
        if (strcmp(words[1], "state") == 0) {
            print_state(&nodes[node]);
        } else if (strcmp(words[1], "save") == 0) {
            save_node(node);
        } else if (strcmp(words[1], "restart") == 0) {
            restart(node);
        } else if (strcmp(words[1], "bytes") == 0 || strcmp(words[1], "letter") == 0) {
            print_bytes_read(&nodes[node]);
        } else if (strcmp(words[1], "post") == 0 || strcmp(words[1], "fetch") == 0) {
            post_or_fetch(&nodes[node]);
        } else if (strcmp(words[1], "setbytes") == 0 || strcmp(words[1], "patch") == 0) {
            write_bytes(&nodes[node]);
        } else {
            act(node);
        }
    }
}

// Makes a node of the space that the line describes.
static int make_node(markring_node *node, uint8_t own_number)
{
    uint8_t size = (uint8_t)number_at(1);
    uint16_t registers = (uint16_t)number_at(2);
    uint32_t slots = (uint32_t)number_at(3);
    uint32_t object_bytes = (uint32_t)number_at(5);
    markring_shape shape = {slots, object_bytes, registers, size, (uint8_t)number_at(4), 1};
    return strcmp(words[0], "wide") == 0
        ? markring_node_make(node, &shape, own_number, 0)
        : markring_node_new(node, size, registers, slots, own_number, 0);
}

static void run_script(FILE *file)
{
    static char line[LINE];
    uint8_t size = 0;
    while (fgets(line, sizeof line, file) != NULL) {
        split(line);
        if (count == 0 || words[0][0] == '#') {
            continue;
        }
        if (strcmp(words[0], "space") != 0 && strcmp(words[0], "wide") != 0) {
            step(size);
            continue;
        }
        size = (uint8_t)number_at(1);
        for (uint8_t own_number = 0; own_number < size; own_number++) {
            OK(make_node(&nodes[own_number], own_number));
            saved[own_number] = image_of(&nodes[own_number]);
        }
        puts("ok");
    }
    for (uint8_t node = 0; node < size; node++) {
        OK(markring_node_free(&nodes[node]));
        drop_bytes(&saved[node]);
        for (uint8_t to = 0; to < size; to++) {
            drop_bytes(&net[node][to]);
        }
    }
}

// ## Cases of nodes

static void debug_ref(markring_ref it, int optional)
{
    if (optional && !markring_ref_is_some(it)) {
        fputs("None", stdout);
        return;
    }
    printf("%sRef { node: %d, slot: %" PRIu32 ", generation: %" PRIu64 " }%s",
        optional ? "Some(" : "", it.node, it.slot, it.generation, optional ? ")" : "");
}

static void debug_answer(const markring_answer *it)
{
    static const char *const NAMES[] = {"Done", "New(", "Value(", "Word", "Sent", "Letter", "Begun",
        "Scanned(", "Passed", "ProbeAgain", "Ended", "Freed", "Received", "Repeat", "Early",
        "Reclaimed"};
    HOLDS(it->kind < sizeof NAMES / sizeof *NAMES);
    fputs(NAMES[it->kind], stdout);
    switch (it->kind) {
    case MARKRING_ANSWER_NEW:
    case MARKRING_ANSWER_SCANNED:
        debug_ref(it->reference, 0);
        putchar(')');
        break;
    case MARKRING_ANSWER_VALUE:
        debug_ref(it->reference, 1);
        putchar(')');
        break;
    case MARKRING_ANSWER_WORD:
    case MARKRING_ANSWER_SENT:
    case MARKRING_ANSWER_BEGUN:
    case MARKRING_ANSWER_ENDED: printf("(%" PRIu64 ")", it->number); break;
    case MARKRING_ANSWER_LETTER:
        printf("(Letter { from: %d, label: %" PRIu32 ", reference: ", it->node, it->label);
        debug_ref(it->reference, 1);
        fputs(" })", stdout);
        break;
    case MARKRING_ANSWER_PASSED:
        printf("(Token { colour: %s, q: %" PRId64 " })",
            it->colour == MARKRING_BLACK ? "Black" : "White", it->sum);
        break;
    case MARKRING_ANSWER_FREED:
        printf(" { count: %" PRIu32 ", done: %s }", it->count, it->done ? "true" : "false");
        break;
    case MARKRING_ANSWER_RECLAIMED: printf("(%" PRIu32 ")", it->count); break;
    default: break;
    }
    putchar('\n');
}

static void print_outcome(int status, const markring_answer *answer)
{
    if (status == MARKRING_OK) {
        debug_answer(answer);
    } else {
        print_refusal(status);
    }
}

// Prints the frame of the message with this number, though it may not be released: a copy of the
// node, for which all counts as saved, offers it once all before it are acknowledged.
static void print_numbered(markring_node *node, uint8_t to, uint64_t number)
{
    bytes image = image_of(node);
    markring_node copy = {0};
    markring_state state;
    markring_link link = {0};
    uint8_t frame[48], ack[11];
    size_t needed = 0;
    markring_answer answer;
    OK(markring_node_state(node, &state));
    OK(markring_node_from_image(&copy, image.at, image.length, 0));
    if (markring_node_link(&copy, to, &link) != MARKRING_OK || number <= link.acknowledged
        || number > link.appended) {
        puts("-");
    } else {
        acknowledgement(ack, to, state.own, number - 1);
        OK(markring_node_take(&copy, ack, sizeof ack, &answer));
        OK(markring_node_frame_at(&copy, to, 0, frame, sizeof frame, &needed));
        print_bytes(frame, needed);
    }
    OK(markring_node_free(&copy));
    drop_bytes(&image);
}

static void print_frame(int status, const uint8_t *frame, size_t length)
{
    if (status == MARKRING_OK) {
        print_bytes(frame, length);
    } else {
        HOLDS(status == MARKRING_NOTHING || status == MARKRING_NO_NODE
            || status == MARKRING_BAD_ARGUMENT);
        puts("-");
    }
}

// What the node showed before the call, and the call's status.
static bytes before;
static int outcome;

static void begin_call(markring_node *node)
{
    if (refused_one != 0 && node->at != NULL) {
        before = shown(node);
    }
    within = 1;
}

// Whether memory was refused to the call. Then the node is as it was before.
static int is_refused(markring_node *node)
{
    within = 0;
    if (refused_one != 0 && node->at != NULL) {
        if (outcome == MARKRING_MEMORY) {
            bytes after = shown(node);
            HOLDS(same_bytes(&before, &after));
            drop_bytes(&after);
        }
        drop_bytes(&before);
    }
    return outcome == MARKRING_MEMORY && refused_one != 0;
}

// The status of a call on this node, which is made again if memory was refused to it.
#define CALL(node, call) \
    (begin_call(node), outcome = (call), is_refused(node) ? (call) : outcome)

static void node_command(markring_node *node)
{
    markring_event event;
    markring_answer answer;
    uint8_t frame[48];
    size_t needed = 0;
    uint8_t to = (uint8_t)number_at(1);
    if (strcmp(words[0], "new") == 0 || strcmp(words[0], "image") == 0) {
        bytes image = bytes_of(words[1]);
        markring_node made = {0};
        int status = words[0][0] == 'i'
            ? CALL(&made, markring_node_from_image(&made, image.at, image.length, 0))
            : CALL(&made, markring_node_new(&made, to, (uint16_t)number_at(2),
                (uint32_t)number_at(3), (uint8_t)number_at(4), 0));
        drop_bytes(&image);
        if (status != MARKRING_OK) {
            print_refusal(status);
            return;
        }
        if (node->at != NULL) {
            OK(markring_node_free(node));
        }
        *node = made;
        puts("ok");
    } else if (strcmp(words[0], "bytes") == 0) {
        bytes image = image_of(node);
        print_bytes(image.at, image.length);
        drop_bytes(&image);
    } else if (strcmp(words[0], "state") == 0) {
        print_state(node);
    } else if (strcmp(words[0], "kept") == 0) {
        save(node);
        puts("ok");
    } else if (strcmp(words[0], "frame") == 0) {
        bytes given = bytes_of(words[1]);
        int status = CALL(node, markring_node_take(node, given.at, given.length, &answer));
        drop_bytes(&given);
        print_outcome(status, &answer);
    } else if (strcmp(words[0], "frame-at") == 0) {
        int status =
            markring_node_frame_at(node, to, (uint8_t)number_at(2), frame, sizeof frame, &needed);
        print_frame(status, frame, needed);
    } else if (strcmp(words[0], "ack-for") == 0) {
        int status = markring_node_ack_for(node, to, frame, sizeof frame, &needed);
        print_frame(status, frame, needed);
    } else if (strcmp(words[0], "numbered") == 0) {
        print_numbered(node, to, number_at(2));
    } else if (strcmp(words[0], "repeat") == 0) {
        int status = MARKRING_OK;
        HOLDS(read_event(2, &event));
        for (uint64_t i = 0; i < number_at(1) && status == MARKRING_OK; i++) {
            status = CALL(node, markring_node_act(node, &event, &answer));
        }
        print_outcome(status, &answer);
    } else {
        HOLDS(read_event(0, &event));
        print_outcome(CALL(node, markring_node_act(node, &event, &answer)), &answer);
    }
}

static unsigned long read_again, rejected, other;

// Reads bytes as an image or a frame, and counts what became of that. For a frame no call says how
// it is spelled again.
static void examine(const uint8_t *at, size_t length, int is_image, markring_node *taker)
{
    markring_node made = {0};
    markring_answer answer;
    if (!is_image) {
        int status = markring_node_take(taker, at, length, &answer);
        read_again += status != MARKRING_BAD_FRAME;
        rejected += status == MARKRING_BAD_FRAME;
        return;
    }
    int status = markring_node_from_image(&made, at, length, 0);
    rejected += status == MARKRING_BAD_IMAGE;
    if (status != MARKRING_OK) {
        HOLDS(made.at == NULL);
        other += status != MARKRING_BAD_IMAGE;
        return;
    }
    bytes image = image_of(&made), given = {(uint8_t *)own(malloc(length)), length, length};
    memcpy(given.at, at, length);
    read_again += (unsigned long)same_bytes(&image, &given);
    other += (unsigned long)!same_bytes(&image, &given);
    drop_bytes(&image);
    drop_bytes(&given);
    OK(markring_node_free(&made));
}

static void bytes_command(void)
{
    bytes given = bytes_of(words[2]);
    int is_image = strcmp(words[1], "image") == 0;
    markring_node taker = {0};
    read_again = rejected = other = 0;
    OK(markring_node_new(&taker, 64, 1, 1, 0, 0));
    if (strcmp(words[0], "read") == 0) {
        examine(given.at, given.length, is_image, &taker);
    } else if (strcmp(words[0], "cuts") == 0) {
        size_t length = given.length;
        add_number(&given, 0, 1);
        for (size_t i = 0; i <= length + 1; i++) {
            if (i != length) {
                examine(given.at, i, is_image, &taker);
            }
        }
    } else {
        for (size_t i = 0; i < given.length; i++) {
            uint8_t before = given.at[i];
            for (int byte = 0; byte < 256; byte++) {
                given.at[i] = (uint8_t)byte;
                examine(given.at, given.length, is_image, &taker);
            }
            given.at[i] = before;
        }
    }
    printf("read %lu\nrefused %lu\nother %lu\n", read_again, rejected, other);
    OK(markring_node_free(&taker));
    drop_bytes(&given);
}

static void run_case(FILE *file)
{
    static char line[LINE];
    markring_node node = {0};
    int subject = 0;
    for (int number = 1; fgets(line, sizeof line, file) != NULL; number++) {
        split(line);
        if (count == 0 || words[0][0] == '#') {
            continue;
        }
        if (subject == 0) {
            subject = words[0][0];
        } else if (subject == 'n' && node.at == NULL && strcmp(words[0], "new") != 0
            && strcmp(words[0], "image") != 0) {
            markring_state state;
            IS(MARKRING_NO_HANDLE, markring_node_state(&node, &state));
            printf("line %d: not a command\n", number);
            break;
        } else if (subject == 'n') {
            node_command(&node);
        } else {
            bytes_command();
        }
    }
    if (node.at != NULL) {
        OK(markring_node_free(&node));
    }
}

int main(int length, char **given)
{
    FILE *file = length == 3 || length == 4 ? fopen(given[2], "r") : NULL;
    if (file == NULL) {
        fputs("usage: replay script|case FILE [K]\n", stderr);
        return 2;
    }
    refused_one = length == 4 ? strtoul(given[3], NULL, 10) : 0;
    if (strcmp(given[1], "script") == 0) {
        run_script(file);
    } else {
        run_case(file);
    }
    fclose(file);
    if (failed == 0 && requests < refused_one) {
        return 5;
    }
    return failed != 0 ? 3 : refused;
}
