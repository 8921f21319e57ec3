// The calls of markring_sending.h, over random histories: turns that find anything, messages of any
// length, lost connections, saves. What docs/PROCESSES.md ("What a node does") says of windows and
// saves is kept here in another form, message by message, and compared after each call.
#include "check.h"

#include "markring_sending.h"

#include <stdbool.h>

enum { STEPS = 4000, ROUNDS = 60, WINDOW = 32, BYTES = 1 << 20, FRAME = 48, LONG_FRAME = 66000 };

// What is on its way, message by message; since when, and how many times the window was sent again;
// since when a save is known of which no packet has spoken.
typedef struct model {
    uint64_t acknowledged, received, spoken;
    uint64_t numbers[WINDOW], lengths[WINDOW];
    size_t count;
    bool runs, knows, owes, waits;
    uint64_t since, known_at;
    int tries;
} model;

static markring_sending it;
static model wanted;
static uint64_t drawn = 1, now, stored;

static uint64_t bytes_on_way(void)
{
    uint64_t bytes = 0;
    for (size_t i = 0; i < wanted.count; i++) {
        bytes += wanted.lengths[i];
    }
    return bytes;
}

static uint64_t pause_of(int tries)
{
    return tries < 5 ? 50u << tries : 1600;
}

static uint64_t until(void)
{
    uint64_t at = wanted.runs ? wanted.since + pause_of(wanted.tries) : UINT64_MAX;
    uint64_t tell = wanted.knows ? wanted.known_at + 1000 : UINT64_MAX;
    return at < tell ? at : tell;
}

static void compare(void)
{
    EQUAL(wanted.acknowledged, it.acknowledged);
    EQUAL(wanted.count > 0 ? wanted.numbers[wanted.count - 1] : wanted.acknowledged, it.sent);
    EQUAL(bytes_on_way(), it.flight);
    EQUAL(wanted.owes, markring_sending_is_due(&it));
    EQUAL(!wanted.waits, markring_sending_is_open(&it));
    EQUAL(until(), markring_sending_until(&it));
    HOLDS(wanted.count <= 1 || bytes_on_way() <= BYTES);
}

static void arrive(uint64_t number)
{
    size_t left = 0;
    for (size_t i = 0; i < wanted.count; i++) {
        if (wanted.numbers[i] > number) {
            wanted.numbers[left] = wanted.numbers[i];
            wanted.lengths[left++] = wanted.lengths[i];
        }
    }
    wanted.count = left;
    wanted.acknowledged = number;
    wanted.waits = wanted.runs = false;
}

// Whether the window is sent from its begin again.
static bool look(uint64_t released, uint64_t acknowledged)
{
    if (acknowledged > wanted.acknowledged) {
        arrive(acknowledged);
    }
    wanted.knows = wanted.knows || stored != wanted.spoken;
    wanted.known_at = wanted.known_at == UINT64_MAX && wanted.knows ? now : wanted.known_at;
    wanted.owes = wanted.owes || (wanted.knows && now - wanted.known_at >= 1000);
    if (released <= wanted.acknowledged) {
        wanted.runs = false;
    } else if (!wanted.runs) {
        wanted.runs = true;
        wanted.since = now;
        wanted.tries = 0;
    } else if (now - wanted.since >= pause_of(wanted.tries)) {
        wanted.since = now;
        wanted.tries++;
        wanted.count = 0;
        wanted.waits = false;
        return true;
    }
    return false;
}

// A turn comes at any time, just when it is needed, or just before.
static void go_on(void)
{
    static const uint32_t LATER[] = {1, 30, 100, 5000};
    if (until() != UINT64_MAX && until() > now && below(&drawn, 3) == 0) {
        now = until() - below(&drawn, 2);
    } else {
        now += below(&drawn, LATER[below(&drawn, 4)]);
    }
}

static void turn(void)
{
    go_on();
    stored += below(&drawn, 8) == 0;
    uint64_t acknowledged = wanted.acknowledged;
    if (below(&drawn, 3) == 0) {
        acknowledged += below(&drawn, (uint32_t)wanted.count + 3);
    } else if (acknowledged >= 5 && below(&drawn, 20) == 0) {
        acknowledged -= below(&drawn, 5);
    }
    uint64_t released = acknowledged + (below(&drawn, 4) == 0 ? 0 : below(&drawn, 60));
    bool again = look(released, acknowledged);
    EQUAL(again, markring_sending_turn(&it, now, released, acknowledged, stored));
}

static uint32_t some_length(bool is_short)
{
    if (is_short) {
        return FRAME;
    }
    uint64_t left = BYTES > bytes_on_way() ? BYTES - bytes_on_way() : 0;
    switch (below(&drawn, 9)) {
    case 0: return 0;
    case 1: return (uint32_t)left;
    case 2: return (uint32_t)left + 1;
    case 3: return UINT32_MAX;
    case 4: return BYTES + below(&drawn, 100);
    case 5:
    case 6: return below(&drawn, LONG_FRAME);
    default: return FRAME;
    }
}

static void offer(bool is_short)
{
    uint64_t next = wanted.acknowledged + wanted.count + 1, number = next;
    uint32_t length = some_length(is_short);
    if (below(&drawn, 10) == 0) {
        number = next + below(&drawn, 4) - 2;
    }
    bool is_next = number == next && wanted.count < WINDOW;
    bool fits = wanted.count == 0 || bytes_on_way() + length <= BYTES;
    EQUAL(is_next && fits, markring_sending_offer(&it, number, length));
    if (is_next && fits) {
        wanted.numbers[wanted.count] = number;
        wanted.lengths[wanted.count++] = length;
    }
    wanted.waits = is_next ? !fits : wanted.waits;
}

static void leave(void)
{
    wanted.owes = wanted.knows = false;
    wanted.known_at = UINT64_MAX;
    wanted.spoken = stored;
    markring_sending_left(&it, stored);
}

static void lose_connection(void)
{
    wanted.count = 0;
    wanted.runs = wanted.waits = false;
    wanted.owes = true;
    markring_sending_again(&it);
}

static void owe(void)
{
    uint64_t received = wanted.received + below(&drawn, 2);
    switch (below(&drawn, 3)) {
    case 0:
        wanted.owes = true;
        markring_sending_owe(&it);
        break;
    case 1:
        wanted.owes = wanted.owes || received != wanted.received;
        wanted.received = received;
        markring_sending_received(&it, received);
        break;
    default:
        wanted.owes = wanted.owes || stored != wanted.spoken;
        markring_sending_tell(&it, stored);
    }
}

// With short messages alone and few turns, windows are full.
static void one_history(uint64_t acknowledged, bool is_short)
{
    now = below(&drawn, 2) == 0 ? 0 : below(&drawn, 100000);
    stored = below(&drawn, 3);
    wanted =
        (model){.acknowledged = acknowledged, .received = 7, .known_at = UINT64_MAX, .owes = true};
    memset(&it, 0xA5, sizeof it);
    markring_sending_begin(&it, acknowledged, 7);
    for (int i = 0; i < STEPS; i++) {
        compare();
        uint64_t what = below(&drawn, 100);
        if (what < (is_short ? 3 : 30)) {
            turn();
        } else if (what < 85) {
            offer(is_short);
        } else if (what < 93) {
            leave();
        } else if (what < 99) {
            owe();
        } else {
            lose_connection();
        }
    }
}

// A message that is never acknowledged is sent again at these times, by a host that has its turns
// when they are needed.
static void no_answer(void)
{
    static const uint64_t TIMES[] = {50, 150, 350, 750, 1550, 3150, 4750, 6350};
    uint64_t at = 1000;
    markring_sending_begin(&it, 5, 0);
    markring_sending_left(&it, 0);
    EQUAL(UINT64_MAX, markring_sending_until(&it));
    EQUAL(0, markring_sending_turn(&it, at, 6, 5, 0));
    for (size_t i = 0; i < sizeof TIMES / sizeof *TIMES; i++) {
        EQUAL(1, markring_sending_offer(&it, 6, FRAME));
        at = markring_sending_until(&it);
        EQUAL(1000 + TIMES[i], at);
        EQUAL(0, markring_sending_turn(&it, at - 1, 6, 5, 0));
        EQUAL(0, markring_sending_offer(&it, 6, FRAME));
        EQUAL(1, markring_sending_turn(&it, at, 6, 5, 0));
    }
    EQUAL(0, markring_sending_turn(&it, at, 6, 6, 0));
    EQUAL(UINT64_MAX, markring_sending_until(&it));
}

// The greatest numbers and times.
static void greatest(void)
{
    markring_sending_begin(&it, UINT64_MAX - 2, 0);
    EQUAL(1, markring_sending_offer(&it, UINT64_MAX - 1, UINT32_MAX));
    EQUAL(0, markring_sending_offer(&it, UINT64_MAX, 1));
    EQUAL(0, markring_sending_turn(&it, UINT64_MAX - 3, UINT64_MAX, UINT64_MAX - 1, 9));
    EQUAL(UINT64_MAX, markring_sending_until(&it));
    EQUAL(1, markring_sending_offer(&it, UINT64_MAX, 1));
    EQUAL(0, markring_sending_offer(&it, 0, 1));
    EQUAL(0, markring_sending_turn(&it, UINT64_MAX - 1, UINT64_MAX, UINT64_MAX - 1, 9));
    EQUAL(1, markring_sending_turn(&it, UINT64_MAX, UINT64_MAX, UINT64_MAX - 1, 9));
    EQUAL(UINT64_MAX - 1, it.sent);
    EQUAL(0, markring_sending_turn(&it, UINT64_MAX, UINT64_MAX, UINT64_MAX, 9));
    EQUAL(UINT64_MAX, it.acknowledged);
}

// A struct that nobody began: nothing but the struct is written.
static void any_bytes(void)
{
    struct {
        uint64_t before;
        markring_sending it;
        uint64_t behind;
    } at;
    for (int i = 0; i < 256; i++) {
        memset(&at, i, sizeof at);
        markring_sending *any = &at.it;
        uint64_t acknowledged = any->acknowledged, other = acknowledged + below(&drawn, 80);
        (void)markring_sending_turn(any, other, other, other, other);
        (void)markring_sending_offer(any, any->sent + 1, UINT32_MAX);
        any->acknowledged = any->sent - below(&drawn, 80);
        (void)markring_sending_turn(any, 0, UINT64_MAX, any->sent, 0);
        (void)markring_sending_offer(any, any->sent + 1, (uint32_t)i);
        (void)markring_sending_until(any);
        HOLDS(memcmp(&at.before, &at.behind, sizeof at.before) == 0 && (uint8_t)at.before == i);
    }
}

int main(void)
{
    EQUAL(WINDOW, MARKRING_SENDING_WINDOW);
    EQUAL(WINDOW, MARKRING_WINDOW);
    EQUAL(BYTES, MARKRING_SENDING_BYTES);
    for (int i = 0; i < ROUNDS; i++) {
        one_history(i % 3 == 0 ? 0 : (uint64_t)1 << (16 * (i % 3) + 16), i % 4 == 0);
    }
    no_answer();
    greatest();
    any_bytes();
    return report();
}
