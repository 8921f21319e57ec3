// The calls of markring_slots.h, over random histories of folders on a model of a disk. Entries,
// whole values and rewrites are saved; writes and syncs fail. The process or the machine ends at
// any moment, and the folder is opened again. Each byte is known by what it is a byte of, and one
// that was written since the last sync of its file may be lost or torn. What is found must be what
// was saved last, or was being saved. Then come the choices between any two slots, against the
// rules of docs/FORMATS.md.
#include "check.h"

#include "markring_slots.h"

#include <stdbool.h>

enum { BYTES = 3000, WRITES = 400, ITEMS = 4000, STEPS = 120, LONGEST = 30, HEAD = 20, MARK = 32 };
enum { VALUE_AROUND = 28, ENTRY_AROUND = 24, NONE = -1 };

typedef enum kind { VALUE, ENTRY, MARKED } kind;

// What is written with a seal, which is its place in `items`: its bytes, its number, and the seal
// before. Of an entry and a mark: the value that it is of. Which save it holds; an entry, since
// which.
typedef struct item {
    kind is;
    size_t size;
    uint64_t number, before, base, save, since;
} item;

// A byte: of which item, and which one of it.
typedef struct byte {
    int of;
    size_t place;
} byte;

typedef struct write {
    size_t from, count;
    byte bytes[BYTES];
} write;

typedef struct file {
    byte synced[BYTES];
    write *writes[WRITES];
    size_t count;
} file;

static item items[ITEMS];
static file files[2];
static uint64_t drawn = 1, item_count, saves;
// The last save that is stored; and the first one of those that were begun since.
static uint64_t stored, first_open;
static unsigned long opened, rewritten, refused;

static uint32_t any(uint32_t limit)
{
    return below(&drawn, limit);
}

static uint64_t add_item(item it)
{
    items[item_count] = it;
    return item_count++;
}

// ## The disk

static write *begin_write(uint8_t slot, size_t from)
{
    file *to = &files[slot];
    write *it = calloc(1, sizeof *it);
    it->from = from;
    to->writes[to->count++] = it;
    return it;
}

// Adds bytes of an item from this place on; of none, other bytes.
static void add_bytes(write *it, int of, size_t place, size_t count)
{
    for (size_t i = 0; i < count && it->from + it->count < BYTES; i++) {
        it->bytes[it->count++] = (byte){of, of == NONE ? 0 : place + i};
    }
}

// What there is after a sync, for which the last `sure` writes have succeeded, or after a crash.
static void settle(uint8_t slot, size_t sure)
{
    file *of = &files[slot];
    for (size_t i = 0; i < of->count; i++) {
        write *it = of->writes[i];
        uint32_t way = any(4), cut = any((uint32_t)it->count + 1);
        for (size_t k = 0; k < it->count; k++) {
            bool is_there = way == 0 ? false : way == 1 ? true : way == 2 ? k < cut : any(2) == 0;
            bool is_torn = way == 3 && any(3) == 0;
            byte *to = &of->synced[it->from + k];
            bool is_sure = i + sure >= of->count;
            bool is_new = is_sure || (is_there && !is_torn);
            *to = is_new ? it->bytes[k] : is_torn ? (byte){NONE, 0} : *to;
        }
        free(it);
    }
    of->count = 0;
}

// The item that is whole at this place, or NONE.
static int whole_at(uint8_t slot, size_t at)
{
    const byte *bytes = files[slot].synced;
    if (at >= BYTES || bytes[at].of == NONE || bytes[at].place != 0) {
        return NONE;
    }
    int of = bytes[at].of;
    for (size_t k = 0; k < items[of].size; k++) {
        if (at + k >= BYTES || bytes[at + k].of != of || bytes[at + k].place != k) {
            return NONE;
        }
    }
    return of;
}

// ## Openings

typedef struct seen {
    markring_slot_found found;
    uint64_t last, base, end, save;
} seen;

static seen read_slot(uint8_t slot)
{
    seen it = {{0, 0, 0}, 0, 0, 0, 0};
    int of = whole_at(slot, 0);
    if (of != NONE && items[of].is == VALUE) {
        markring_slots_found_value(&it.found, 2, items[of].number);
        it = (seen){it.found, (uint64_t)of, (uint64_t)of, items[of].size, items[of].save};
        for (of = whole_at(slot, it.end); of != NONE; of = whole_at(slot, it.end)) {
            const item *next = &items[of];
            if (next->is != ENTRY || next->before != it.last || next->base != it.base
                || markring_slots_found_entry(&it.found, next->number) == 0) {
                break;
            }
            it = (seen){it.found, (uint64_t)of, it.base, it.end + next->size,
                next->since == it.save ? next->save : 0};
        }
    }
    for (size_t at = it.end; at < BYTES; at++) {
        of = whole_at(slot, at);
        bool is_of_value = of != NONE && (it.found.version == 0 || items[of].base == it.base);
        if (is_of_value && items[of].is == MARKED) {
            markring_slots_found_mark(&it.found, items[of].number);
        } else if (of != NONE && items[of].is == ENTRY && at > it.end) {
            markring_slots_found_behind(&it.found, items[of].number - 1, items[of].number);
        }
    }
    return it;
}

static void open_again(markring_slots *slots)
{
    settle(0, 0);
    settle(1, 0);
    seen both[2] = {read_slot(0), read_slot(1)};
    int choice = markring_slots_choose(&both[0].found, &both[1].found);
    opened++;
    if (!HOLDS(choice == MARKRING_SLOTS_FIRST || choice == MARKRING_SLOTS_SECOND)) {
        exit(report());
    }
    const seen *it = &both[choice];
    HOLDS(it->save == stored || (it->save >= first_open && it->save <= saves));
    EQUAL(0, markring_slots_wholes_due(&it->found, &both[1 - choice].found));
    stored = it->save;
    first_open = saves + 1;
    markring_slots_open(
        slots, (uint8_t)choice, &it->found, it->end, it->last, it->base, 0);
}

// ## Saves

// The sync after a save succeeds, or a write or the sync fails. Returns whether it is stored.
static bool end_save(markring_slots *slots, uint8_t slot, uint64_t seal)
{
    uint32_t way = any(12);
    if (way == 0) {
        HOLDS(markring_slots_failed(slots) == 1);
        return false;
    }
    if (way == 1) {
        markring_slots_doubt(slots);
        return false;
    }
    settle(slot, 1);
    markring_slots_stored(slots, seal);
    return true;
}

static void note_stored(uint64_t seal)
{
    stored = items[seal].save;
    first_open = saves + 1;
}

static void put_mark(const markring_slots *slots)
{
    markring_slot_mark mark;
    if (any(4) > 0 && markring_slots_mark(slots, &mark) != 0) {
        EQUAL(slots->number, mark.number);
        uint64_t seal = add_item((item){MARKED, MARK, mark.number, 0, mark.base, 0, 0});
        add_bytes(begin_write(mark.slot, mark.offset), (int)seal, 0, MARK);
    }
}

static void save_entry(markring_slots *slots)
{
    markring_slot_target to;
    markring_slots was = *slots;
    uint64_t length = any(LONGEST), zeros;
    if (markring_slots_entry(slots, length, &to) == 0) {
        HOLDS(memcmp(&was, slots, sizeof was) == 0);
        refused++;
        return;
    }
    saves++;
    uint64_t seal = add_item((item){
        ENTRY, length + ENTRY_AROUND, to.number, to.before, slots->base, saves, stored});
    if (any(3) == 0 && markring_slots_zeros(slots, &zeros) != 0) {
        EQUAL(to.offset + length + ENTRY_AROUND, zeros);
        add_bytes(begin_write(to.slot, zeros), NONE, 0, 40);
    }
    add_bytes(begin_write(to.slot, to.offset), (int)seal, 0, items[seal].size);
    if (any(10) > 0 && end_save(slots, to.slot, seal)) {
        note_stored(seal);
        put_mark(slots);
    }
}

static void save_whole(markring_slots *slots)
{
    markring_slot_target to;
    uint64_t length = any(LONGEST);
    if (markring_slots_whole(slots, length, &to) == 0) {
        refused++;
        return;
    }
    saves++;
    HOLDS(to.offset == 0 && to.slot == (slots->counts == 0));
    uint64_t seal =
        add_item((item){VALUE, length + VALUE_AROUND, to.number, 0, item_count, saves, 0});
    add_bytes(begin_write(to.slot, 0), (int)seal, 0, items[seal].size);
    if (any(10) > 0 && end_save(slots, to.slot, seal)) {
        note_stored(seal);
        put_mark(slots);
    }
}

// ## Rewrites

typedef struct rewrite {
    markring_slot_rewrite state;
    uint64_t holds; // the save that its value holds
    bool is_begun;
} rewrite;

// The entry of the slot that counts at this place, which is synced.
static const item *entry_at(const rewrite *it)
{
    int of = whole_at(it->state.from, it->state.from_end);
    return HOLDS(of != NONE && items[of].is == ENTRY) ? &items[of] : NULL;
}

static void write_value(rewrite *it)
{
    markring_slot_target to;
    uint64_t length = any(LONGEST);
    if (!it->is_begun || markring_slots_rewrite_value(&it->state, length, &to) == 0) {
        return;
    }
    uint64_t seal =
        add_item((item){VALUE, length + VALUE_AROUND, to.number, 0, item_count, it->holds, 0});
    write *bytes = begin_write(to.slot, to.offset);
    add_bytes(bytes, NONE, 0, HEAD);
    add_bytes(bytes, (int)seal, HEAD, items[seal].size - HEAD);
    it->is_begun = any(8) > 0;
    if (it->is_begun) {
        settle(to.slot, 1);
        markring_slots_rewrite_written(&it->state, length, seal);
    }
}

// Writes copies of the entries up to this place, and what comes behind. They are synced, or not
// yet.
static bool write_copies(rewrite *it, uint64_t end, bool is_synced)
{
    markring_slot_copying copy;
    if (markring_slots_rewrite_copy(&it->state, end, &copy) == 0) {
        return false;
    }
    if (copy.length == 0) {
        return true;
    }
    write *bytes = begin_write(copy.to_slot, copy.to);
    rewrite next = *it;
    while (next.state.from_end < end) {
        const item *from = entry_at(&next);
        if (from == NULL) {
            exit(report());
        }
        item made = *from;
        made.before = next.state.seal;
        made.base = next.state.base;
        next.state.seal = add_item(made);
        next.state.from_seal = (uint64_t)(from - items);
        next.state.from_end += from->size;
        add_bytes(bytes, (int)next.state.seal, 0, made.size);
    }
    if (is_synced) {
        settle(copy.to_slot, 1);
    }
    markring_slots_rewrite_copied(&it->state, end, next.state.from_seal, next.state.seal);
    return true;
}

static void end_rewrite(markring_slots *slots, rewrite *with)
{
    markring_slot_target to;
    uint64_t length = any(LONGEST), value = with->state.base;
    size_t before = files[slots->counts == 0].count;
    if (!with->is_begun || slots->phase != 0 || !write_copies(with, slots->end, false)) {
        return;
    }
    with->is_begun = false;
    size_t copies = files[slots->counts == 0].count - before;
    if (!HOLDS(markring_slots_last(slots, &with->state, length, &to) != 0)) {
        return;
    }
    saves++;
    uint64_t seal = add_item((item){
        ENTRY, length + ENTRY_AROUND, to.number, to.before, with->state.base, saves, stored});
    add_bytes(begin_write(to.slot, to.offset), (int)seal, 0, items[seal].size);
    if (any(10) == 0) {
        return;
    }
    settle(to.slot, 1 + copies);
    markring_slots_stored(slots, seal);
    if (any(10) == 0 || !HOLDS(markring_slots_head(slots, &to) != 0 && to.offset == 0)) {
        return;
    }
    add_bytes(begin_write(to.slot, 0), (int)value, 0, HEAD);
    uint32_t way = any(10);
    if (way == 0) {
        HOLDS(markring_slots_failed(slots) == 0);
    } else if (way == 1) {
        markring_slots_doubt(slots);
    } else if (way > 2) {
        settle(to.slot, 1);
        markring_slots_stored(slots, seal);
        note_stored(seal);
        rewritten++;
        put_mark(slots);
    }
}

static void one_step(markring_slots *slots, rewrite *beside)
{
    switch (any(10)) {
    case 0: save_whole(slots); beside->is_begun = false; break;
    case 1:
        if (markring_slots_rewrite(slots, &beside->state) != 0) {
            beside->is_begun = true;
            beside->holds = stored;
        }
        break;
    case 2: write_value(beside); break;
    case 3:
        if (beside->is_begun && slots->phase == 0) {
            (void)write_copies(beside, slots->end, true);
        }
        break;
    case 4: end_rewrite(slots, beside); break;
    default: save_entry(slots);
    }
}

static void one_history(void)
{
    markring_slots slots;
    rewrite beside = {.is_begun = false};
    item_count = 1;
    saves = stored = 0;
    for (int i = 0; i < 2; i++) {
        for (size_t k = 0; k < BYTES; k++) {
            files[i].synced[k] = (byte){NONE, 0};
        }
    }
    markring_slots_create(&slots, any(1000));
    markring_slot_target to;
    HOLDS(markring_slots_entry(&slots, 1, &to) == 0);
    HOLDS(markring_slots_whole(&slots, 5, &to) == 1 && to.slot == 0 && to.offset == 0);
    uint64_t seal = add_item((item){VALUE, 5 + VALUE_AROUND, to.number, 0, 1, ++saves, 0});
    add_bytes(begin_write(0, 0), (int)seal, 0, items[seal].size);
    settle(0, 1);
    markring_slots_stored(&slots, seal);
    note_stored(seal);
    for (int i = 0; i < STEPS && item_count + 100 < ITEMS; i++) {
        bool is_long = slots.end + 200 > BYTES;
        bool is_full = files[0].count + 8 > WRITES || files[1].count + 8 > WRITES;
        bool is_over = slots.phase != 0 && slots.phase != 5;
        if (is_over || is_long || is_full || any(12) == 0) {
            open_again(&slots);
            beside.is_begun = false;
        }
        if (slots.end + 200 > BYTES) {
            save_whole(&slots);
            beside.is_begun = false;
        } else {
            one_step(&slots, &beside);
        }
    }
    open_again(&slots);
}

// ## Choices

// Which slot counts, as docs/FORMATS.md has it: the whole one with the higher number, unless
// something later was whole.
static int rule(const markring_slot_found *a, const markring_slot_found *b)
{
    if ((a->version == 0 && b->version == 0)
        || (a->version != 0 && b->version != 0 && a->number == b->number)) {
        return MARKRING_SLOTS_DAMAGED;
    }
    bool is_first = b->version == 0 || (a->version != 0 && a->number > b->number);
    uint64_t last = is_first ? a->number : b->number;
    uint64_t synced = a->synced > b->synced ? a->synced : b->synced;
    return synced > last ? MARKRING_SLOTS_DAMAGED : is_first ? MARKRING_SLOTS_FIRST
                                                             : MARKRING_SLOTS_SECOND;
}

static void choices(void)
{
    static const uint64_t NUMBERS[] = {0, 1, 2, 7, UINT64_MAX};
    enum { COUNT = sizeof NUMBERS / sizeof *NUMBERS, ALL = COUNT * COUNT * 3 };
    for (int i = 0; i < ALL * ALL; i++) {
        int x = i % ALL, y = i / ALL;
        markring_slot_found a = {NUMBERS[x % COUNT], NUMBERS[x / COUNT % COUNT], 0}, b = a;
        a.version = (uint8_t)(x / COUNT / COUNT);
        b.number = NUMBERS[y % COUNT];
        b.synced = NUMBERS[y / COUNT % COUNT];
        b.version = (uint8_t)(y / COUNT / COUNT);
        EQUAL(rule(&a, &b), markring_slots_choose(&a, &b));
        EQUAL(a.version == 1 ? 2 : b.version == 1 ? 1 : 0, markring_slots_wholes_due(&a, &b));
    }
}

// Marks and what is behind show what was whole; an entry of a value of the first version doesn't
// count.
static void findings(void)
{
    markring_slot_found it = {0, 0, 0};
    markring_slots_found_behind(&it, 6, 7);
    EQUAL(6, it.synced);
    markring_slots_found_behind(&it, 7, 9);
    EQUAL(6, it.synced);
    markring_slots_found_value(&it, 2, 8);
    HOLDS(markring_slots_found_entry(&it, 8) == 0 && markring_slots_found_entry(&it, 10) == 1);
    EQUAL(10, it.number);
    markring_slots_found_behind(&it, 10, 11);
    EQUAL(6, it.synced);
    markring_slots_found_behind(&it, 0, 12);
    EQUAL(11, it.synced);
    markring_slots_found_mark(&it, UINT64_C(1) << 48);
    markring_slots_found_mark(&it, 9);
    EQUAL(11, it.synced);
    markring_slots_found_mark(&it, 13);
    EQUAL(13, it.synced);
    markring_slots_found_value(&it, 1, 3);
    HOLDS(markring_slots_found_entry(&it, 4) == 0);
    markring_slots slots;
    markring_slot_target to;
    markring_slots_open(&slots, 0, &it, 50, 1, 1, 22);
    HOLDS(markring_slots_entry(&slots, 1, &to) == 0);
    HOLDS(markring_slots_whole(&slots, 1, &to) == 1 && to.slot == 1 && to.number == 4);
}

int main(int count, char **given)
{
    unsigned long times = count > 1 ? strtoul(given[1], NULL, 10) : 60;
    for (unsigned long i = 0; i < 20 * times; i++) {
        one_history();
    }
    HOLDS(rewritten > times && refused > times && opened > 100 * times);
    choices();
    findings();
    for (int i = 0; i < 2; i++) {
        settle((uint8_t)i, 0);
    }
    return report();
}
