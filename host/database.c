#include "database.h"

#include "bytes.h"

#include <stdlib.h>

#define XXH_INLINE_ALL
#include <xxhash.h>

// Behind the value of a rewrite: the seal before the next entry, and a checksum of that.
enum { FIRST_WAIT = 50, LONGEST_WAIT = 1000, LINK = 16 };

static const store_value NO_VALUE = {NULL, 0, 0, false, 0, 0};

static database_status lose(database *it)
{
    it->is_connected = false;
    return DATABASE_LOST;
}

// What a status means for a call that isn't tried again.
static store_status store_status_of(database_status status)
{
    return status == DATABASE_DONE ? STORE_OK
        : status == DATABASE_NONE  ? STORE_TAKEN
        : status == DATABASE_MEMORY ? STORE_MEMORY
                                    : STORE_FAILED;
}

static void begin(database *it, const database_calls *calls)
{
    memset(it, 0, sizeof *it);
    it->calls = *calls;
}

static store_status close_with(database *it, store_status status)
{
    it->calls.disconnect(it->calls.context);
    it->is_connected = false;
    return status;
}

// ## Pieces

// Puts the bytes of a save into pieces, in the transaction that is under way.
static database_status put_pieces(database *it, uint64_t number, bool is_entry, store_bytes what)
{
    database_status status = DATABASE_DONE;
    database_piece piece = {number, 0, is_entry, false, what.bytes, 0};
    for (size_t done = 0; done < what.length && status == DATABASE_DONE; piece.part++) {
        piece.bytes = what.bytes + done;
        piece.length = what.length - done < PIECE_MOST ? what.length - done : PIECE_MOST;
        done += piece.length;
        status = it->calls.put(it->calls.context, &piece);
    }
    return status;
}

// Bytes that are read, and the place of the next piece.
typedef struct collected {
    growing all;
    uint64_t base;         // the number of the first piece
    uint64_t number, last; // of this piece; no piece with a higher number than the last is taken
    uint32_t part;
    size_t whole;    // the bytes of the pieces before the first entry
    bool is_rewrite; // these are of a rewrite
    bool is_broken;  // a piece isn't the one that had to come
    bool is_open;    // behind this piece, another one of the same save may have to come
    bool lacks;      // a piece isn't there; or, if what was read isn't whole, perhaps one isn't
} collected;

// Whether a piece is missing before this one: of the save before it, or of its own. A first piece
// is that of the base.
static bool lacks_before(const collected *it, const database_piece *piece)
{
    bool is_next = piece->number == it->number;
    return piece->part > (is_next ? it->part : 0) || (!is_next && it->is_open)
        || (it->all.length == 0 && piece->number != it->base);
}

// A value comes first, and then entries.
static bool collect(void *to, const database_piece *piece)
{
    collected *it = to;
    bool is_first = it->all.length == 0;
    bool begins = piece->part == 0 && piece->number > it->number && piece->is_entry != is_first;
    bool goes_on = piece->part > 0 && piece->part == it->part && piece->number == it->number;
    if (piece->number > it->last) {
        return true;
    }
    it->lacks = it->lacks || (!it->is_broken && lacks_before(it, piece));
    it->is_rewrite = it->is_rewrite || (is_first && piece->is_rewrite);
    it->is_broken = it->is_broken || !(begins || goes_on) || piece->length > PIECE_MOST
        || piece->is_rewrite != (it->is_rewrite && !piece->is_entry);
    if (it->is_broken) {
        return true;
    }
    if (!make_more_room(&it->all, piece->length)) {
        return false;
    }
    if (piece->length > 0) {
        memcpy(it->all.bytes + it->all.length, piece->bytes, piece->length);
    }
    it->all.length += piece->length;
    it->whole = piece->is_entry ? it->whole : it->all.length;
    it->number = piece->number;
    it->part = piece->part + 1;
    it->is_open = piece->length == PIECE_MOST || (piece->is_rewrite && piece->length > LINK);
    return true;
}

// Behind the value of a rewrite, entries have the seals that they had before it: gives them those
// that begin behind the value, so that all is as in a slot. `*seal` is the last one that they had.
static bool join(collected *it, uint64_t *seal)
{
    if (it->whole < LINK + STORE_TAIL) {
        return false;
    }
    uint8_t *link = it->all.bytes + it->whole - LINK;
    reader value = reader_of(link - STORE_TAIL, STORE_TAIL), from = reader_of(link, LINK);
    uint64_t new = read_number(&value, STORE_TAIL);
    *seal = read_number(&from, STORE_TAIL);
    if (read_number(&from, STORE_TAIL) != XXH3_64bits_withSeed(link, STORE_TAIL, new)) {
        return false;
    }
    it->all.length -= LINK;
    it->whole -= LINK;
    memmove(link, link + LINK, it->all.length - it->whole);
    return store_seal_again(link, it->all.length - it->whole, seal, &new);
}

static bool read_collected(collected *it, store_found *to)
{
    uint64_t seal = 0;
    if (it->is_broken || (it->is_rewrite && !join(it, &seal))
        || !store_read_bytes(it->all.bytes, it->all.length, to)) {
        return false;
    }
    to->seal = it->is_rewrite ? seal : to->seal;
    return true;
}

// Reads the value with this row. The last piece has to be of the save that counts.
static store_status read_value(
    const database_calls *calls, const database_row *row, uint64_t last, store_found *to)
{
    collected found = {.base = row->base, .last = last};
    database_status status = calls->read(calls->context, row->base, collect, &found);
    bool is_whole = status == DATABASE_DONE && read_collected(&found, to)
        && to->number == row->number && found.number == row->number;
    if (!is_whole) {
        free(found.all.bytes);
    }
    bool lacks =
        found.lacks || (!found.is_broken && (found.is_open || found.number < row->number));
    return is_whole                ? STORE_OK
        : status != DATABASE_DONE ? store_status_of(status)
        : lacks                   ? STORE_MISSING
                                  : STORE_DAMAGED;
}

// ## Opening

store_status database_create(database *it, const database_calls *calls, uint64_t holder,
    store_value *value, uint64_t number)
{
    begin(it, calls);
    it->number = number + 1;
    it->row = (database_row){holder, 1, it->number, it->number, 0};
    it->session = 1;
    store_bytes whole = store_seal_whole(value, it->number);
    database_status status = calls->connect(calls->context);
    if (status == DATABASE_DONE) {
        status = calls->begin(calls->context);
    }
    if (status == DATABASE_DONE) {
        status = calls->add(calls->context, &it->row);
        if (status == DATABASE_NONE) {
            return close_with(it, STORE_EXISTS);
        }
    }
    if (status == DATABASE_DONE) {
        status = put_pieces(it, it->number, false, whole);
    }
    if (status == DATABASE_DONE) {
        status = calls->commit(calls->context);
    }
    it->seal = whole.seal;
    it->is_connected = true;
    return status == DATABASE_DONE ? STORE_OK : close_with(it, store_status_of(status));
}

store_status database_look(const database_calls *calls, store_value *value, database_row *row)
{
    store_found found;
    database_status status = calls->lock(calls->context, row);
    if (status == DATABASE_NONE) {
        return STORE_ABSENT;
    }
    store_status read =
        status == DATABASE_DONE ? read_value(calls, row, UINT64_MAX, &found) : store_status_of(status);
    *value = read == STORE_OK ? found.value : NO_VALUE;
    return read;
}

// Makes this process the holder, and reads what counts, in one transaction.
static store_status take_over(database *it, uint64_t holder, store_found *found)
{
    const database_calls *calls = &it->calls;
    database_row before;
    database_status status = calls->begin(calls->context);
    if (status == DATABASE_DONE) {
        status = calls->lock(calls->context, &before);
        if (status == DATABASE_NONE) {
            return STORE_ABSENT;
        }
    }
    if (status == DATABASE_DONE) {
        it->was_held = before.holder != 0;
        it->row = before;
        it->row.holder = holder;
        it->row.session = it->session = 1;
        status = calls->move(calls->context, &before, &it->row);
    }
    if (status == DATABASE_DONE) {
        status = calls->sweep(calls->context, it->row.base);
    }
    store_status read = store_status_of(status);
    if (read == STORE_OK) {
        read = read_value(calls, &it->row, UINT64_MAX, found);
    }
    if (read != STORE_OK) {
        return read;
    }
    bool is_own = calls->is_own == NULL || calls->is_own(calls->context, &found->value);
    read = is_own ? store_status_of(calls->commit(calls->context)) : STORE_OTHER;
    if (read != STORE_OK) {
        free(found->value.buffer);
    }
    return read;
}

store_status database_open(
    database *it, const database_calls *calls, uint64_t holder, store_value *value)
{
    store_found found;
    begin(it, calls);
    store_status status = store_status_of(calls->connect(calls->context));
    if (status == STORE_OK) {
        status = take_over(it, holder, &found);
    }
    if (status != STORE_OK) {
        return close_with(it, status);
    }
    it->is_connected = true;
    it->number = found.number;
    it->seal = found.seal;
    // (an earlier process may have left some)
    it->has_older = true;
    *value = found.value;
    return STORE_OK;
}

// ## Connections that were lost

// Begins another session of this holder, which ends the one before, and reads which save counts.
// DATABASE_NONE if another process has the node, or if the row isn't one that this process left.
static database_status begin_session(database *it)
{
    const database_calls *calls = &it->calls;
    database_row found;
    database_status status = calls->begin(calls->context);
    if (status == DATABASE_DONE) {
        status = calls->lock(calls->context, &found);
    }
    if (status == DATABASE_DONE
        && (found.holder != it->row.holder
            || (found.number != it->row.number && found.number != it->number))) {
        return DATABASE_NONE;
    }
    database_row next = found;
    next.session = ++it->session;
    if (status == DATABASE_DONE) {
        status = calls->move(calls->context, &found, &next);
    }
    if (status == DATABASE_DONE) {
        status = calls->commit(calls->context);
    }
    if (status == DATABASE_DONE) {
        it->row = next;
    }
    return status;
}

// Connects again, until the server has said which save counts.
static store_status regain(database *it)
{
    const database_calls *calls = &it->calls;
    for (uint64_t wait = FIRST_WAIT;; wait = 2 * wait < LONGEST_WAIT ? 2 * wait : LONGEST_WAIT) {
        calls->disconnect(calls->context);
        database_status status = calls->connect(calls->context);
        status = status == DATABASE_DONE ? begin_session(it) : status;
        if (status == DATABASE_NONE) {
            return close_with(it, STORE_TAKEN);
        }
        if (status == DATABASE_DONE) {
            it->is_connected = true;
            calls->note(calls->context, false);
            return STORE_OK;
        }
        calls->note(calls->context, true);
        if (!calls->pause(calls->context, wait)) {
            return STORE_UNKNOWN;
        }
    }
}

// ## Saves

// Deletes what isn't part of the save that counts any more. If that fails, a later one does it.
static void clear_older(database *it)
{
    database_status status = it->calls.clear(it->calls.context, &it->row);
    it->has_older = status != DATABASE_DONE;
    if (status == DATABASE_LOST) {
        (void)lose(it);
    }
}

// Begins a save with the next number.
static void begin_next(database *it, store_value *value)
{
    uint64_t number = ++it->number;
    it->what = value->is_entry ? store_seal_entry(value, number, it->seal)
                               : store_seal_whole(value, number);
    it->to = it->row;
    it->to.number = number;
    it->to.base = value->is_entry ? it->to.base : number;
}

// Asks for the save that was begun, which has one piece. Returns whether all was sent.
static bool ask_for(database *it, bool is_entry)
{
    const database_calls *calls = &it->calls;
    database_piece piece = {it->to.number, 0, is_entry, false, it->what.bytes, it->what.length};
    it->is_asked = true;
    return calls->ask(calls->context, &it->row, &it->to, &piece);
}

static database_status take_answer(database *it)
{
    it->is_asked = false;
    return it->calls.answer(it->calls.context);
}

// Writes the save that was begun in one transaction.
static database_status write_save(database *it, bool is_entry)
{
    const database_calls *calls = &it->calls;
    if (!it->is_connected) {
        return DATABASE_LOST;
    }
    if (it->what.length <= PIECE_MOST) {
        (void)ask_for(it, is_entry);
        return take_answer(it);
    }
    database_status status = calls->begin(calls->context);
    if (status == DATABASE_DONE) {
        status = calls->move(calls->context, &it->row, &it->to);
    }
    if (status == DATABASE_DONE) {
        status = put_pieces(it, it->to.number, is_entry, it->what);
    }
    return status == DATABASE_DONE ? calls->commit(calls->context) : status;
}

// Finds out whether the save with this number counts, of which no answer came. DATABASE_LOST if it
// doesn't; `*known` isn't STORE_OK if nobody knows.
static database_status look_for(database *it, uint64_t number, store_status *known)
{
    (void)lose(it);
    *known = regain(it);
    return *known == STORE_OK && it->row.number == number ? DATABASE_DONE : DATABASE_LOST;
}

// A save counts.
static void note_saved(database *it, const store_value *value)
{
    it->seal = it->what.seal;
    it->added += value->is_entry ? it->what.length : 0;
    it->has_older = it->has_older || !value->is_entry;
    if (it->has_older) {
        clear_older(it);
    }
}

// Begins a save and comes to the end of it, or of the one that was asked for.
static database_status try_save(database *it, store_value *value)
{
    if (it->is_asked) {
        return take_answer(it);
    }
    begin_next(it, value);
    return write_save(it, value->is_entry);
}

store_status database_save(database *it, store_value *value)
{
    for (;;) {
        database_status status = try_save(it, value);
        if (status == DATABASE_LOST) {
            store_status known;
            status = look_for(it, it->to.number, &known);
            if (known != STORE_OK) {
                return known;
            }
        } else if (status == DATABASE_DONE) {
            it->row = it->to;
        }
        if (status == DATABASE_DONE) {
            note_saved(it, value);
        }
        if (status != DATABASE_LOST) {
            return status == DATABASE_MEMORY ? STORE_FAILED : store_status_of(status);
        }
    }
}

// What deletes older pieces waits.
bool database_can_ask(const database *it, const store_value *value)
{
    return it->is_connected && !it->has_older && value->is_entry && value->length <= ASKED_MOST;
}

bool database_ask(database *it, store_value *value)
{
    begin_next(it, value);
    return ask_for(it, value->is_entry);
}

database_news database_hear(database *it, const store_value *value)
{
    database_news news = it->calls.hear(it->calls.context);
    if (news == NEWS_DONE) {
        (void)take_answer(it);
        it->row = it->to;
        note_saved(it, value);
    }
    return news;
}

// ## Rewrites

void database_rewrite_begin(database *it, const database_calls *other, database_rewrite *to)
{
    memset(to, 0, sizeof *to);
    to->calls = *other;
    to->holder = it->row.holder;
    to->base = it->row.base;
    to->last = it->row.number;
    to->seal = it->seal;
    to->number = ++it->number;
    to->added = it->added;
}

store_status database_rewrite_read(database_rewrite *it, store_value *value)
{
    const database_calls *calls = &it->calls;
    database_row row = {.number = it->last, .base = it->base};
    store_found found;
    database_status status = calls->connect(calls->context);
    if (status == DATABASE_DONE) {
        status = calls->begin(calls->context);
    }
    store_status read = status == DATABASE_DONE ? read_value(calls, &row, it->last, &found)
                                                : store_status_of(status);
    if (read == STORE_OK && (found.seal != it->seal || calls->commit(calls->context) != DATABASE_DONE)) {
        free(found.value.buffer);
        read = STORE_DAMAGED;
    }
    if (read != STORE_OK) {
        calls->disconnect(calls->context);
        return read;
    }
    *value = found.value;
    return STORE_OK;
}

// Puts the bytes of a rewrite into pieces that don't count yet.
static database_status put_apart(database_rewrite *it, const uint8_t *bytes, size_t length)
{
    database_status status = DATABASE_DONE;
    for (size_t done = 0; done < length && status == DATABASE_DONE;) {
        size_t count = length - done < PIECE_MOST ? length - done : PIECE_MOST;
        database_piece piece = {it->number, it->parts++, false, true, bytes + done, count};
        status = it->calls.put_apart(it->calls.context, it->holder, &piece);
        done += count;
    }
    return status;
}

store_status database_rewrite_write(database_rewrite *it, store_value *whole)
{
    uint8_t link[LINK];
    store_bytes sealed = store_seal_whole(whole, it->number);
    writer to = writer_of(link, sizeof link);
    write_number(&to, it->seal, STORE_TAIL);
    write_number(&to, XXH3_64bits_withSeed(link, STORE_TAIL, sealed.seal), STORE_TAIL);
    it->length = whole->length;
    database_status status = put_apart(it, sealed.bytes, sealed.length);
    status = status == DATABASE_DONE ? put_apart(it, link, sizeof link) : status;
    it->calls.disconnect(it->calls.context);
    return store_status_of(status);
}

// Makes the rewrite the base, with an entry, in one transaction. `*lacks` says that pieces of the
// rewrite aren't there.
static database_status write_switch(database *it, const database_rewrite *with, bool *lacks)
{
    const database_calls *calls = &it->calls;
    if (!it->is_connected) {
        return DATABASE_LOST;
    }
    database_status status = calls->begin(calls->context);
    if (status == DATABASE_DONE) {
        status = calls->move(calls->context, &it->row, &it->to);
    }
    if (status == DATABASE_DONE) {
        status = calls->find_parts(calls->context, with->number, with->parts);
        *lacks = status == DATABASE_NONE;
    }
    if (status == DATABASE_DONE) {
        status = put_pieces(it, it->to.number, true, it->what);
    }
    return status == DATABASE_DONE ? calls->commit(calls->context) : status;
}

store_status database_rewrite_end(
    database *it, const database_rewrite *with, store_value *entry, bool *is_done)
{
    bool lacks = false;
    begin_next(it, entry);
    it->to.base = with->number;
    database_status status = write_switch(it, with, &lacks);
    if (status == DATABASE_LOST) {
        store_status known;
        status = look_for(it, it->to.number, &known);
        if (known != STORE_OK) {
            *is_done = false;
            return known;
        }
    } else if (status == DATABASE_DONE) {
        it->row = it->to;
    }
    *is_done = status == DATABASE_DONE;
    if (*is_done) {
        it->has_older = true;
        note_saved(it, entry);
        return STORE_OK;
    }
    return status == DATABASE_NONE && !lacks ? STORE_TAKEN : database_save(it, entry);
}

store_status database_renew(database *it)
{
    database_status status = DATABASE_LOST;
    if (it->is_connected) {
        status = it->calls.move(it->calls.context, &it->row, &it->row);
    }
    if (status == DATABASE_LOST) {
        (void)lose(it);
        return regain(it);
    }
    return store_status_of(status);
}

void database_close(database *it)
{
    if (it->is_asked && take_answer(it) == DATABASE_DONE) {
        it->row = it->to;
    }
    if (it->is_connected) {
        database_row free_row = it->row;
        free_row.holder = 0;
        (void)it->calls.move(it->calls.context, &it->row, &free_row);
    }
    (void)close_with(it, STORE_OK);
}
