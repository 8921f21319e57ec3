#include "rows.h"
#include "models.h"

#include <string.h>

// ## Tables

static rows_piece copy_of(const rows_piece *it)
{
    rows_piece copy = *it;
    copy.bytes = resized(NULL, it->length);
    memcpy(copy.bytes, it->bytes, it->length);
    return copy;
}

static void free_table(rows_table *it)
{
    for (size_t i = 0; i < it->count; i++) {
        free(it->pieces[i].bytes);
    }
    free(it->pieces);
    memset(it, 0, sizeof *it);
}

static void copy_table(rows_table *to, const rows_table *from)
{
    free_table(to);
    *to = *from;
    to->pieces = resized(NULL, from->count * sizeof *to->pieces);
    for (size_t i = 0; i < from->count; i++) {
        to->pieces[i] = copy_of(&from->pieces[i]);
    }
}

static bool is_before(const rows_piece *a, const rows_piece *b)
{
    return a->number < b->number || (a->number == b->number && a->part < b->part);
}

// Puts a piece in its place. Returns false if there is one with its number and part.
static bool put_piece(rows_table *to, const rows_piece *piece)
{
    size_t at = to->count;
    while (at > 0 && is_before(piece, &to->pieces[at - 1])) {
        at--;
    }
    if (at > 0 && !is_before(&to->pieces[at - 1], piece)) {
        return false;
    }
    to->pieces = resized(to->pieces, (to->count + 1) * sizeof *to->pieces);
    memmove(&to->pieces[at + 1], &to->pieces[at], (to->count - at) * sizeof *to->pieces);
    to->pieces[at] = copy_of(piece);
    to->count++;
    return true;
}

// Whether it changed the row.
static bool move_row(rows_table *at, const database_row *from, const database_row *to)
{
    if (!at->has_row || at->row.holder != from->holder || at->row.session != from->session
        || at->row.number != from->number) {
        return false;
    }
    uint64_t beat = at->row.beat + 1;
    at->row = *to;
    at->row.beat = beat;
    return true;
}

static void clear_below(rows_table *at, const database_row *row)
{
    if (at->row.holder != row->holder || at->row.session != row->session) {
        return;
    }
    size_t gone = 0;
    while (gone < at->count && at->pieces[gone].number < row->base) {
        free(at->pieces[gone++].bytes);
    }
    memmove(at->pieces, at->pieces + gone, (at->count - gone) * sizeof *at->pieces);
    at->count -= gone;
}

static void sweep_table(rows_table *at, uint64_t base)
{
    size_t kept = 0;
    for (size_t i = 0; i < at->count; i++) {
        if (at->pieces[i].is_rewrite && at->pieces[i].number != base) {
            free(at->pieces[i].bytes);
        } else {
            at->pieces[kept++] = at->pieces[i];
        }
    }
    at->count = kept;
}

// ## Statements that are late

void rows_arrive(rows *it)
{
    for (int i = 0; i < it->late_count; i++) {
        rows_statement *late = &it->late[i];
        bool is_done = late->holder != 0 ? it->table.row.holder == late->holder
                                         : move_row(&it->table, &late->from, &late->to);
        it->overtaken += !is_done;
        if (is_done && late->has_piece) {
            (void)put_piece(&it->table, &late->piece);
        }
        free(late->piece.bytes);
    }
    it->late_count = 0;
}

static void delay(rows *it, const database_row *from, const database_row *to, const rows_piece *piece)
{
    if (it->late_count < ROWS_LATE) {
        rows_statement *late = &it->late[it->late_count++];
        *late = (rows_statement){*from, *to, {0, 0, false, false, NULL, 0}, piece != NULL, 0};
        if (piece != NULL) {
            late->piece = copy_of(piece);
        }
    }
}

void rows_take(rows *it, rows_client *from)
{
    if (it->table.has_row && !from->in_transaction) {
        it->table.row.holder = 1 + below_number(it->seed, UINT32_MAX - 1);
        it->table.row.session = 1;
        it->table.row.beat++;
        sweep_table(&it->table, it->table.row.base);
    }
}

// ## Calls

static void end_transaction(rows_client *it)
{
    it->in_transaction = false;
    free_table(&it->work);
}

static database_status lose(rows_client *it)
{
    end_transaction(it);
    it->is_connected = it->is_asked = false;
    it->lost++;
    return DATABASE_LOST;
}

static rows_fault random_fault(rows_client *it)
{
    uint32_t fate = below_number(it->server->seed, 1000);
    return fate < it->losing ? (rows_fault)(ROWS_BEFORE + fate % 3)
        : fate < it->losing + it->refusing ? ROWS_REFUSES
                                           : ROWS_NO_FAULT;
}

// What happens to a call. If the process dies in it, it may be done all the same.
static rows_fault enter(rows_client *it)
{
    it->calls++;
    it->misused += it->is_asked;
    if (it->dead || !it->is_connected) {
        return ROWS_BEFORE;
    }
    if (it->server->late_count > 0 && !it->in_transaction && below_number(it->server->seed, 3) == 0) {
        rows_arrive(it->server);
    }
    rows_fault fault = it->calls == it->fault_at ? it->fault : random_fault(it);
    if (it->dies_in > 0 && --it->dies_in == 0) {
        it->dead = true;
        fault = (rows_fault)(ROWS_BEFORE + below_number(it->server->seed, 3));
    }
    if (fault == ROWS_TAKES) {
        rows_take(it->server, it);
        fault = ROWS_NO_FAULT;
    }
    return fault;
}

static database_status refuse(rows_client *it)
{
    end_transaction(it);
    it->refused++;
    return DATABASE_REFUSED;
}

// The table that a call changes.
static rows_table *table_of(rows_client *it)
{
    return it->in_transaction ? &it->work : &it->server->table;
}

// What a call that was done answers.
static database_status answer(rows_client *it, rows_fault fault, bool is_found)
{
    if (fault == ROWS_AFTER) {
        return lose(it);
    }
    if (!is_found) {
        end_transaction(it);
    }
    return is_found ? DATABASE_DONE : DATABASE_NONE;
}

static database_status connect_client(void *context)
{
    rows_client *it = context;
    end_transaction(it);
    it->is_connected = true;
    it->is_asked = false;
    rows_fault fault = enter(it);
    return fault == ROWS_NO_FAULT ? DATABASE_DONE : fault == ROWS_REFUSES ? refuse(it) : lose(it);
}

static void disconnect(void *context)
{
    rows_client *it = context;
    end_transaction(it);
    it->is_connected = it->is_asked = false;
}

static database_status begin(void *context)
{
    rows_client *it = context;
    rows_fault fault = enter(it);
    if (fault != ROWS_NO_FAULT) {
        return fault == ROWS_REFUSES ? refuse(it) : lose(it);
    }
    copy_table(&it->work, &it->server->table);
    it->in_transaction = true;
    return DATABASE_DONE;
}

static database_status commit(void *context)
{
    rows_client *it = context;
    rows_fault fault = enter(it);
    if (fault == ROWS_REFUSES) {
        return refuse(it);
    }
    // (a commit that is late keeps the row locked, so nobody sees that it was)
    if (fault != ROWS_BEFORE) {
        free_table(&it->server->table);
        it->server->table = it->work;
        memset(&it->work, 0, sizeof it->work);
    }
    it->in_transaction = false;
    return fault == ROWS_NO_FAULT ? DATABASE_DONE : lose(it);
}

static database_status lock(void *context, database_row *row)
{
    rows_client *it = context;
    rows_fault fault = enter(it);
    if (fault != ROWS_NO_FAULT) {
        return fault == ROWS_REFUSES ? refuse(it) : lose(it);
    }
    *row = it->work.row;
    return answer(it, fault, it->work.has_row);
}

static database_status add(void *context, const database_row *row)
{
    rows_client *it = context;
    rows_fault fault = enter(it);
    if (fault != ROWS_NO_FAULT) {
        return fault == ROWS_REFUSES ? refuse(it) : lose(it);
    }
    bool is_new = !it->work.has_row;
    if (is_new) {
        it->work.has_row = true;
        it->work.row = *row;
    }
    return answer(it, fault, is_new);
}

static database_status move(void *context, const database_row *from, const database_row *to)
{
    rows_client *it = context;
    rows_fault fault = enter(it);
    if (fault == ROWS_REFUSES) {
        return refuse(it);
    }
    if (fault == ROWS_LATER && !it->in_transaction) {
        delay(it->server, from, to, NULL);
    }
    if (fault == ROWS_BEFORE || fault == ROWS_LATER) {
        return lose(it);
    }
    return answer(it, fault, move_row(table_of(it), from, to));
}

static rows_piece piece_of(const database_piece *piece)
{
    return (rows_piece){piece->number, piece->part, piece->is_entry, piece->is_rewrite,
        (uint8_t *)(uintptr_t)piece->bytes, piece->length};
}

// A number is for one save alone. The last bytes of a save are its seal.
static void note_number(rows_client *it, const database_piece *piece)
{
    uint64_t seal = 0;
    if (piece->part > 0 || piece->number >= ROWS_NUMBERS || piece->length < STORE_TAIL) {
        return;
    }
    memcpy(&seal, piece->bytes + piece->length - STORE_TAIL, sizeof seal);
    uint64_t *known = &it->seals[piece->number];
    it->used_twice += *known != 0 && *known != seal;
    *known = seal;
}

static database_status put(void *context, const database_piece *piece)
{
    rows_client *it = context;
    rows_piece held = piece_of(piece);
    rows_fault fault = enter(it);
    if (fault != ROWS_NO_FAULT) {
        return fault == ROWS_REFUSES ? refuse(it) : lose(it);
    }
    note_number(it, piece);
    return put_piece(table_of(it), &held) ? DATABASE_DONE : refuse(it);
}

static database_status put_apart(void *context, uint64_t holder, const database_piece *piece)
{
    rows_client *it = context;
    rows_piece held = piece_of(piece);
    rows_fault fault = enter(it);
    if (fault == ROWS_REFUSES) {
        return refuse(it);
    }
    if (fault == ROWS_LATER && it->server->late_count < ROWS_LATE) {
        static const database_row none;
        delay(it->server, &none, &none, &held);
        it->server->late[it->server->late_count - 1].holder = holder;
    }
    if (fault == ROWS_BEFORE || fault == ROWS_LATER) {
        return lose(it);
    }
    bool is_holder = it->server->table.row.holder == holder;
    if (is_holder && !put_piece(&it->server->table, &held)) {
        return refuse(it);
    }
    return answer(it, fault, is_holder);
}

static database_status find_parts(void *context, uint64_t number, uint32_t parts)
{
    rows_client *it = context;
    uint32_t count = 0;
    rows_fault fault = enter(it);
    if (fault != ROWS_NO_FAULT) {
        return fault == ROWS_REFUSES ? refuse(it) : lose(it);
    }
    for (size_t i = 0; i < it->work.count; i++) {
        count += it->work.pieces[i].number == number && it->work.pieces[i].is_rewrite;
    }
    return answer(it, fault, count == parts);
}

static database_status sweep(void *context, uint64_t base)
{
    rows_client *it = context;
    rows_fault fault = enter(it);
    if (fault != ROWS_NO_FAULT) {
        return fault == ROWS_REFUSES ? refuse(it) : lose(it);
    }
    sweep_table(&it->work, base);
    return DATABASE_DONE;
}

// What a save comes to, of which the answer isn't known yet.
static database_status save(rows_client *it, const database_row *from, const database_row *to,
    const database_piece *piece)
{
    rows_piece held = piece_of(piece);
    rows_fault fault = enter(it);
    if (fault == ROWS_REFUSES) {
        return refuse(it);
    }
    note_number(it, piece);
    if (fault == ROWS_LATER) {
        delay(it->server, from, to, &held);
    }
    if (fault == ROWS_BEFORE || fault == ROWS_LATER) {
        return lose(it);
    }
    bool is_done = move_row(&it->server->table, from, to);
    if (is_done && !put_piece(&it->server->table, &held)) {
        return refuse(it);
    }
    return answer(it, fault, is_done);
}

// (what is lost while it is sent isn't sent as a whole)
static bool ask(
    void *context, const database_row *from, const database_row *to, const database_piece *piece)
{
    rows_client *it = context;
    it->answer = save(it, from, to, piece);
    it->is_asked = true;
    it->is_heard = false;
    return it->answer != DATABASE_LOST || below_number(it->server->seed, 2) == 0;
}

static database_news hear(void *context)
{
    rows_client *it = context;
    if (below_number(it->server->seed, 1000) < it->silent) {
        return NEWS_NONE;
    }
    it->is_heard = it->is_asked && it->answer == DATABASE_DONE;
    return it->is_heard ? NEWS_DONE : NEWS_OTHER;
}

static int descriptor(void *context)
{
    (void)context;
    return -1;
}

// The answer may be lost, unless it was heard.
static database_status take_answer(void *context)
{
    rows_client *it = context;
    it->misused += !it->is_asked;
    it->is_asked = false;
    if (it->is_heard) {
        return DATABASE_DONE;
    }
    rows_fault fault = enter(it);
    bool is_lost = fault == ROWS_BEFORE || fault == ROWS_AFTER || fault == ROWS_LATER;
    return is_lost && it->is_connected ? lose(it) : it->answer;
}

static database_status clear(void *context, const database_row *row)
{
    rows_client *it = context;
    rows_fault fault = enter(it);
    if (fault == ROWS_REFUSES) {
        return refuse(it);
    }
    if (fault != ROWS_BEFORE) {
        clear_below(table_of(it), row);
    }
    return fault == ROWS_NO_FAULT ? DATABASE_DONE : lose(it);
}

static database_status read_pieces(void *context, uint64_t base, database_taker take, void *to)
{
    rows_client *it = context;
    rows_fault fault = enter(it);
    if (fault != ROWS_NO_FAULT) {
        return fault == ROWS_REFUSES ? refuse(it) : lose(it);
    }
    for (size_t i = 0; i < it->work.count; i++) {
        const rows_piece *at = &it->work.pieces[i];
        database_piece piece = {
            at->number, at->part, at->is_entry, at->is_rewrite, at->bytes, at->length};
        bool counts = at->number >= base && (!at->is_rewrite || at->number == base);
        if (counts && !take(to, &piece)) {
            end_transaction(it);
            it->is_connected = false;
            return DATABASE_MEMORY;
        }
    }
    return DATABASE_DONE;
}

static bool pause_client(void *context, uint64_t milliseconds)
{
    rows_client *it = context;
    (void)milliseconds;
    it->pauses++;
    if (it->pauses_most == 0 && it->pauses % 8 == 0) {
        // (after a while the server is well again)
        it->losing = it->refusing = 0;
    }
    return !it->dead && (it->pauses_most == 0 || it->pauses < it->pauses_most);
}

static void note(void *context, bool is_lost)
{
    rows_client *it = context;
    it->notes += is_lost;
}

database_calls rows_calls(rows_client *it)
{
    return (database_calls){it, connect_client, disconnect, begin, commit, lock, add, move, put, ask,
        hear, descriptor, take_answer, clear, put_apart, find_parts, sweep, NULL, read_pieces, pause_client, note};
}

void rows_kill(rows_client *it)
{
    end_transaction(it);
    it->is_connected = it->dead = it->is_asked = false;
    it->dies_in = 0;
}

void rows_free(rows *it)
{
    uint64_t *seed = it->seed;
    free_table(&it->table);
    for (int i = 0; i < it->late_count; i++) {
        free(it->late[i].piece.bytes);
    }
    memset(it, 0, sizeof *it);
    it->seed = seed;
}
