#include "postgres.h"

#include "bytes.h"
#include "clock.h"
#include "host.h"

#include <ctype.h>
#include <dlfcn.h>
#include <inttypes.h>
#include <poll.h>
#include <stdio.h>
#include <stdlib.h>
#include <time.h>

enum {
    WORDS = 9, // of a statement, at most
    TEXT = 1024,
    DIGITS = 24,
    // Milliseconds without a sign of the server, after which the connection counts as lost.
    SILENCE = 30000
};

// The kinds of pieces.
enum { WHOLE = 0, ENTRY = 1, REWRITE = 2 };

#define NODE "space = $1 and node = $2"

const char POSTGRES_SCHEMA[] =
    "begin;\n"
    "create schema markring;\n"
    "create table markring.format (version int4 not null);\n"
    "insert into markring.format values (1);\n"
    "create table markring.node (\n"
    "    space text not null, node int2 not null, holder int8 not null, session int8 not null,\n"
    "    number int8 not null, base int8 not null, beat int8 not null,\n"
    "    primary key (space, node)) with (fillfactor = 10);\n"
    "create table markring.piece (\n"
    "    space text not null, node int2 not null, number int8 not null, part int4 not null,\n"
    "    kind int2 not null, bytes bytea not null,\n"
    "    primary key (space, node, number, part));\n"
    "alter table markring.piece alter column bytes set storage external;\n"
    "commit;\n";

// ## libpq

// Of libpq-fe.h, of which this uses what no version has changed.
typedef struct pg_conn pg_conn;
typedef struct pg_result pg_result;
typedef struct pg_option {
    char *keyword, *envvar, *compiled, *val, *label, *dispchar;
    int dispsize;
} pg_option;

enum { CONNECTION_OK = 0, PING_OK = 0, PING_REFUSED = 1, PING_IMPOSSIBLE = 3 };
enum { COMMAND_OK = 1, TUPLES_OK = 2, SINGLE_TUPLE = 9, SQLSTATE = 'C' };

typedef struct libpq {
    pg_conn *(*connect)(const char *const *keys, const char *const *values, int expand);
    int (*ping)(const char *const *keys, const char *const *values, int expand);
    int (*status)(const pg_conn *of);
    char *(*error)(const pg_conn *of);
    void (*finish)(pg_conn *of);
    int (*socket)(const pg_conn *of);
    int (*set_nonblocking)(pg_conn *of, int on);
    void *(*set_notices)(pg_conn *of, void (*take)(void *context, const char *text), void *context);
    int (*send)(pg_conn *of, const char *text);
    int (*send_prepare)(
        pg_conn *of, const char *name, const char *text, int count, const unsigned *types);
    int (*send_prepared)(pg_conn *of, const char *name, int count, const char *const *values,
        const int *lengths, const int *formats, int result);
    int (*set_single_row)(pg_conn *of);
    int (*flush)(pg_conn *of);
    int (*consume)(pg_conn *of);
    int (*is_busy)(pg_conn *of);
    pg_result *(*get_result)(pg_conn *of);
    int (*result_status)(const pg_result *of);
    char *(*result_field)(const pg_result *of, int field);
    char *(*result_changed)(pg_result *of);
    int (*result_rows)(const pg_result *of);
    char *(*value)(const pg_result *of, int row, int column);
    int (*length)(const pg_result *of, int row, int column);
    void (*clear)(pg_result *of);
    pg_option *(*parse)(const char *text, char **error);
    void (*free_options)(pg_option *of);
    void (*free_memory)(void *of);
} libpq;

typedef struct libpq_name {
    const char *name;
    size_t at; // the offset of the function in a libpq
} libpq_name;

static const libpq_name NAMES[] = {
    {"PQconnectdbParams", offsetof(libpq, connect)},
    {"PQpingParams", offsetof(libpq, ping)},
    {"PQstatus", offsetof(libpq, status)},
    {"PQerrorMessage", offsetof(libpq, error)},
    {"PQfinish", offsetof(libpq, finish)},
    {"PQsocket", offsetof(libpq, socket)},
    {"PQsetnonblocking", offsetof(libpq, set_nonblocking)},
    {"PQsetNoticeProcessor", offsetof(libpq, set_notices)},
    {"PQsendQuery", offsetof(libpq, send)},
    {"PQsendPrepare", offsetof(libpq, send_prepare)},
    {"PQsendQueryPrepared", offsetof(libpq, send_prepared)},
    {"PQsetSingleRowMode", offsetof(libpq, set_single_row)},
    {"PQflush", offsetof(libpq, flush)},
    {"PQconsumeInput", offsetof(libpq, consume)},
    {"PQisBusy", offsetof(libpq, is_busy)},
    {"PQgetResult", offsetof(libpq, get_result)},
    {"PQresultStatus", offsetof(libpq, result_status)},
    {"PQresultErrorField", offsetof(libpq, result_field)},
    {"PQcmdTuples", offsetof(libpq, result_changed)},
    {"PQntuples", offsetof(libpq, result_rows)},
    {"PQgetvalue", offsetof(libpq, value)},
    {"PQgetlength", offsetof(libpq, length)},
    {"PQclear", offsetof(libpq, clear)},
    {"PQconninfoParse", offsetof(libpq, parse)},
    {"PQconninfoFree", offsetof(libpq, free_options)},
    {"PQfreemem", offsetof(libpq, free_memory)},
};

static bool load_libpq(libpq *it)
{
    void *library = dlopen("libpq.so.5", RTLD_NOW | RTLD_LOCAL);
    if (library == NULL) {
        return false;
    }
    for (size_t i = 0; i < sizeof NAMES / sizeof *NAMES; i++) {
        void *found = dlsym(library, NAMES[i].name);
        if (found == NULL) {
            dlclose(library);
            return false;
        }
        memcpy((char *)it + NAMES[i].at, &found, sizeof found);
    }
    return true;
}

// ## A server

// Takes what is in a result. Returns whether there was memory.
typedef bool (*result_taker)(postgres *it, pg_result *result, void *to);

// What has come of the results of what was sent.
typedef struct results {
    result_taker take; // of each that is no failure; or NULL
    void *to;
    database_status status;
    bool is_over; // no other one comes
} results;

struct postgres {
    libpq pq;
    char *server;
    pg_conn *connection;
    bool in_transaction, looks;
    results asked;    // those of a save
    uint64_t changed; // the rows that it changed
    char space[ADDRESS_NAME + 1], node[DIGITS];
    postgres_reason reason;
    char text[TEXT];
    const char *warning;
    postgres_events events;
};

typedef enum statement {
    PEEK, LOCK, ADD, MOVE, PUT, PUT_APART, FIND, SWEEP, SAVE, CLEAR, READ, LIST, STATEMENTS
} statement;

#define ROW "select holder, session, number, base, beat from markring.node where " NODE
#define PIECE "markring.piece (space, node, number, part, kind, bytes)"
#define MOVED " and holder = $3 and session = $4 and number = $5"

static const char *const SQL[STATEMENTS] = {
    [PEEK] = ROW,
    [LOCK] = ROW " for update",
    [ADD] = "insert into markring.node (space, node, holder, session, number, base, beat) "
            "values ($1, $2, $3, $4, $5, $6, 0) on conflict do nothing",
    [MOVE] = "update markring.node set holder = $6, session = $7, number = $8, base = $9, "
             "beat = beat + 1 where " NODE MOVED,
    [PUT] = "insert into " PIECE " values ($1, $2, $3, $4, $5, $6)",
    // (a save changes the row meanwhile, but nobody takes it over: for that it is locked for update)
    [PUT_APART] = "insert into " PIECE " select $1, $2, $3, $4, $5::int2, $6::bytea from markring.node "
                  "where " NODE " and holder = $7 for key share",
    [FIND] = "select count(*) = $4::int8 from markring.piece where " NODE " and number = $3 and kind = 2",
    [SWEEP] = "delete from markring.piece where " NODE " and kind = 2 and number <> $3",
    // (one statement, so that a save takes one message and its answer)
    [SAVE] = "with moved as (update markring.node set number = $6, base = $7, beat = beat + 1 "
             "where " NODE MOVED " returning 1) "
             "insert into " PIECE " select $1, $2, $6, 0, $8::int2, $9::bytea from moved",
    [CLEAR] = "delete from markring.piece where " NODE " and number < $3 and exists "
              "(select from markring.node where " NODE " and holder = $4 and session = $5)",
    [READ] = "select number, part, kind, bytes from markring.piece where " NODE
             " and number >= $3 and (kind <> 2 or number = $3) order by number, part",
    [LIST] = "select space, node from markring.node where $1 in ('', space) order by space, node",
};

static const char *const NAME[STATEMENTS] = {[PEEK] = "markring_peek", [LOCK] = "markring_lock",
    [ADD] = "markring_add", [MOVE] = "markring_move", [PUT] = "markring_put",
    [PUT_APART] = "markring_put_apart", [FIND] = "markring_find", [SWEEP] = "markring_sweep",
    [SAVE] = "markring_save", [CLEAR] = "markring_clear", [READ] = "markring_read",
    [LIST] = "markring_list"};

// Values for a statement, in order.
typedef struct words {
    const char *values[WORDS];
    int lengths[WORDS], formats[WORDS];
    char numbers[WORDS][DIGITS];
    int count;
} words;

static void add_text(words *to, const char *text)
{
    to->values[to->count++] = text;
}

static void add_number(words *to, uint64_t number)
{
    snprintf(to->numbers[to->count], DIGITS, "%" PRId64, (int64_t)number);
    add_text(to, to->numbers[to->count]);
}

static void add_bytes(words *to, const uint8_t *bytes, size_t length)
{
    to->lengths[to->count] = (int)length;
    to->formats[to->count] = 1;
    add_text(to, (const char *)bytes);
}

// Each statement begins with the node.
static void begin_words(words *to, const postgres *it)
{
    memset(to, 0, sizeof *to);
    add_text(to, it->space);
    add_text(to, it->node);
}

static void note_text(postgres *it, postgres_reason reason, const char *text)
{
    it->reason = reason;
    snprintf(it->text, sizeof it->text, "%s", text != NULL ? text : "");
    for (size_t length = strlen(it->text);
         length > 0 && isspace((unsigned char)it->text[length - 1]);) {
        it->text[--length] = 0;
    }
}

static void disconnect(void *context)
{
    postgres *it = context;
    if (it->connection != NULL) {
        it->pq.finish(it->connection);
    }
    it->connection = NULL;
    it->in_transaction = it->looks = false;
}

static void note_loss(postgres *it)
{
    const char *text = it->connection != NULL ? it->pq.error(it->connection) : "";
    note_text(it, POSTGRES_AWAY, *text != 0 ? text : "the server gives no answer");
}

static database_status lose(postgres *it)
{
    note_loss(it);
    disconnect(it);
    return DATABASE_LOST;
}

// ## Statements

// Waits for the next result of what was sent. NULL if there is no other one, or no connection any
// more: then `*lost` is true.
static pg_result *next_result(postgres *it, bool *lost)
{
    int left = it->pq.flush(it->connection);
    while (left > 0 || (left == 0 && it->pq.is_busy(it->connection))) {
        struct pollfd wait = {.fd = it->pq.socket(it->connection),
            .events = (short)(POLLIN | (left > 0 ? POLLOUT : 0))};
        int came = poll(&wait, 1, SILENCE);
        if (came == 0 || !it->pq.consume(it->connection)) {
            left = -1;
        } else if (left > 0) {
            left = it->pq.flush(it->connection);
        }
    }
    *lost = left < 0;
    return *lost ? NULL : it->pq.get_result(it->connection);
}

typedef struct known_state {
    const char *state; // or what it begins with
    postgres_reason reason;
} known_state;

static postgres_reason reason_of(const char *state)
{
    static const known_state known[] = {{"53100", POSTGRES_FULL}, {"55P03", POSTGRES_LOCKED},
        {"25006", POSTGRES_READS}, {"42501", POSTGRES_DENIED}, {"28", POSTGRES_DENIED},
        {"3D000", POSTGRES_DENIED}, {"3F000", POSTGRES_NO_SCHEMA}, {"42P01", POSTGRES_NO_SCHEMA},
        {"42703", POSTGRES_OLDER}, {"08", POSTGRES_AWAY}, {"57P", POSTGRES_AWAY}};
    for (size_t i = 0; i < sizeof known / sizeof *known; i++) {
        if (strncmp(state, known[i].state, strlen(known[i].state)) == 0) {
            return known[i].reason;
        }
    }
    return POSTGRES_OTHER;
}

// What a result says. What the server says while it closes the connection doesn't say whether a
// commit counts.
static database_status judge(postgres *it, const pg_result *result)
{
    int status = it->pq.result_status(result);
    if (status == COMMAND_OK || status == TUPLES_OK || status == SINGLE_TUPLE) {
        return DATABASE_DONE;
    }
    const char *state = it->pq.result_field(result, SQLSTATE);
    postgres_reason reason = state != NULL ? reason_of(state) : POSTGRES_AWAY;
    note_text(it, reason, it->pq.error(it->connection));
    return reason == POSTGRES_AWAY || it->pq.status(it->connection) != CONNECTION_OK
        ? DATABASE_LOST
        : DATABASE_REFUSED;
}

// The connection is lost, perhaps before all was sent.
static void break_off(postgres *it, results *of)
{
    note_loss(it);
    of->status = DATABASE_LOST;
    of->is_over = true;
}

// Takes a result; NULL behind the last one.
static void take_result(postgres *it, pg_result *result, results *of)
{
    if (result == NULL) {
        of->is_over = true;
        return;
    }
    database_status each = judge(it, result);
    if (each == DATABASE_DONE && of->take != NULL && !of->take(it, result, of->to)) {
        each = DATABASE_MEMORY;
    }
    it->pq.clear(result);
    of->status = of->status == DATABASE_DONE ? each : of->status;
    // (without memory, what else comes goes with the connection)
    of->is_over = of->status == DATABASE_MEMORY;
}

// Waits for all results of what was sent.
static database_status await_results(postgres *it, results *of)
{
    while (!of->is_over) {
        bool lost = false;
        pg_result *result = next_result(it, &lost);
        if (lost) {
            break_off(it, of);
        } else {
            take_result(it, result, of);
        }
    }
    if (of->status == DATABASE_LOST || of->status == DATABASE_MEMORY) {
        disconnect(it);
    }
    return of->status;
}

static database_status take_results(postgres *it, result_taker take, void *to)
{
    results all = {take, to, DATABASE_DONE, false};
    return await_results(it, &all);
}

// Sends a text of statements without words, and takes its results.
static database_status ask(postgres *it, const char *text, result_taker take, void *to)
{
    if (it->connection == NULL || !it->pq.send(it->connection, text)) {
        return lose(it);
    }
    return take_results(it, take, to);
}

// After a failure, a transaction that is under way is over.
static database_status end_if_failed(postgres *it, database_status status)
{
    if (status != DATABASE_DONE && it->in_transaction && it->connection != NULL) {
        postgres_reason reason = it->reason;
        char text[TEXT];
        memcpy(text, it->text, sizeof text);
        it->in_transaction = false;
        (void)ask(it, "rollback", NULL, NULL);
        note_text(it, reason, text);
    }
    return status;
}

// Sends a statement. Returns whether there is a connection.
static bool send_statement(postgres *it, statement which, const words *with)
{
    int form = which == READ;
    return it->connection != NULL
        && it->pq.send_prepared(it->connection, NAME[which], with->count, with->values,
            with->lengths, with->formats, form);
}

static database_status run(
    postgres *it, statement which, const words *with, result_taker take, void *to)
{
    if (!send_statement(it, which, with)) {
        return lose(it);
    }
    if (which == READ) {
        (void)it->pq.set_single_row(it->connection);
    }
    return take_results(it, take, to);
}

static bool take_changed(postgres *it, pg_result *result, void *to)
{
    *(uint64_t *)to = strtoull(it->pq.result_changed(result), NULL, 10);
    return true;
}

// Runs a statement that has to change one row.
static database_status change(postgres *it, statement which, const words *with)
{
    uint64_t changed = 0;
    database_status status = run(it, which, with, take_changed, &changed);
    status = status == DATABASE_DONE && changed != 1 ? DATABASE_NONE : status;
    return end_if_failed(it, status);
}

// ## The calls

static database_status begin(void *context)
{
    postgres *it = context;
    database_status status = ask(it, "begin", NULL, NULL);
    it->in_transaction = status == DATABASE_DONE;
    return status;
}

static database_status commit(void *context)
{
    postgres *it = context;
    it->in_transaction = false;
    return ask(it, "commit", NULL, NULL);
}

// A row, or none.
typedef struct found_row {
    bool is_there;
    database_row row;
} found_row;

static uint64_t number_in(postgres *it, pg_result *result, int column)
{
    return (uint64_t)strtoll(it->pq.value(result, 0, column), NULL, 10);
}

static bool take_row(postgres *it, pg_result *result, void *to)
{
    found_row *found = to;
    found->is_there = it->pq.result_rows(result) == 1;
    if (found->is_there) {
        found->row = (database_row){number_in(it, result, 0), number_in(it, result, 1),
            number_in(it, result, 2), number_in(it, result, 3), number_in(it, result, 4)};
    }
    return true;
}

static database_status read_row(postgres *it, statement how, database_row *row)
{
    found_row found = {.is_there = false};
    words with;
    begin_words(&with, it);
    database_status status = run(it, how, &with, take_row, &found);
    *row = found.row;
    status = status == DATABASE_DONE && !found.is_there ? DATABASE_NONE : status;
    return it->looks ? status : end_if_failed(it, status);
}

database_status postgres_peek(postgres *it, database_row *row)
{
    return read_row(it, PEEK, row);
}

static database_status lock(void *context, database_row *row)
{
    postgres *it = context;
    return read_row(it, it->looks ? PEEK : LOCK, row);
}

static database_status add(void *context, const database_row *row)
{
    postgres *it = context;
    words with;
    begin_words(&with, it);
    add_number(&with, row->holder);
    add_number(&with, row->session);
    add_number(&with, row->number);
    add_number(&with, row->base);
    return change(it, ADD, &with);
}

static void begin_move(words *to, const postgres *it, const database_row *from)
{
    begin_words(to, it);
    add_number(to, from->holder);
    add_number(to, from->session);
    add_number(to, from->number);
}

static database_status move(void *context, const database_row *from, const database_row *to)
{
    postgres *it = context;
    words with;
    begin_move(&with, it, from);
    add_number(&with, to->holder);
    add_number(&with, to->session);
    add_number(&with, to->number);
    add_number(&with, to->base);
    return change(it, MOVE, &with);
}

static bool ask_for_save(
    void *context, const database_row *from, const database_row *to, const database_piece *piece)
{
    postgres *it = context;
    words with;
    it->changed = 0;
    it->asked = (results){take_changed, &it->changed, DATABASE_DONE, false};
    begin_move(&with, it, from);
    add_number(&with, to->number);
    add_number(&with, to->base);
    add_number(&with, piece->is_entry ? ENTRY : WHOLE);
    add_bytes(&with, piece->bytes, piece->length);
    if (!send_statement(it, SAVE, &with)) {
        break_off(it, &it->asked);
        return false;
    }
    return it->pq.flush(it->connection) == 0;
}

static database_news hear(void *context)
{
    postgres *it = context;
    results *of = &it->asked;
    if (!of->is_over && !it->pq.consume(it->connection)) {
        break_off(it, of);
    }
    while (!of->is_over && !it->pq.is_busy(it->connection)) {
        take_result(it, it->pq.get_result(it->connection), of);
    }
    bool is_done = of->status == DATABASE_DONE && it->changed == 1;
    return !of->is_over ? NEWS_NONE : is_done ? NEWS_DONE : NEWS_OTHER;
}

static int descriptor(void *context)
{
    const postgres *it = context;
    return it->connection != NULL ? it->pq.socket(it->connection) : -1;
}

static database_status take_answer(void *context)
{
    postgres *it = context;
    database_status status = await_results(it, &it->asked);
    return status == DATABASE_DONE && it->changed != 1 ? DATABASE_NONE : status;
}

static void begin_piece(words *to, const postgres *it, const database_piece *piece)
{
    begin_words(to, it);
    add_number(to, piece->number);
    add_number(to, piece->part);
    add_number(to, piece->is_entry ? ENTRY : piece->is_rewrite ? REWRITE : WHOLE);
    add_bytes(to, piece->bytes, piece->length);
}

static database_status put(void *context, const database_piece *piece)
{
    postgres *it = context;
    words with;
    begin_piece(&with, it, piece);
    return change(it, PUT, &with);
}

static database_status put_apart(void *context, uint64_t holder, const database_piece *piece)
{
    postgres *it = context;
    words with;
    begin_piece(&with, it, piece);
    add_number(&with, holder);
    return change(it, PUT_APART, &with);
}

static bool take_truth(postgres *it, pg_result *result, void *to)
{
    *(bool *)to = it->pq.result_rows(result) == 1 && strcmp(it->pq.value(result, 0, 0), "t") == 0;
    return true;
}

static database_status find_parts(void *context, uint64_t number, uint32_t parts)
{
    postgres *it = context;
    bool are_there = false;
    words with;
    begin_words(&with, it);
    add_number(&with, number);
    add_number(&with, parts);
    database_status status = run(it, FIND, &with, take_truth, &are_there);
    return end_if_failed(it, status == DATABASE_DONE && !are_there ? DATABASE_NONE : status);
}

static database_status sweep(void *context, uint64_t base)
{
    postgres *it = context;
    words with;
    begin_words(&with, it);
    add_number(&with, base);
    return end_if_failed(it, run(it, SWEEP, &with, NULL, NULL));
}

static database_status clear(void *context, const database_row *row)
{
    postgres *it = context;
    words with;
    begin_words(&with, it);
    add_number(&with, row->base);
    add_number(&with, row->holder);
    add_number(&with, row->session);
    return run(it, CLEAR, &with, NULL, NULL);
}

typedef struct piece_reader {
    database_taker take;
    void *to;
} piece_reader;

static uint64_t binary_in(postgres *it, pg_result *result, int column)
{
    reader from = reader_of((const uint8_t *)it->pq.value(result, 0, column),
        (size_t)it->pq.length(result, 0, column));
    return read_number(&from, from.left);
}

static bool take_piece(postgres *it, pg_result *result, void *to)
{
    piece_reader *read = to;
    if (it->pq.result_rows(result) != 1) {
        return true;
    }
    uint64_t kind = binary_in(it, result, 2);
    database_piece piece = {binary_in(it, result, 0), (uint32_t)binary_in(it, result, 1),
        kind == ENTRY, kind == REWRITE, (const uint8_t *)it->pq.value(result, 0, 3),
        (size_t)it->pq.length(result, 0, 3)};
    return read->take(read->to, &piece);
}

static database_status read_pieces(void *context, uint64_t base, database_taker take, void *to)
{
    postgres *it = context;
    piece_reader each = {take, to};
    words with;
    begin_words(&with, it);
    add_number(&with, base);
    return end_if_failed(it, run(it, READ, &with, take_piece, &each));
}

static bool pause_for(void *context, uint64_t milliseconds)
{
    postgres *it = context;
    if (it->events.pause != NULL) {
        return it->events.pause(it->events.context, milliseconds);
    }
    return sleep_ms(milliseconds);
}

static void note(void *context, bool is_lost)
{
    postgres *it = context;
    if (it->events.note != NULL) {
        it->events.note(it->events.context, is_lost);
    }
}

// ## Connecting

static void ignore(void *context, const char *text)
{
    (void)context;
    (void)text;
}

// What the server says of itself.
typedef struct greeting {
    bool is_there, only_reads, has_standbys, has_schema;
    char commits[16], syncs[8];
    long version;
} greeting;

static bool is_true(postgres *it, pg_result *result, int column)
{
    return strcmp(it->pq.value(result, 0, column), "t") == 0;
}

static bool take_greeting(postgres *it, pg_result *result, void *to)
{
    greeting *found = to;
    if (it->pq.result_rows(result) == 1) {
        found->is_there = true;
        found->only_reads = is_true(it, result, 0);
        snprintf(found->commits, sizeof found->commits, "%s", it->pq.value(result, 0, 1));
        snprintf(found->syncs, sizeof found->syncs, "%s", it->pq.value(result, 0, 2));
        found->has_standbys = is_true(it, result, 3);
        found->has_schema = is_true(it, result, 4);
    }
    return true;
}

static bool take_version(postgres *it, pg_result *result, void *to)
{
    if (it->pq.result_rows(result) == 1) {
        *(long *)to = strtol(it->pq.value(result, 0, 0), NULL, 10);
    }
    return true;
}

// The settings of a session don't change with those of the server. A session that is left in a
// transaction ends soon, so it doesn't keep the row locked.
static const char SETTINGS[] =
    "select set_config('synchronous_commit', current_setting('synchronous_commit'), false), "
    "set_config('default_transaction_isolation', 'read committed', false), "
    "set_config('lock_timeout', '20s', false), set_config('statement_timeout', '0', false), "
    "set_config('idle_in_transaction_session_timeout', '30s', false), "
    "set_config('tcp_keepalives_idle', '5', false), "
    "set_config('tcp_keepalives_interval', '2', false), "
    "set_config('tcp_keepalives_count', '3', false), "
    "set_config('search_path', 'pg_catalog', false)";

static const char GREETING[] =
    "select pg_is_in_recovery() or current_setting('transaction_read_only') = 'on', "
    "current_setting('synchronous_commit'), current_setting('fsync'), "
    "current_setting('synchronous_standby_names') <> '' or exists "
    "(select from pg_stat_replication), to_regclass('markring.format') is not null";

static database_status refuse(postgres *it, postgres_reason reason, const char *text)
{
    disconnect(it);
    note_text(it, reason, text);
    return DATABASE_REFUSED;
}

// Refuses a server that can't keep a node safely.
static database_status test_server(postgres *it, greeting *found)
{
    if (found->only_reads) {
        return refuse(it, POSTGRES_READS,
            "this server takes no changes: it is a standby, or read-only. Name the primary one, or "
            "all servers and target_session_attrs=read-write");
    }
    if (strcmp(found->commits, "off") == 0) {
        return refuse(it, POSTGRES_ASYNCHRONOUS,
            "synchronous_commit is off, so the server forgets saves that it has promised. Set it "
            "to "
            "on for this user or this database: alter role .. set synchronous_commit = on");
    }
    it->warning = strcmp(found->syncs, "off") == 0
        ? "fsync is off on the server: if its machine fails, saves are lost that others depend on"
        : strcmp(found->commits, "local") == 0 && found->has_standbys
        ? "synchronous_commit is local: if the server is lost and a standby takes its place, saves "
          "are lost that others depend on. Set it to on, and name synchronous standbys"
        : NULL;
    return DATABASE_DONE;
}

static database_status test_schema(postgres *it, greeting *found)
{
    if (!found->has_schema) {
        return refuse(it, POSTGRES_NO_SCHEMA,
            "there is no schema markring in this database: `markring-node schema ADDRESS` makes "
            "it, "
            "or apply what `markring-node schema` prints");
    }
    database_status status =
        ask(it, "select version from markring.format", take_version, &found->version);
    if (status == DATABASE_DONE && found->version != SCHEMA_VERSION) {
        bool is_older = found->version < SCHEMA_VERSION;
        return refuse(it, is_older ? POSTGRES_OLDER : POSTGRES_NEWER,
            is_older
                ? "the schema markring is of an earlier version, which this program can't "
                  "use: copy the nodes into folders with the earlier program, and from there "
                  "into a database with this one's schema"
                : "the schema markring is of a later version: use the program that it was made "
                  "for, or a later one");
    }
    return status;
}

static database_status prepare_all(postgres *it)
{
    database_status status = DATABASE_DONE;
    for (int i = 0; i < STATEMENTS && status == DATABASE_DONE; i++) {
        status = it->pq.send_prepare(it->connection, NAME[i], SQL[i], 0, NULL)
            ? take_results(it, NULL, NULL)
            : lose(it);
    }
    return status;
}

// Whether the text says that the server has no room, or that the connection was lost while it was
// made. (What libpq says itself is English, since no program here sets a locale.)
static bool may_be_taken_later(const char *text)
{
    static const char *const said[] = {"too many", "remaining connection",
        "server closed the connection", "could not receive data", "could not send data",
        "timeout expired", "SSL SYSCALL error", "SSL connection has been closed"};
    for (size_t i = 0; i < sizeof said / sizeof *said; i++) {
        if (strstr(text, said[i]) != NULL) {
            return true;
        }
    }
    return false;
}

// Whether the server refused this user, or is away for now.
static postgres_reason reason_of_refusal(
    postgres *it, const char *const *keys, const char *const *values, const char *text)
{
    int found = it->pq.ping(keys, values, 1);
    return found == PING_IMPOSSIBLE                     ? POSTGRES_ADDRESS
        : found == PING_OK && !may_be_taken_later(text) ? POSTGRES_DENIED
                                                        : POSTGRES_AWAY;
}

// Connects, without a look at the server.
static database_status make_connection(postgres *it)
{
    // What the address says takes the place of what comes before it.
    static const char *const keys[] = {"connect_timeout", "keepalives_idle", "keepalives_interval",
        "keepalives_count", "tcp_user_timeout", "fallback_application_name", "dbname", NULL};
    const char *values[] = {"10", "5", "2", "3", "10000", "markring-node", it->server, NULL};
    disconnect(it);
    it->connection = it->pq.connect(keys, values, 1);
    if (it->connection == NULL) {
        note_text(it, POSTGRES_MEMORY, "out of memory");
        return DATABASE_MEMORY;
    }
    if (it->pq.status(it->connection) != CONNECTION_OK) {
        note_text(it, POSTGRES_AWAY, it->pq.error(it->connection));
        it->reason = reason_of_refusal(it, keys, values, it->text);
        disconnect(it);
        return DATABASE_LOST;
    }
    (void)it->pq.set_notices(it->connection, ignore, NULL);
    return it->pq.set_nonblocking(it->connection, 1) == 0 ? DATABASE_DONE : lose(it);
}

static database_status greet(postgres *it, greeting *found)
{
    database_status status = make_connection(it);
    if (status == DATABASE_DONE) {
        status = ask(it, GREETING, take_greeting, found);
    }
    if (status == DATABASE_DONE && !found->is_there) {
        status = lose(it);
    }
    return status == DATABASE_DONE ? test_server(it, found) : status;
}

static database_status connect_server(void *context)
{
    postgres *it = context;
    greeting found = {.version = 0};
    database_status status = greet(it, &found);
    if (status == DATABASE_DONE) {
        status = test_schema(it, &found);
    }
    if (status == DATABASE_DONE) {
        status = ask(it, SETTINGS, NULL, NULL);
    }
    return status == DATABASE_DONE ? prepare_all(it) : status;
}

database_status postgres_make_schema(postgres *it)
{
    greeting found = {.version = 0};
    database_status status = greet(it, &found);
    if (status == DATABASE_DONE && found.has_schema) {
        return test_schema(it, &found);
    }
    return status == DATABASE_DONE ? ask(it, POSTGRES_SCHEMA, NULL, NULL) : status;
}

// (what can't be read at all is refused by the host)
static bool is_own(void *context, const store_value *value)
{
    const postgres *it = context;
    host_shape shape;
    return !read_saved_shape(value, &shape)
        || (strcmp(shape.name, it->space) == 0 && shape.own == strtoul(it->node, NULL, 10));
}

database_calls postgres_calls(postgres *it)
{
    return (database_calls){it, connect_server, disconnect, begin, commit, lock, add, move, put,
        ask_for_save, hear, descriptor, take_answer, clear, put_apart, find_parts, sweep, is_own,
        read_pieces, pause_for, note};
}

// ## Looking

database_status postgres_begin_look(postgres *it)
{
    database_status status =
        ask(it, "begin transaction isolation level repeatable read read only", NULL, NULL);
    it->looks = status == DATABASE_DONE;
    return status;
}

typedef struct node_list {
    postgres_taker take;
    void *to;
} node_list;

static bool take_nodes(postgres *it, pg_result *result, void *to)
{
    node_list *list = to;
    for (int row = 0; row < it->pq.result_rows(result); row++) {
        list->take(list->to, it->pq.value(result, row, 0),
            (uint8_t)strtoul(it->pq.value(result, row, 1), NULL, 10));
    }
    return true;
}

database_status postgres_list(postgres *it, const char *space, postgres_taker take, void *to)
{
    node_list list = {take, to};
    words with = {.count = 0};
    add_text(&with, space != NULL ? space : "");
    return run(it, LIST, &with, take_nodes, &list);
}

// ## Addresses

bool names_database(const char *word)
{
    return strncmp(word, "postgresql://", 13) == 0 || strncmp(word, "postgres://", 11) == 0;
}

static bool read_name(const char *from, size_t length, char *to)
{
    for (size_t i = 0; i < length; i++) {
        if (!isalnum((unsigned char)from[i]) && from[i] != '-' && from[i] != '_') {
            return false;
        }
    }
    if (length == 0 || length > ADDRESS_NAME) {
        return false;
    }
    memcpy(to, from, length);
    to[length] = 0;
    return true;
}

bool read_address(const char *word, database_address *to)
{
    memset(to, 0, sizeof *to);
    const char *mark = strrchr(word, '#');
    size_t length = mark != NULL ? (size_t)(mark - word) : strlen(word);
    if (mark != NULL) {
        size_t name = strcspn(mark + 1, "/");
        const char *number = mark + 1 + name;
        to->has_space = true;
        to->has_node = *number == '/';
        if (!read_name(mark + 1, name, to->space)) {
            return false;
        }
        char *end = NULL;
        unsigned long node = to->has_node && isdigit((unsigned char)number[1])
            ? strtoul(number + 1, &end, 10)
            : 64;
        if (to->has_node && (node > 63 || *end != 0)) {
            return false;
        }
        to->node = (uint8_t)node;
    }
    to->server = strndup(word, length);
    return to->server != NULL;
}

// An address could have a password, so only what is behind its `#` is shown.
const char *shown_place(const char *word)
{
    static char shown[ADDRESS_NAME + 32];
    if (!names_database(word)) {
        return word;
    }
    const char *mark = strrchr(word, '#');
    snprintf(
        shown, sizeof shown, "postgresql://..%.*s", ADDRESS_NAME + 4, mark != NULL ? mark : "");
    return shown;
}

// Refuses a password, which all users of the machine could see in the list of processes.
static bool test_options(postgres *it)
{
    char *error = NULL;
    pg_option *options = it->pq.parse(it->server, &error);
    if (options == NULL) {
        // (its text could show a part of a password)
        note_text(it, POSTGRES_ADDRESS, "libpq can't read the address: it has to be "
            "postgresql://USER@HOST:PORT/DATABASE#SPACE/NODE");
        it->pq.free_memory(error);
        return false;
    }
    bool has_password = false;
    for (const pg_option *each = options; each->keyword != NULL; each++) {
        has_password = has_password
            || (each->val != NULL && strstr(each->keyword, "password") != NULL);
    }
    it->pq.free_options(options);
    if (has_password) {
        note_text(it, POSTGRES_PASSWORD,
            "there is a password in the address, which all users of this machine can see. Change "
            "it, and write it to a file that PGPASSFILE names, or to a service that PGSERVICE "
            "names");
    }
    return !has_password;
}

bool postgres_open(postgres **made, const char *server)
{
    postgres *it = calloc(1, sizeof *it);
    *made = it;
    if (it == NULL) {
        return false;
    }
    if (!load_libpq(&it->pq)) {
        note_text(it, POSTGRES_LIBRARY,
            "nodes in a database need PostgreSQL's client library libpq.so.5, which can't be "
            "loaded: "
            "install the package libpq5");
        return false;
    }
    it->server = strdup(server);
    if (it->server == NULL) {
        note_text(it, POSTGRES_MEMORY, "out of memory");
        return false;
    }
    return test_options(it);
}

bool postgres_again(const postgres *it, postgres **made)
{
    postgres *again = calloc(1, sizeof *again);
    *made = again;
    if (again == NULL) {
        return false;
    }
    again->pq = it->pq;
    again->server = strdup(it->server);
    memcpy(again->space, it->space, sizeof again->space);
    memcpy(again->node, it->node, sizeof again->node);
    return again->server != NULL;
}

void postgres_select(postgres *it, const char *space, uint8_t node)
{
    snprintf(it->space, sizeof it->space, "%s", space);
    snprintf(it->node, sizeof it->node, "%d", node);
}

void postgres_listen(postgres *it, postgres_events events)
{
    it->events = events;
}

postgres_reason postgres_why(const postgres *it)
{
    return it != NULL ? it->reason : POSTGRES_MEMORY;
}

const char *postgres_text(const postgres *it)
{
    return it != NULL ? it->text : "out of memory";
}

const char *postgres_warning(const postgres *it)
{
    return it->warning;
}

void postgres_free(postgres *it)
{
    if (it != NULL) {
        disconnect(it);
        free(it->server);
        free(it);
    }
}
