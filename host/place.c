// The places of markring_host.h.
#include "clock.h"
#include "host.h"
#include "keeper.h"

#include <stdatomic.h>
#include <stdio.h>
#include <stdlib.h>
#include <string.h>

enum { TEXT = 1280 };

struct markring_place {
    keeper keeper;
    char *where;
    bool is_open;
    char text[TEXT];
    markring_place_events events;
    // Milliseconds of a clock that goes on while the machine is suspended: when the last save or
    // renewal began, and the last one that succeeded; when a process before can't be sure any more.
    _Atomic uint64_t tried_at, sure_at, serves_at;
};

bool markring_place_is_database(const char *where)
{
    return names_database(where);
}

// ## While there is no connection

static bool on_pause(void *context, uint64_t milliseconds)
{
    const markring_place *it = context;
    if (it->events.pause != NULL) {
        return it->events.pause(it->events.context, milliseconds);
    }
    (void)sleep_ms(milliseconds);
    return true;
}

static void on_note(void *context, bool is_lost)
{
    const markring_place *it = context;
    if (it->events.note != NULL) {
        it->events.note(it->events.context, is_lost);
    }
}

void markring_place_listen(markring_place *it, const markring_place_events *events)
{
    static const markring_place_events none;
    it->events = events != NULL ? *events : none;
}

// ## Opening

static store_status fail(markring_place *it, store_status status)
{
    keeper_text(&it->keeper, status, it->text, sizeof it->text);
    return status;
}

static store_status name_place(markring_place **made, const char *where)
{
    markring_place *it = calloc(1, sizeof *it);
    *made = it;
    if (it == NULL) {
        return STORE_MEMORY;
    }
    it->where = strdup(where);
    if (it->where == NULL) {
        snprintf(it->text, sizeof it->text, "%s", store_text(STORE_MEMORY));
        return STORE_MEMORY;
    }
    return keeper_name(&it->keeper, it->where);
}

// The place is open, with a call that began then.
static void begin_hold(markring_place *it, uint64_t began)
{
    it->is_open = true;
    it->tried_at = it->sure_at = began;
    if (it->keeper.is_database) {
        it->serves_at = it->keeper.base.was_held ? boot_ms() + SURE_FOR : 0;
        postgres_listen(it->keeper.server, (postgres_events){on_pause, on_note, it});
    }
}

store_status markring_place_create(markring_place **made, const char *where, store_value *value)
{
    host_shape shape;
    uint64_t began = boot_ms();
    store_status status = name_place(made, where);
    if (*made == NULL || (*made)->where == NULL) {
        return status;
    }
    markring_place *it = *made;
    if (status == STORE_OK) {
        status = read_saved_shape(value, &shape) ? keeper_select(&it->keeper, shape.name, shape.own)
                                                 : STORE_OTHER;
    }
    status = status == STORE_OK ? keeper_create(&it->keeper, value, 0) : status;
    if (status != STORE_OK) {
        return fail(it, status);
    }
    begin_hold(it, began);
    return STORE_OK;
}

store_status markring_place_open(markring_place **made, const char *where, store_value *value)
{
    uint64_t began = boot_ms();
    store_status status = name_place(made, where);
    if (*made == NULL || (*made)->where == NULL) {
        return status;
    }
    markring_place *it = *made;
    status = status == STORE_OK ? keeper_select_named(&it->keeper) : status;
    status = status == STORE_OK ? keeper_open(&it->keeper, value) : status;
    if (status != STORE_OK) {
        return fail(it, status);
    }
    begin_hold(it, began);
    return STORE_OK;
}

store_status markring_place_make_schema(markring_place **made, const char *where)
{
    store_status status = name_place(made, where);
    if (*made == NULL || (*made)->where == NULL) {
        return status;
    }
    markring_place *it = *made;
    if (status == STORE_OK && !it->keeper.is_database) {
        it->keeper.is_database = true;
        status = STORE_ADDRESS;
    }
    if (status == STORE_OK && postgres_make_schema(it->keeper.server) != DATABASE_DONE) {
        status = server_status(it->keeper.server);
    }
    return status == STORE_OK ? STORE_OK : fail(it, status);
}

// ## While it is open

static store_status note_outcome(markring_place *it, store_status status, uint64_t began)
{
    it->tried_at = began;
    if (status != STORE_OK) {
        return fail(it, status);
    }
    it->sure_at = began;
    return STORE_OK;
}

store_status markring_place_save(markring_place *it, store_value *value)
{
    uint64_t began = boot_ms();
    return note_outcome(it, keeper_save(&it->keeper, value), began);
}

uint64_t markring_place_wait(const markring_place *it)
{
    if (!it->keeper.is_database) {
        return UINT64_MAX;
    }
    uint64_t due = it->tried_at + RENEW_EACH, now = boot_ms();
    return due > now ? due - now : 0;
}

store_status markring_place_renew(markring_place *it)
{
    uint64_t began = boot_ms();
    if (markring_place_wait(it) > 0) {
        return STORE_OK;
    }
    return note_outcome(it, keeper_renew(&it->keeper), began);
}

bool markring_place_serves(const markring_place *it)
{
    uint64_t now = boot_ms();
    return !it->keeper.is_database || (now - it->sure_at < SURE_FOR && now >= it->serves_at);
}

uint64_t markring_place_number(const markring_place *it)
{
    return keeper_number(&it->keeper);
}

const char *markring_place_warning(const markring_place *it)
{
    return it->keeper.server != NULL ? postgres_warning(it->keeper.server) : NULL;
}

const char *markring_place_text(const markring_place *it)
{
    return it != NULL ? it->text : store_text(STORE_MEMORY);
}

int markring_place_cause(const markring_place *it)
{
    return it == NULL || it->keeper.is_database ? 0 : it->keeper.folder.cause;
}

// A process that ends before it could serve leaves the node held, so that the next one waits too.
void markring_place_close(markring_place *it)
{
    if (it == NULL) {
        return;
    }
    if (it->is_open && (!it->keeper.is_database || boot_ms() >= it->serves_at)) {
        keeper_close(&it->keeper);
    } else {
        keeper_free(&it->keeper);
    }
    free(it->where);
    free(it);
}
