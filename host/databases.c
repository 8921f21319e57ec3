#include "databases.h"

#include "clock.h"
#include "explaining.h"
#include "inside.h"

#include <stdio.h>
#include <stdlib.h>
#include <sys/random.h>

// Milliseconds in which a process that runs a node has renewed its hold.
enum { WATCHED = 3500 };

static const store_value NO_VALUE = {NULL, 0, 0, false, 0, 0};

void print_shape(const host_shape *shape, uint64_t save)
{
    printf("space %s ", shape->name);
    for (int i = 0; i < SPACE_ID; i++) {
        printf("%02x", shape->space[i]);
    }
    printf(", node %d of %d, %d registers, %lu slots", shape->own, shape->nodes, shape->registers,
        (unsigned long)shape->slots);
    if (shape->wide) {
        printf(", %d places, %lu bytes", shape->places, (unsigned long)shape->bytes);
    }
    printf(", save %llu\n", (unsigned long long)save);
}

// ## The schema

int make_schema(const char *place)
{
    keeper at;
    if (!names_database(place)) {
        return complain(
            LEAVE_USAGE, "the schema is for a database: postgresql://USER@HOST/DATABASE");
    }
    store_status made = keeper_name(&at, place);
    if (made == STORE_OK && postgres_make_schema(at.server) != DATABASE_DONE) {
        made = STORE_FAILED;
    }
    int status = made == STORE_OK ? 0 : keeper_explain(&at, made);
    if (made == STORE_OK) {
        printf("the schema markring of version %d is there\n", SCHEMA_VERSION);
    }
    keeper_free(&at);
    return status;
}

// ## Looking

// Opens a node of a value that was read, only to look at it.
static int open_value(host **it, store_value *value, uint64_t number)
{
    host_options options = {0};
    host_calls calls = {NULL, NULL, NULL, NULL, NULL};
    uint64_t nonce = 0;
    bool is_there = getrandom(&nonce, sizeof nonce, 0) == (ssize_t)sizeof nonce;
    int refused =
        is_there ? host_open(it, value, number, nonce | 1, &options, &calls, 0) : MARKRING_MEMORY;
    free(value->buffer);
    return refused == MARKRING_OK
        ? 0
        : complain(refused == MARKRING_MEMORY ? LEAVE_SYSTEM : LEAVE_FOLDER,
            markring_status_text(refused));
}

// Begins to look at a database, in one transaction.
static int begin_look(postgres *server)
{
    database_calls calls = postgres_calls(server);
    database_status status = calls.connect(calls.context);
    status = status == DATABASE_DONE ? postgres_begin_look(server) : status;
    return status == DATABASE_DONE ? 0 : explain_server(server);
}

// Reads the selected node.
static int look_at_node(keeper *at, host **it, uint64_t *number)
{
    store_value value = NO_VALUE;
    database_row row;
    database_calls calls = postgres_calls(at->server);
    store_status status = database_look(&calls, &value, &row);
    *number = row.number;
    return status == STORE_OK ? open_value(it, &value, row.number) : keeper_explain(at, status);
}

int show_node(const char *place)
{
    keeper at;
    host *it = NULL;
    uint64_t number;
    int status = keeper_begin(&at, place);
    if (status != 0) {
        return status;
    }
    status = begin_look(at.server);
    status = status == 0 ? look_at_node(&at, &it, &number) : status;
    if (status == 0) {
        print_shape(host_is(it), number);
        host_free(it);
    }
    keeper_free(&at);
    return status;
}

// ## Ages

// What a node knows of itself and of others.
typedef struct age {
    bool is_there;
    uint64_t number;
    host_shape shape;
    markring_link links[NODES];
    process known[NODES];
} age;

typedef struct named_node {
    char space[HOST_NAME + 1];
    uint8_t node;
} named_node;

typedef struct node_names {
    named_node *names;
    size_t count;
    bool lacks_memory;
} node_names;

static void add_name(void *to, const char *space, uint8_t node)
{
    node_names *it = to;
    named_node *names = realloc(it->names, (it->count + 1) * sizeof *names);
    if (names == NULL || node >= NODES) {
        it->lacks_memory = it->lacks_memory || names == NULL;
        it->names = names != NULL ? names : it->names;
        return;
    }
    it->names = names;
    it->names[it->count].node = node;
    snprintf(it->names[it->count++].space, HOST_NAME + 1, "%s", space);
}

static int read_age(keeper *at, const named_node *name, age *to)
{
    host *it = NULL;
    postgres_select(at->server, name->space, name->node);
    int status = look_at_node(at, &it, &to->number);
    if (status != 0) {
        printf("%s, node %d: can't be read\n", name->space, name->node);
        return status;
    }
    to->is_there = true;
    to->shape = *host_is(it);
    for (uint8_t other = 0; other < to->shape.nodes; other++) {
        to->known[other] = it->peers[other].known;
        (void)markring_node_link(&it->node, other, &to->links[other]);
    }
    print_shape(&to->shape, to->number);
    host_free(it);
    if (strcmp(to->shape.name, name->space) != 0 || to->shape.own != name->node) {
        printf("%s, node %d: is kept under another name\n", name->space, name->node);
        return LEAVE_OTHER;
    }
    return 0;
}

// Whether `a` is older than what `b` has seen of it.
static bool is_older(const age *a, const age *b)
{
    const markring_link *out = &a->links[b->shape.own], *in = &b->links[a->shape.own];
    return in->received > out->appended || in->acknowledged > out->received
        || b->known[a->shape.own].saves > a->number;
}

static int compare_ages(const age *ages, const age *a)
{
    int status = 0;
    for (int i = 0; i < a->shape.nodes; i++) {
        const age *b = &ages[i];
        if (b == a || !b->is_there) {
            continue;
        }
        if (memcmp(a->shape.space, b->shape.space, SPACE_ID) != 0
            || a->shape.nodes != b->shape.nodes) {
            printf("nodes %d and %d are of two spaces\n", a->shape.own, b->shape.own);
            status = LEAVE_OTHER;
        } else if (is_older(a, b)) {
            printf(
                "node %d is older than what node %d has seen of it\n", a->shape.own, b->shape.own);
            status = LEAVE_OLDER;
        }
    }
    return status;
}

// Checks the nodes of a space, of which the first is given. `*count` is how many there are.
static int check_space(keeper *at, const node_names *all, size_t first, size_t *count)
{
    age *ages = calloc(NODES, sizeof *ages);
    int status = 0, nodes = 0;
    if (ages == NULL) {
        return complain(LEAVE_SYSTEM, "out of memory");
    }
    for (*count = 0; first + *count < all->count; ++*count) {
        const named_node *name = &all->names[first + *count];
        if (strcmp(name->space, all->names[first].space) != 0) {
            break;
        }
        int read = read_age(at, name, &ages[name->node]);
        status = status == 0 ? read : status;
        nodes = ages[name->node].is_there ? ages[name->node].shape.nodes : nodes;
    }
    for (int i = 0; i < nodes; i++) {
        if (ages[i].is_there) {
            int compared = compare_ages(ages, &ages[i]);
            status = status == 0 ? compared : status;
        } else {
            printf("node %d isn't in this database\n", i);
        }
    }
    free(ages);
    return status;
}

static int check_all(keeper *at)
{
    node_names all = {NULL, 0, false};
    const char *space = at->address.has_space ? at->address.space : NULL;
    int status = 0;
    if (postgres_list(at->server, space, add_name, &all) != DATABASE_DONE) {
        status = explain_server(at->server);
    } else if (all.lacks_memory) {
        status = complain(LEAVE_SYSTEM, "out of memory");
    } else if (all.count == 0) {
        status = complain(LEAVE_ABSENT, "there is no node in this database");
    }
    for (size_t first = 0, count = 0; !leave_may_pass(status) && first < all.count;
         first += count) {
        int checked = check_space(at, &all, first, &count);
        status = status == 0 ? checked : status;
    }
    free(all.names);
    if (status == 0) {
        printf("all that is there is whole and of one moment; nodes: %zu\n", all.count);
    }
    return status;
}

int check_nodes(const char *place)
{
    keeper at;
    memset(&at, 0, sizeof at);
    at.is_database = true;
    if (!names_database(place) || !read_address(place, &at.address)) {
        return complain(
            LEAVE_USAGE, "check needs postgresql://USER@HOST/DATABASE, perhaps with #SPACE");
    }
    int status = postgres_open(&at.server, at.address.server) ? 0 : explain_server(at.server);
    status = status == 0 ? begin_look(at.server) : status;
    status = status == 0 ? check_all(&at) : status;
    keeper_free(&at);
    return status;
}

// ## Copies

// Whether a process renews its hold of the node, or why that isn't known.
static int look_for_process(keeper *it)
{
    database_row first, later;
    database_calls calls = postgres_calls(it->server);
    database_status status = calls.connect(calls.context);
    status = status == DATABASE_DONE ? postgres_peek(it->server, &first) : status;
    later = first;
    if (status == DATABASE_DONE && first.holder != 0) {
        (void)sleep_ms(WATCHED);
        status = postgres_peek(it->server, &later);
    }
    if (status != DATABASE_DONE) {
        return keeper_explain(it, status == DATABASE_NONE ? STORE_ABSENT : STORE_FAILED);
    }
    return first.beat == later.beat
        ? 0
        : complain(LEAVE_IN_USE, "a process runs this node: stop it first");
}

int refuse_if_running(keeper *it)
{
    int status = it->is_database ? look_for_process(it) : 0;
    if (status != 0) {
        keeper_free(it);
    }
    return status;
}

// Makes the copy of a node that was opened.
static int make_copy(host *it, const char *place, uint64_t number)
{
    keeper to;
    store_value value = NO_VALUE;
    int status = keeper_begin_node(&to, place, host_is(it)->name, host_is(it)->own);
    if (status != 0) {
        return status;
    }
    int refused = host_rename(it, host_is(it)->space, &value);
    if (refused != MARKRING_OK) {
        keeper_free(&to);
        return complain(refused == MARKRING_MEMORY ? LEAVE_SYSTEM : LEAVE_FOLDER,
            markring_status_text(refused));
    }
    store_status created = keeper_create(&to, &value, number);
    free(value.buffer);
    if (created != STORE_OK) {
        status = keeper_explain(&to, created);
        keeper_free(&to);
        return status;
    }
    print_shape(host_is(it), keeper_number(&to));
    keeper_close(&to);
    return 0;
}

int copy_node(const char *from, const char *to)
{
    keeper at;
    host *it = NULL;
    store_value value = NO_VALUE;
    int status = keeper_begin(&at, from);
    status = status == 0 ? refuse_if_running(&at) : status;
    if (status != 0) {
        return status;
    }
    store_status opened = keeper_open(&at, &value);
    if (opened != STORE_OK) {
        status = keeper_explain(&at, opened);
        keeper_free(&at);
        return status;
    }
    status = open_value(&it, &value, keeper_number(&at));
    if (status == 0) {
        status = make_copy(it, to, keeper_number(&at));
        host_free(it);
    }
    keeper_close(&at);
    return status;
}
