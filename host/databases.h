// The commands of markring-node for nodes in databases, and for copies from one place to another.
// Each returns the exit status, after it has said why.
#ifndef HOST_DATABASES_H
#define HOST_DATABASES_H

#include "host.h"

// Makes the schema in the database.
int make_schema(const char *place);

// Prints what a node in a database has, without taking it over.
int show_node(const char *place);

// Reads all nodes of a database, or of a space in it, at one moment, and compares their ages.
int check_nodes(const char *place);

// Copies a node that no process runs to a place that has none.
int copy_node(const char *from, const char *to);

// Refuses a node in a database that a process runs; then it is freed.
struct keeper;
int refuse_if_running(struct keeper *it);

void print_shape(const host_shape *shape, uint64_t save);

#endif
