// A model of a database that keeps a node: transactions, a row that they lock, connections that are
// lost before, during and after a call, and statements that arrive after their connection was lost.
#ifndef TESTS_ROWS_H
#define TESTS_ROWS_H

#include "../database.h"

enum { ROWS_LATE = 4, ROWS_NUMBERS = 4096 };

typedef struct rows_piece {
    uint64_t number;
    uint32_t part;
    bool is_entry, is_rewrite;
    uint8_t *bytes;
    size_t length;
} rows_piece;

// The row and the pieces of a node.
typedef struct rows_table {
    bool has_row;
    database_row row;
    rows_piece *pieces;
    size_t count;
} rows_table;

// A statement that is on its way, though its connection was lost.
typedef struct rows_statement {
    database_row from, to;
    rows_piece piece;
    bool has_piece;
    uint64_t holder; // of a piece of a rewrite; else 0
} rows_statement;

typedef struct rows {
    rows_table table;
    rows_statement late[ROWS_LATE];
    int late_count;
    uint64_t *seed;
    unsigned long overtaken; // late statements that changed nothing
} rows;

typedef enum rows_fault {
    ROWS_NO_FAULT,
    ROWS_BEFORE, // lost before it was done
    ROWS_AFTER,  // lost after it was done
    ROWS_LATER,  // lost, and done later
    ROWS_REFUSES,
    ROWS_TAKES // another process takes the node over just before
} rows_fault;

// A process' connection.
typedef struct rows_client {
    rows *server;
    bool is_connected, in_transaction;
    rows_table work; // of the transaction
    // Of 1,000 calls, that many are lost or refused; and what happens at the call with this number.
    uint32_t losing, refusing;
    rows_fault fault;
    unsigned long fault_at, dies_in;
    bool dead;
    // A save that was asked for, and what its answer is. Of 1,000 looks, that many find none.
    bool is_asked, is_heard;
    database_status answer;
    uint32_t silent;
    unsigned long misused; // calls between a save that was asked for and its answer
    unsigned long calls, lost, refused, pauses, notes;
    unsigned long pauses_most; // after which `pause` gives up; 0 for never
    // The checksum of each number that this process has saved, and how often another one came.
    uint64_t seals[ROWS_NUMBERS];
    unsigned long used_twice;
} rows_client;

database_calls rows_calls(rows_client *it);

// Another process takes the node over, unless the client has it locked.
void rows_take(rows *it, rows_client *from);

// The process is gone.
void rows_kill(rows_client *it);

// What is on its way arrives.
void rows_arrive(rows *it);

void rows_free(rows *it);

#endif
