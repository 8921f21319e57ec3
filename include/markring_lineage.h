// The processes that ran a node, for whoever writes a host of their own around the nodes of
// markring.h: whether what another node knows of this one's processes shows that this process goes
// on from an older copy. These decisions are proved (crate `lineage`). libmarkring-host makes them
// by these calls.
//
// Each process begins with a save, so the numbers of a node's saves are one line, in which each
// process has a part: from its first save up to the first one of the next process. What is saved of
// a node holds that line. Another node's word, "I know the process n, which made save s", is true
// of it if save s is in the part of n. Otherwise it is an older copy, which another process
// continued, even if more saves were made since.
//
// # What a host owes
//
// - It keeps a line in a buffer, with the number of ancestors that it has, and changes both by these
//   calls alone. A new node's line has one ancestor, {0, 0}. It saves the line with the node.
// - Each process has a random number other than 0, its nonce, which no other process has. It takes
//   a saved node, calls markring_lineage_begin with the number of its first save, and makes that
//   save before it does anything else. Each further save has the next number.
// - Other nodes hear from a process its nonce and the number of a save that is stored. What they
//   heard they say of it to the process that runs the node.
// - A process that is told that it is MARKRING_LINEAGE_OLDER ends.
//
// - It keeps what it knows of each other node's process, at first {0, 0, 0}, changes it by
//   markring_lineage_meet alone, and saves it with the node. It takes nothing of a packet whose
//   sender is MARKRING_LINEAGE_OUTDATED.
//
// Then no process ends whose copy of the node is the newest one. A process of an older copy ends at
// the first word that shows it, unless its line is full or the word is of a save before the ones
// that it remembers. What a node knows of another one's process never goes back, and nothing of an
// earlier process is taken (`lineage::laws`).
//
// These calls can't fail, take any numbers, and take no memory. Each pointer is valid and isn't
// null. One thread at a time uses a line.
#ifndef MARKRING_LINEAGE_H
#define MARKRING_LINEAGE_H

#include <stddef.h>
#include <stdint.h>

#ifdef __cplusplus
extern "C" {
#endif

// A process that ran the node, and the number of its first save. If the nonce is 0, nobody knows
// any more which processes made the saves from there on.
typedef struct markring_ancestor {
    uint64_t nonce;
    uint64_t run;
} markring_ancestor;

enum markring_lineage_verdict {
    // The other node knows none, or an earlier process, from which this one goes on.
    MARKRING_LINEAGE_FITS = 0,
    // It knows this process.
    MARKRING_LINEAGE_KNOWN = 1,
    // It knows a save that this process hasn't made, nor goes on from.
    MARKRING_LINEAGE_OLDER = 2
};

// What it means that another node knows the process with the nonce `known`, which made this save
// (0: it knows of none), for the process with the nonce `own`, whose last save is `stored`, with a
// line of `count` ancestors.
int markring_lineage_judge(const markring_ancestor *line, size_t count, uint64_t own,
    uint64_t stored, uint64_t known, uint64_t save);

// A process begins: it is added to the first `count` ancestors of a line with this much room.
// Returns how many there are now. Without room, two in the middle are forgotten: what shows an
// older copy are the processes that began right after it, and the last ones. With room for fewer
// than three, all are forgotten.
size_t markring_lineage_begin(
    markring_ancestor *line, size_t room, size_t count, const markring_ancestor *process);

// This process forgets those before it, once all other nodes know it. Returns how many ancestors
// there are now.
size_t markring_lineage_forget(
    markring_ancestor *line, size_t room, const markring_ancestor *process);

// A process that runs another node: its nonce, the number of its first save, and that of the last
// one that is known. All are 0 if none is known.
typedef struct markring_process {
    uint64_t nonce;
    uint64_t run;
    uint64_t saves;
} markring_process;

enum markring_lineage_sender {
    // The process that is known.
    MARKRING_LINEAGE_LATEST = 0,
    // The same, with fewer saves than are known: the packet is late, or of an older state of it.
    MARKRING_LINEAGE_BEHIND = 1,
    // A later process, which is known from now on.
    MARKRING_LINEAGE_LATER = 2,
    // An earlier process, or one that hasn't shown that it goes on from the one that is known.
    MARKRING_LINEAGE_OUTDATED = 3
};

// A packet of this process came. `heard` is the last word of this node that it found to fit its own
// saves (markring_lineage_word); 0 if it is of a version that doesn't say.
int markring_lineage_meet(
    markring_process *known, const markring_process *sender, uint64_t heard);

// What is known of a process, as one number, which packets carry. Nonces are random, so two of these
// numbers are hardly ever the same.
uint64_t markring_lineage_word(const markring_process *known);

#ifdef __cplusplus
}
#endif

#endif
