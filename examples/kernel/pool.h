/* The pool of shadow tables, when it is full: whose tables are forgotten. All functions are called with the lock. */
#ifndef POOL_H
#define POOL_H

#include <stdint.h>

#include "tower_shadow.h"

/* How many frames of the pool one instruction can need, as it completes only if it finds all of its pages. It has its
 * code and two operands (PUSH and CALL of a word in memory, MOVS, ENTER), and each may lie across the end of a region
 * of 2 MiB: six regions, with a table each. ENTER stores to a page below its operand, too: that is in the same two
 * regions. Above these are the root, one table, and a table for each GiB of the user range. No process has an
 * instruction with more operands: those that gather need a register state that the kernel doesn't turn on. */
enum {
    SHADOW_REGIONS = 2 * 3,
    SHADOW_GIBS = (TOWER_LAST_PAGE >> 18) - (TOWER_FIRST_PAGE >> 18) + 1,
    SHADOW_LEAST = 1 + 1 + SHADOW_GIBS + SHADOW_REGIONS
};
_Static_assert(SHADOW_LEAST == TOWER_SHADOW_LEAST, "what the library takes for one processor");

/* Opens the shadow tables over a pool, once the core is booted. Ends the run if the pool has less than it needs: what
 * one instruction needs (SHADOW_LEAST), on each processor. */
void open_pool(void);

/* Makes space for a fault of a process that runs here, as the pool is full: forgets all tables of one process. It is
 * the one that has taken most. A process keeps as much as the instructions that it runs can need at worst, so that
 * each of them completes whatever others do. */
void make_space(uint32_t pid);

/* How often that was the process that needed the space; and another one. */
struct pool_counts {
    uint32_t own, others;
};
struct pool_counts pool_counts(void);

#endif
