/* Trials of the processors against the definitions. Their numbers are from generators with fixed seeds. */
#ifndef TRIAL_H
#define TRIAL_H

#include "tower.h"

/* Tests instructions that a guest may not execute: each ends in an exit, and changes no byte of memory. */
void try_instructions(void);

/* Compares the processor's walk with that of docs/MACHINE.md, over random page words. No core writes most of these. */
void try_walks(uint32_t rounds);

/* Makes random events on three cores. The processor makes each access over the first core's tables, processors in
 * software over the second's, and the third carries it out as an event. Replies have to agree, and all bytes of memory
 * except accessed in words of directories. The first core stays in the handle. */
void try_events(uint32_t rounds, struct tower *tower);

/* Makes a storm of calls and accesses of eight processes, which all processors run concurrently. The accesses are the
 * processors' own, or those of processors in software, one on each. A second core gets all of them afterwards, in the
 * lock's order. The first stays in the handle. */
void try_storm(uint32_t turns, bool by_processor, struct tower *tower);

/* Runs processes on all processors at once: those in software keep what is stale until they take their interrupts. A
 * second core gets all accesses afterwards as they were made, and each event where all had invalidated what it ended.
 * The first core stays in the handle. */
void try_shootdowns(uint32_t turns, struct tower *tower);

#endif
