/* What each processor has in CR3, and so may cache: the root of one process's shadow tables, or the kernel's. All
 * functions are called with the lock. */
#ifndef ROOTS_H
#define ROOTS_H

#include "processors.h"

/* In place of a process: none, or any; in place of a page: all of them. */
enum { NOBODY = 255 };
#define ALL_PAGES 0xffffffffu

/* Opens the kernel's root. Returns the kernel's half of it, which each root has. */
const uint64_t *open_roots(void);

/* Loads a process's root into this processor, which then runs the process. */
void bring_here(uint32_t pid);
/* This processor runs no process. It may keep the root of the last one, and what it caches below that. */
void leave_process(void);
/* This processor keeps nothing of a process. */
void leave_all(void);

/* Loads the root of the process that runs here, if it has another one by now: it gets its first with its first entry.
 * */
void need_root(uint32_t pid);

/* Forgets, on this processor, what it caches of a page of a process, or of all its pages. */
void invalidate_here(uint32_t pid, uint32_t page);

/* No processor keeps anything of this process, or of any for NOBODY: its root may be freed, and the kernel's half with
 * it. A thread of it that runs on another processor faults, and waits for the lock. */
void leave_everywhere(uint32_t pid);

/* Ends the run if a processor keeps anything of this process, or of any for NOBODY. */
void need_left(uint32_t pid);

/* A set of processors has a bit for each. These two are of others than this one: those that may cache something of a
 * process, and those that run any. */
typedef uint32_t set;
set keepers_of(uint32_t pid);
set runners(void);
/* Makes them stand still; and has them carry out an order and continue. */
void stop_these(set which);
void release_these(set which, struct order order);

struct root_counts {
    uint32_t left;        /* times that all processors left a process's tables */
    uint32_t stopped;     /* interrupts for another processor */
    uint32_t longest;     /* until that stood still, in thousands of ticks */
    uint32_t invalidated; /* a page, or all, on any processor */
};
struct root_counts root_counts(void);

#endif
