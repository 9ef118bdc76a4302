/* A kernel over one core that several processors run. It records which of them may cache what of a process. An event
 * returns once what it ended is invalidated there. All functions are called with the lock. */
#ifndef KERNEL_H
#define KERNEL_H

#include "processors.h"
#include "translations.h"

struct kernel {
    struct tower *core;
    struct translations books[MOST_PROCESSORS]; /* of each processor */
    uint8_t homes[TOWER_PROCESSES]; /* the one processor that may cache translations of a process, or NO_PROCESSOR */
    bool is_busy[MOST_PROCESSORS];  /* it has a process that it took */
    uint32_t moves;                 /* how many identifiers were released as a process came to another processor */
};

/* Opens a kernel over a core of which no processor caches anything yet. The two functions are those of each book; each
 * forgets on the processor that calls it. */
void open_kernel(struct kernel *it, struct tower *core, void (*forget_page)(uint32_t identifier, uint32_t page),
                 void (*forget_all)(void), uint32_t most_identifiers);

/* Brings a process to this processor, to run here. Returns the identifier of its translations here. It is valid until
 * the process exits, goes to another processor or is brought here again. */
uint32_t bring_here(struct kernel *it, uint32_t pid);

/* This processor no longer runs any process, and caches nothing. */
void leave_kernel(struct kernel *it);

/* Makes an event of a process that runs nowhere, or on this processor, which requests it. An accept may make a
 * translation stale that another processor caches. That processor then stands still from before the event until it has
 * invalidated the translation. While a fork copies pages, all others stand still. */
struct tower_reply make_event(struct kernel *it, uint32_t pid, struct tower_event event);

/* Makes the access of one byte for which this processor stopped a process that runs on it. It changes no byte. What it
 * made stale is invalidated by then. */
struct tower_reply make_touch(struct kernel *it, uint32_t pid, uint32_t address, bool is_store);

/* Writes into the memory of a process that runs nowhere, as the process's own stores would. Returns whether all bytes
 * were written. What the write made stale is invalidated by then. If another processor may cache it, the identifier of
 * the process there is released. */
bool write_memory(struct kernel *it, uint32_t pid, uint32_t address, const uint8_t *bytes, uint32_t count);

/* How many pages were invalidated, identifiers released at exits, and flushes of all made, on all processors. */
struct invalidated {
    uint32_t pages, spaces, all;
};
struct invalidated invalidated_by(const struct kernel *it);
/* Prints a line with these counts, the interrupts that stopped a processor, and the runs: a kernel that flushes at each
 * run makes that many flushes of all. */
void tell_invalidated(const struct kernel *it, uint32_t runs, uint32_t stops);

/* Processes that wait for a processor, first come, first served. */
struct queue {
    uint8_t pids[TOWER_PROCESSES];
    uint32_t count;
};
void put_last(struct queue *it, uint32_t pid);
/* Take the first process; or the first that ran last here or nowhere, otherwise the first whose processor has another.
 * False if there is no such process. */
bool take_first(struct queue *it, uint32_t *pid);
bool take_near(struct queue *it, struct kernel *kernel, uint32_t *pid);

#endif
