/* The processes' address spaces: events of the core, and the shadow tables, which follow them. An event returns once
 * what it ended is forgotten in the tables, and invalidated on each processor that may cache it. All functions are
 * called with the lock. */
#ifndef SPACES_H
#define SPACES_H

#include "core.h"

/* Makes an event of a process. Other threads of it may run meanwhile, except as docs/THEOREMS.md says. */
struct tower_reply make_event(struct tower_event event);

/* Ends a process with all that descend from it, and lists them. */
struct tower_reply end_family(uint32_t pid, struct tower_processes *exited);

/* Writes bytes into the memory of a process that never ran. Its pages have that right afterwards. */
struct tower_reply load_bytes(uint32_t pid, uint32_t address, const uint8_t *bytes, size_t count, bool write);

/* Handles a page fault of the process that runs here: the core gets the access of a byte, which changes none, and the
 * page gets its shadow entry. Returns whether the process may make the access again. Otherwise the core stopped it, and
 * `reply` is the fault or the refusal. */
bool handle_fault(uint32_t pid, uint64_t address, bool write, struct tower_reply *reply);

struct spaces_counts {
    uint32_t fills;            /* entries filled */
    uint32_t pages, processes; /* entries that events forgot: of pages, and of processes */
};
struct spaces_counts spaces_counts(void);
/* How often anything was forgotten, or processors left tables: a page that was filled may fault again then. */
uint32_t forgets(void);

#endif
