/* Processors in software that cache a translation, and a directory's word, until they get the order to forget it. A
 * real processor does this at worst. QEMU's own may forget more than it must. */
#ifndef CACHE_H
#define CACHE_H

#include "processors.h"
#include "walk.h"

/* How many there are at most, and their highest identifier. It is low, so that now and then no identifier is left. */
enum { CACHES = MOST_PROCESSORS, CACHE_IDENTIFIERS = 15 };

/* One access of a process by a processor, under the identifier of the process's translations. */
struct access {
    uint32_t cpu, identifier, directory, address, size, value;
    bool is_store;
};

/* Opens them over the directories of a core's memory. They cache nothing yet. */
void cache_open(uint8_t *memory);
/* Makes an access, and returns WALK_FOUND; a load's result is then in `value`. Otherwise it returns how a walk ends,
 * with the address where it does in `address`, and stores nothing. */
struct walk cache_access(struct access *it);
/* The kernel's orders to all of them, or to one. Each of the machine's processors may give an order to a different one
 * concurrently. */
void cache_forget_page(uint32_t identifier, uint32_t page);
void cache_forget_all(void);
void cache_forget_page_of(uint32_t cpu, uint32_t identifier, uint32_t page);
void cache_forget_all_of(uint32_t cpu);

/* For a processor whose accesses are not seen. The first caches all that the processor may now cache of a directory:
 * each page that was accessed, and each word that leads there. The second returns whether all that is cached is what
 * the walks give. */
void cache_keep_accessed(uint32_t cpu, uint32_t identifier, uint32_t directory);
bool cache_is_given(uint32_t cpu, uint32_t identifier, uint32_t directory);

/* How many pages were found in the cache, how many by a walk, and how many of these after a refusal. */
void cache_counts(uint32_t *kept, uint32_t *walked, uint32_t *again);

#endif
