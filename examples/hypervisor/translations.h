/* The kernel's book of what one processor caches, or several that get the same orders: an identifier for each process's
 * translations, and what was invalidated. */
#ifndef TRANSLATIONS_H
#define TRANSLATIONS_H

#include "tower.h"

struct translations {
    /* Forget, on the book's processors, the translation of one page under an identifier, or all. */
    void (*forget_page)(uint32_t identifier, uint32_t page);
    void (*forget_all)(void);
    uint32_t most;                         /* the highest identifier; the lowest is 1 */
    uint32_t last;                         /* the last one assigned */
    uint32_t identifiers[TOWER_PROCESSES]; /* 0: it has none */
    uint32_t pages, spaces, all;           /* pages invalidated, identifiers released, and flushes of all */
};

/* Returns the identifier of a process. It is valid until the process exits, or none is left and all are assigned
 * anew. */
uint32_t identifier_of(struct translations *it, uint32_t pid);

/* Releases a process's identifier, so that what is cached under it is not used for the process again. Returns whether
 * the process had one. */
bool give_up(struct translations *it, uint32_t pid);

/* Invalidates what an event ended. Call it right after the event, before any access or event. */
void invalidate(struct translations *it, struct tower_ended ended);

/* Invalidates what a write of the kernel's own may have made stale: the pages of the process from the first byte's to
 * that of the address after the last byte. The write was at no address past the user range's end. */
void invalidate_written(struct translations *it, uint32_t pid, uint32_t address, uint32_t count);

#endif
