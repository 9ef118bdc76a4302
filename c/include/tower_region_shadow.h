/* Shadow tables over a block of their caller's: tower_shadow_open of tower_shadow.h over a block of tower_region.h.
 * c/region.c and c/region_shadow.c have it. What both headers require holds here too, that of the one lock included.
 */
#ifndef TOWER_REGION_SHADOW_H
#define TOWER_REGION_SHADOW_H

#include "tower_region.h"
#include "tower_shadow.h"

#ifdef __cplusplus
extern "C" {
#endif

/* How many bytes tables request for themselves, apart from the pool and 4 bytes for each of its frames. */
#define TOWER_SHADOW_TABLES_BYTES 3400

/* How many bytes a block needs for a pool of that many frames: the frames, and after them the tables' own. */
#define TOWER_SHADOW_BLOCK_BYTES(frames) \
    ((size_t)(frames) * TOWER_FRAME_BYTES \
     + ((size_t)(frames) * 4 + TOWER_SHADOW_TABLES_BYTES + 256 + 4095) / 4096 * 4096)

/* Statuses in addition to those of tower_shadow_open. */
#define TOWER_SHADOW_BAD_BLOCK 4 /* the block is as TOWER_BAD_BLOCK says, or too small for so many frames */
#define TOWER_SHADOW_BAD_HALF 5  /* a word of the half is none of a kernel's, or all are absent */

/* The name of a status of tower_shadow_open_over; "" for a number that is no status. */
static inline const char *tower_shadow_over_status_name(uint32_t status) {
    switch (status) {
    case TOWER_SHADOW_BAD_BLOCK: return "BadBlock";
    case TOWER_SHADOW_BAD_HALF: return "BadHalf";
    default: return tower_shadow_status_name(status);
    }
}

/* Where the pool's first frame and the core's frame 0 lie, as physical addresses. They have names, since no status tells
 * that the two are exchanged: a processor would then walk the core's bytes, and a process reach the pool. */
struct tower_shadow_places {
    uint64_t pool;
    uint64_t core;
};

/* Opens shadow tables over a block, whose first `frames` pages are the pool. `half` is 256 words, the upper half of each
 * root, as tower_shadow_open says. At least one is present: otherwise a processor that loads a root finds no kernel.
 * With any status but TOWER_SHADOW_OPENED the block stays the caller's. tower_shadow_close frees the tables. */
TOWER_NODISCARD uint32_t tower_shadow_open_over(uint32_t frames, struct tower_shadow_places places,
                                                const uint64_t *half, struct tower_shadow *shadow, void *block,
                                                size_t size);

#ifdef __cplusplus
}
#endif
#endif
