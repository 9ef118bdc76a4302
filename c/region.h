/* What region.c and region_images.c share. A program calls none of these. */
#ifndef TOWER_REGION_INSIDE_H
#define TOWER_REGION_INSIDE_H

#include "tower_region.h"

/* From now on all that the library requests comes from a block, and the first request of so many frames gets its
 * beginning. Returns false for a block of fewer bytes than `least`, or one that TOWER_BAD_BLOCK names. */
bool tower_region_begin(uint32_t frames, size_t least, void *block, size_t size);

/* Whether bytes share one with a block. */
bool tower_region_meets(const void *bytes, size_t count, const void *block, size_t size);

/* Ends this. If no core was made, the block is the caller's again. */
void tower_region_end(bool has_core);

#endif
