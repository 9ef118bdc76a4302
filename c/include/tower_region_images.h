/* A core restored over a block of its caller's: tower_restore of tower_images.h over a block of tower_region.h. c/region.c
 * and c/region_images.c have it. What both headers require holds here too, that of the one lock included.
 */
#ifndef TOWER_REGION_IMAGES_H
#define TOWER_REGION_IMAGES_H

#include "tower_images.h"
#include "tower_region.h"

#ifdef __cplusplus
extern "C" {
#endif

/* How many bytes a block needs for a core of an image of that many frames: in addition to a booted core's the check's,
 * which the core does not use afterwards. It evaluates its argument twice. */
#define TOWER_RESTORE_BLOCK_BYTES(frames) (TOWER_BLOCK_BYTES(frames) + ((size_t)(frames) * 16 + 4095) / 4096 * 4096)

/* As TOWER_RESTORE_BLOCK_BYTES, for a snapshot: in addition its offers. */
#define TOWER_RESTORE_WHOLE_BLOCK_BYTES(frames) (TOWER_RESTORE_BLOCK_BYTES(frames) + 32768)

/* A status in addition to those of tower_restore. The block is as TOWER_BAD_BLOCK says, or has too few bytes for an
 * image of that length, or shares a byte with the image, the handle or the verdict. */
#define TOWER_RESTORE_BAD_BLOCK 7

/* Restores a core over a block, from the image that bytes encode. With any status but TOWER_RESTORED the block stays the
 * caller's. Its bytes are unchanged at TOWER_RESTORE_HAS_CORE and TOWER_RESTORE_BAD_BLOCK, and may have changed at any
 * other. tower_free frees the core. */
TOWER_NODISCARD uint32_t tower_restore_over(const uint8_t *bytes, size_t byte_count, struct tower *tower,
                                            struct tower_verdict *verdict, void *block, size_t size);

/* As tower_restore_over, from a snapshot: the machine that was stored, with its offers. The block's fresh bytes
 * are written once, in ascending order. */
TOWER_NODISCARD uint32_t tower_restore_whole_over(const uint8_t *bytes, size_t byte_count, struct tower *tower,
                                                  struct tower_verdict *verdict, void *block, size_t size);

/* The name of a status of tower_restore_over; "" for a number that is no status. */
static inline const char *tower_restore_over_status_name(uint32_t status) {
    return status == TOWER_RESTORE_BAD_BLOCK ? "BadBlock" : tower_restore_status_name(status);
}

/* The name of a status of tower_restore_whole_over; "" for a number that is no status. */
static inline const char *tower_restore_whole_over_status_name(uint32_t status) {
    return status == TOWER_RESTORE_BAD_BLOCK ? "BadBlock" : tower_whole_status_name(status);
}

#ifdef __cplusplus
}
#endif
#endif
