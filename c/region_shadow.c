/* Shadow tables over a block of the caller's. tower_region_shadow.h says what the caller owes. */
#include "region.h"
#include "tower_region_shadow.h"

enum { PRESENT = 1, USER = 4, ACCESSED = 32, HALF_WORDS = TOWER_SHADOW_HALF_BYTES / 8 };

/* Whether each present word of a root's upper half is a kernel's, as the library requires, and there is one. */
static bool is_kernel_half(const uint64_t *half) {
    bool any = false;
    for (size_t i = 0; i < HALF_WORDS; i++) {
        if (half[i] & PRESENT) {
            any = true;
            if ((half[i] & (USER | ACCESSED)) != ACCESSED) {
                return false;
            }
        }
    }
    return any;
}

uint32_t tower_shadow_open_over(uint32_t frames, struct tower_shadow_places places, const uint64_t *half,
                                struct tower_shadow *shadow, void *block, size_t size) {
    const uint8_t *bytes = (const uint8_t *)half;
    if (shadow->live || frames < TOWER_SHADOW_LEAST || frames > TOWER_SHADOW_MOST) {
        /* it requests no memory */
        return tower_shadow_open(frames, places.pool, places.core, bytes, TOWER_SHADOW_HALF_BYTES, shadow);
    }
    if (!is_kernel_half(half)) {
        return TOWER_SHADOW_BAD_HALF;
    }
    if (!tower_region_begin(frames, TOWER_SHADOW_BLOCK_BYTES(frames), block, size)) {
        return TOWER_SHADOW_BAD_BLOCK;
    }
    uint32_t status = tower_shadow_open(frames, places.pool, places.core, bytes, TOWER_SHADOW_HALF_BYTES, shadow);
    tower_region_end(status == TOWER_SHADOW_OPENED);
    return status;
}
