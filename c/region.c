/* The libraries' functions for memory, over blocks of the caller's. tower_region.h says what the caller owes. */
#include "region.h"

/* A block in use. This struct lies at the block's very end. */
struct region {
    struct region *next;
    uint8_t *begins, *ends;
    size_t frame_bytes;   /* the one size whose first request gets the frames */
    uint8_t *free;        /* the book's bytes from here on are free */
    size_t blocks;        /* how many are in use */
    bool frames_out;
};

static struct region *all, *booting;
static struct tower_other_heap other;
static uint8_t nothing;

static struct rattle_tried refused(void) {
    struct rattle_tried tried = {false, &nothing};
    return tried;
}

static struct rattle_tried given(struct region *region, uint8_t *block) {
    struct rattle_tried tried = {true, block};
    region->blocks++;
    return tried;
}

struct rattle_tried rattle_alloc(size_t size, size_t align) {
    struct region *region = booting;
    if (!region) {
        return other.alloc ? other.alloc(size, align) : refused();
    }
    if (size == region->frame_bytes && !region->frames_out) {
        region->frames_out = true;
        return given(region, region->begins);
    }
    /* align is a power of two up to 16, and the book begins at a page */
    size_t book = (size_t)((uint8_t *)region - region->free);
    size_t skip = (align - (size_t)((uintptr_t)region->free & (align - 1))) & (align - 1);
    if (skip > book || size > book - skip) {
        return refused();
    }
    uint8_t *block = region->free + skip;
    region->free = block + size;
    return given(region, block);
}

struct rattle_tried rattle_realloc(void *block, size_t kept, size_t size, size_t align) {
    return tower_holds(block) || !other.realloc ? refused() : other.realloc(block, kept, size, align);
}

void rattle_dealloc(void *block) {
    for (struct region **at = &all; *at; at = &(*at)->next) {
        struct region *region = *at;
        if ((uintptr_t)block >= (uintptr_t)region->begins && (uintptr_t)block < (uintptr_t)region->ends) {
            if (--region->blocks == 0 && region != booting) {
                *at = region->next; /* the whole block is the caller's again */
            }
            return;
        }
    }
    if (!other.dealloc) {
        __builtin_trap(); /* a block that no function of memory returned */
    }
    other.dealloc(block);
}

bool tower_holds(const void *byte) {
    for (struct region *region = all; region; region = region->next) {
        if ((uintptr_t)byte >= (uintptr_t)region->begins && (uintptr_t)byte < (uintptr_t)region->ends) {
            return true;
        }
    }
    return false;
}

void tower_set_other_heap(const struct tower_other_heap *heap) {
    static const struct tower_other_heap none;
    other = heap ? *heap : none;
}

uint32_t tower_frames_within(size_t size) {
    size_t fewer = 0, more = TOWER_WIDE_FRAMES + 1; /* `fewer` frames fit, and `more` don't */
    while (more - fewer > 1) {
        size_t frames = fewer + (more - fewer) / 2;
        if (TOWER_BLOCK_BYTES(frames) <= size) {
            fewer = frames;
        } else {
            more = frames;
        }
    }
    return fewer < TOWER_MIN_FRAMES ? 0 : (uint32_t)fewer;
}

static bool overlaps(uintptr_t begins, uintptr_t ends) {
    for (struct region *region = all; region; region = region->next) {
        if (begins < (uintptr_t)region->ends && (uintptr_t)region->begins < ends) {
            return true;
        }
    }
    return false;
}

bool tower_region_meets(const void *bytes, size_t count, const void *block, size_t size) {
    uintptr_t first = (uintptr_t)bytes, second = (uintptr_t)block;
    return first < second ? second - first < count : first - second < size;
}

bool tower_region_begin(uint32_t frames, size_t least, void *block, size_t size) {
    uintptr_t begins = (uintptr_t)block;
    if (!block || begins % TOWER_FRAME_BYTES || size % TOWER_FRAME_BYTES || size < least
        || size > UINTPTR_MAX - begins || overlaps(begins, begins + size)) {
        return false;
    }
    struct region *region = (struct region *)((uint8_t *)block + size) - 1;
    region->next = all;
    region->begins = block;
    region->ends = (uint8_t *)block + size;
    region->frame_bytes = (size_t)frames * TOWER_FRAME_BYTES;
    region->free = region->begins + region->frame_bytes;
    region->blocks = 0;
    region->frames_out = false;
    all = booting = region;
    return true;
}

void tower_region_end(bool has_core) {
    booting = NULL;
    if (!has_core) {
        all = all->next; /* it is the first, and all that came from it is freed */
    }
}

uint32_t tower_boot_over(uint32_t frames, struct tower *tower, void *block, size_t size) {
    if (tower->live) {
        return TOWER_HAS_CORE;
    }
    if (frames < TOWER_MIN_FRAMES || frames > TOWER_WIDE_FRAMES) {
        return TOWER_BAD_SIZE;
    }
    if (tower_region_meets(tower, sizeof *tower, block, size)
        || !tower_region_begin(frames, TOWER_BLOCK_BYTES(frames), block, size)) {
        return TOWER_BAD_BLOCK;
    }
    uint32_t status = tower_boot_wide(frames, tower);
    tower_region_end(status == TOWER_BOOTED);
    return status;
}
