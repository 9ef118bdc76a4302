/* Shadow tables over a block of the caller's, and the statuses of what is none, or no kernel's half
 * (c/region_shadow.c). It ends with status 0 if all goes as expected (expect.h). */
#include <string.h>

#include "expect.h"
#include "tower_region_shadow.h"

enum { FRAMES = 64, POOL = 16, WORDS = TOWER_SHADOW_HALF_BYTES / 8, PAGE = TOWER_FIRST_PAGE };
enum { PRESENT = 1, USER = 4, ACCESSED = 32 };

static const struct tower_shadow_places places = {.pool = 0x10000000, .core = 0x20000000};
static _Alignas(TOWER_FRAME_BYTES) uint8_t core_block[TOWER_BLOCK_BYTES(FRAMES)];
static _Alignas(TOWER_FRAME_BYTES) uint8_t pool_block[TOWER_SHADOW_BLOCK_BYTES(POOL)];
static struct tower_shadow shadow = TOWER_SHADOW_NONE;
static uint64_t half[WORDS];

/* The status of an opening with these words of the half, whose handle stays empty unless it is opened. */
static uint32_t opened_with(uint64_t first, uint64_t last) {
    half[0] = first;
    half[WORDS - 1] = last;
    uint32_t status = tower_shadow_open_over(POOL, places, half, &shadow, pool_block, sizeof pool_block);
    EXPECT(shadow.live == (status == TOWER_SHADOW_OPENED));
    tower_shadow_close(&shadow);
    return status;
}

static void refuses_halves(void) {
    EXPECT(opened_with(0, 0) == TOWER_SHADOW_BAD_HALF);
    EXPECT(opened_with(USER | ACCESSED, 0) == TOWER_SHADOW_BAD_HALF); /* not present */
    EXPECT(opened_with(PRESENT, 0) == TOWER_SHADOW_BAD_HALF);
    EXPECT(opened_with(PRESENT | ACCESSED, PRESENT) == TOWER_SHADOW_BAD_HALF);
    EXPECT(opened_with(PRESENT | ACCESSED, PRESENT | ACCESSED | USER) == TOWER_SHADOW_BAD_HALF);
    EXPECT(opened_with(USER, PRESENT | ACCESSED) == TOWER_SHADOW_OPENED);
    EXPECT(opened_with(PRESENT | ACCESSED, 0) == TOWER_SHADOW_OPENED);
}

static uint32_t opened(uint32_t frames, struct tower_shadow_places at, void *block, size_t size) {
    return tower_shadow_open_over(frames, at, half, &shadow, block, size);
}

static void refuses_blocks_and_places(void) {
    const size_t size = sizeof pool_block;
    const struct tower_shadow_places odd_pool = {places.pool + 8, places.core}, odd_core = {places.pool, places.core + 8};
    EXPECT(opened(POOL, places, NULL, size) == TOWER_SHADOW_BAD_BLOCK);
    EXPECT(opened(POOL, places, pool_block + 1, size - TOWER_FRAME_BYTES) == TOWER_SHADOW_BAD_BLOCK);
    EXPECT(opened(POOL, places, pool_block, size - TOWER_FRAME_BYTES) == TOWER_SHADOW_BAD_BLOCK);
    EXPECT(opened(POOL, places, core_block, size) == TOWER_SHADOW_BAD_BLOCK); /* a core's */
    EXPECT(opened(TOWER_SHADOW_LEAST - 1, places, pool_block, size) == TOWER_SHADOW_BAD_PLACES);
    EXPECT(opened(TOWER_SHADOW_MOST + 1, places, pool_block, size) == TOWER_SHADOW_BAD_PLACES);
    EXPECT(opened(POOL, odd_pool, pool_block, size) == TOWER_SHADOW_BAD_PLACES);
    EXPECT(opened(POOL, odd_core, pool_block, size) == TOWER_SHADOW_BAD_PLACES);
    EXPECT(!shadow.live);
}

/* Each address goes where it belongs: a root lies in the pool, and a translation's word names a frame of the core. */
static void fills(struct tower *core) {
    struct tower_reply reply;
    struct tower_ended ended;
    struct tower_translation found;
    uint64_t root, word;
    EXPECT(opened(POOL, places, pool_block, sizeof pool_block) == TOWER_SHADOW_OPENED);
    EXPECT(opened(POOL, places, pool_block, sizeof pool_block) == TOWER_SHADOW_HAS_TABLES);
    EXPECT(tower_shadow_fault(core, &shadow, 0, (uint64_t)PAGE << 12, true, &reply, &ended) == TOWER_SHADOW_FILLED);
    EXPECT(tower_shadow_root(&shadow, 0, &root) && root - places.pool < POOL * TOWER_FRAME_BYTES);
    EXPECT(tower_shadow_translation(&shadow, 0, PAGE, &found) && found.write);
    uint64_t table = root;
    for (uint32_t shift = 27; shift > 0; shift -= 9) {
        memcpy(&word, pool_block + (table - places.pool) + (PAGE >> shift & 511) * 8, sizeof word);
        table = word / TOWER_FRAME_BYTES * TOWER_FRAME_BYTES;
        EXPECT(table - places.pool < POOL * TOWER_FRAME_BYTES);
    }
    memcpy(&word, pool_block + (table - places.pool) + PAGE % 512 * 8, sizeof word);
    EXPECT(word / TOWER_FRAME_BYTES == places.core / TOWER_FRAME_BYTES + found.frame);
    tower_shadow_close(&shadow);
}

static void names(void) {
    EXPECT(strcmp(tower_shadow_over_status_name(TOWER_SHADOW_BAD_BLOCK), "BadBlock") == 0);
    EXPECT(strcmp(tower_shadow_over_status_name(TOWER_SHADOW_BAD_HALF), "BadHalf") == 0);
    EXPECT(strcmp(tower_shadow_over_status_name(TOWER_SHADOW_BAD_PLACES), "BadPlaces") == 0);
    EXPECT(strcmp(tower_shadow_over_status_name(6), "") == 0);
}

int main(void) {
    struct tower core = TOWER_NONE;
    EXPECT(tower_boot_over(FRAMES, &core, core_block, sizeof core_block) == TOWER_BOOTED);
    refuses_halves();
    refuses_blocks_and_places();
    fills(&core);
    names();
    tower_free(&core);
    return 0;
}
