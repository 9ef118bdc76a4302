/* A thread walks shadow tables (walker.h), as another processor does, while a second one fills them and forgets. The
 * proofs say nothing of the moments within a call. It ends with status 0 if all goes as expected (expect.h). `watched
 * twice` also writes each translation as two words, one after the other: the walker has to see that, and ends it with
 * status 1. */
#define _DEFAULT_SOURCE

#include <stdio.h>
#include <string.h>

#include "tower_region_shadow.h"
#include "walker.h"

enum { CORE_FRAMES = 256, FILLS = 1000000, MOST_TWICE = 50 * FILLS, CHILD = 1 };

static _Alignas(TOWER_FRAME_BYTES) uint8_t core_block[TOWER_BLOCK_BYTES(CORE_FRAMES)];
static _Alignas(TOWER_FRAME_BYTES) uint8_t pool_block[TOWER_SHADOW_BLOCK_BYTES(POOL_FRAMES)];
static struct tower core = TOWER_NONE;
static struct tower_shadow shadow = TOWER_SHADOW_NONE;

static struct tower_event event_at(uint32_t page, bool is_store) {
    uint32_t address = page_number(page) << 12;
    return is_store ? tower_store(CHILD, address, 4, page) : tower_protect(CHILD, page_number(page), TOWER_READ_ONLY);
}

/* Every second page may not be written to. */
static void open_all(void) {
    static const uint64_t half[TOWER_SHADOW_HALF_BYTES / 8] = {0x21}; /* present, accessed */
    const struct tower_shadow_places places = {.pool = POOL_AT, .core = BLOCK_AT};
    struct tower_memory pool;
    struct tower_walk found;
    EXPECT(tower_boot_over(CORE_FRAMES, &core, core_block, sizeof core_block) == TOWER_BOOTED);
    EXPECT(answers(&core, tower_spawn(0, CORE_FRAMES - 20), TOWER_CHILD, CHILD));
    for (uint32_t page = 0; page < PAGES; page++) {
        bool is_written = page % 2 == 0;
        EXPECT(answers(&core, event_at(page, true), TOWER_DONE, 0));
        EXPECT(is_written || answers(&core, event_at(page, false), TOWER_DONE, 0));
        EXPECT(tower_walk(&core, CHILD, page_number(page) << 12, false, &found) && found.kind == TOWER_WALK_FRAME);
        translations[page] = BLOCK_AT + (uint64_t)found.frame * TOWER_FRAME_BYTES + (is_written ? LINK : READS);
    }
    EXPECT(tower_shadow_open_over(POOL_FRAMES, places, half, &shadow, pool_block, sizeof pool_block) ==
           TOWER_SHADOW_OPENED);
    EXPECT(tower_shadow_pool(&shadow, &pool) && pool.begins == pool_block);
    EXPECT(pool.length == POOL_FRAMES * (size_t)TOWER_FRAME_BYTES);
    pool_begins = pool_block;
}

/* Frees all tables, once the walker has left them. */
static void forget_all(void) {
    leave_root();
    EXPECT(tower_shadow_forget_all(&shadow));
}

static uint32_t fault(uint32_t page) {
    struct tower_reply reply;
    struct tower_ended ended;
    return tower_shadow_fault(&core, &shadow, CHILD, (uint64_t)page_number(page) << 12, false, &reply, &ended);
}

static void fill(uint32_t page) {
    uint64_t own;
    if (fault(page) == TOWER_SHADOW_FULL) {
        forget_all();
        EXPECT(fault(page) == TOWER_SHADOW_FILLED);
    }
    EXPECT(tower_shadow_root(&shadow, CHILD, &own));
    root = own;
}

/* A wrong way to write a translation that is there. */
static void write_twice(uint32_t page) {
    uint64_t table = root;
    for (uint32_t shift = 27; shift > 0; shift -= 9) {
        table = word_at(table, page_number(page) >> shift & 511) - LINK;
    }
    atomic_store(place_of(table, page_number(page) % 512), LINK);
    atomic_store(place_of(table, page_number(page) % 512), translations[page]);
}

static void forget(uint32_t page) {
    struct tower_ended ended = {.kind = TOWER_ENDS_PAGE, .pid = CHILD, .first = page_number(page)};
    EXPECT(tower_shadow_forget(&shadow, &ended));
}

int main(int count_of_words, char **words) {
    bool is_twice = count_of_words == 2 && !strcmp(words[1], "twice");
    uint32_t seed = 2;
    open_all();
    start_walker();
    for (uint32_t count = 0; count < (is_twice ? MOST_TWICE : FILLS) || !has_seen_all(); count++) {
        uint32_t page = random_below(PAGES, &seed);
        fill(page);
        if (is_twice) {
            write_twice(page);
        }
        forget(random_below(PAGES, &seed));
    }
    end_walker();
    tower_shadow_close(&shadow);
    tower_free(&core);
    printf("watched: %llu walks, %llu of them to a page, while tables were filled\n",
           (unsigned long long)(without_table + without_page + to_page), (unsigned long long)to_page);
    return 0;
}
