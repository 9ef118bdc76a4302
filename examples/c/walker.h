/* A thread that walks shadow tables, as another processor does, while something else fills them and forgets. Each word
 * that it finds has to be whole, and right: 0, a table of the pool, or the translation of its page. The first that is
 * not ends the program with status 1 (expect.h). */
#ifndef WALKER_H
#define WALKER_H

#include <pthread.h>
#include <sched.h>
#include <stdatomic.h>

#include "expect.h"

enum {
    POOL_FRAMES = 40, /* fewer than all pages need: frames that were last tables become roots, and so on */
    PAGES = 64,       /* of the process, each in a region of 2 MiB of its own */
    LINK = 0x67,      /* present, writable, of user mode, accessed, dirty */
    READS = 0x25
};
static const uint64_t POOL_AT = 0x10000000, BLOCK_AT = 0x100000000;

static uint8_t *pool_begins;
static uint64_t translations[PAGES]; /* of each page, as a word */

/* The root that the walker has to use, 0 for none; whether it is in the tables; and whether it has to end. */
static _Atomic uint64_t root;
static atomic_bool is_inside, is_over;
static uint64_t without_table, without_page, to_page;
static pthread_t walker_thread;

static uint32_t random_below(uint32_t limit, uint32_t *seed) {
    *seed = *seed * 1664525 + 1013904223;
    return (uint32_t)((uint64_t)(*seed >> 8) * limit >> 24);
}

/* Pages of all three GiB of the user range, no two of one region. */
static uint32_t page_number(uint32_t page) {
    return TOWER_FIRST_PAGE + page * 0x2a00 + page;
}

static _Atomic uint64_t *place_of(uint64_t table, uint32_t index) {
    return (_Atomic uint64_t *)(void *)(pool_begins + (table - POOL_AT) + 8 * index);
}

static uint64_t word_at(uint64_t table, uint32_t index) {
    return atomic_load_explicit(place_of(table, index), memory_order_relaxed);
}

static bool is_table(uint64_t word) {
    uint64_t at = word - LINK;
    return at % TOWER_FRAME_BYTES == 0 && at >= POOL_AT && at < POOL_AT + POOL_FRAMES * (uint64_t)TOWER_FRAME_BYTES;
}

/* The last table has one page of the process, and zeros. */
static void look_at(uint64_t table, uint32_t page, uint32_t *seed) {
    uint32_t own = page_number(page) % 512, other = (own + 1 + random_below(511, seed)) % 512;
    uint64_t word = word_at(table, own);
    EXPECT(word == 0 || word == translations[page]);
    EXPECT(word_at(table, other) == 0);
    *(word ? &to_page : &without_page) += 1;
}

static void walk(uint64_t table, uint32_t page, uint32_t *seed) {
    for (uint32_t shift = 27; shift > 0; shift -= 9) {
        uint64_t word = word_at(table, page_number(page) >> shift & 511);
        if (!word) {
            without_table++;
            return;
        }
        EXPECT(is_table(word));
        table = word - LINK;
    }
    look_at(table, page, seed);
}

static void *walker(void *none) {
    uint32_t seed = 1;
    while (!is_over) {
        is_inside = true;
        uint64_t own = root;
        for (uint32_t count = 0; own && count < 16; count++) {
            walk(own, random_below(PAGES, &seed), &seed);
        }
        is_inside = false;
    }
    return none;
}

static void start_walker(void) {
    EXPECT(pthread_create(&walker_thread, NULL, walker, NULL) == 0);
}

/* Has the walker leave the tables. */
static void leave_root(void) {
    root = 0;
    while (is_inside) {
        sched_yield();
    }
}

static bool has_seen_all(void) {
    return without_table && without_page && to_page;
}

static void end_walker(void) {
    is_over = true;
    EXPECT(pthread_join(walker_thread, NULL) == 0);
}

#endif
