/* What a process does next to others, by its number, in trials of turns and of the pool of shadow tables. */
#include "neighbor.h"

static uint64_t began;

static bool goes_on(void) {
    return moment() - began < MOST_TICKS;
}

/* Loads in more regions of 2 MiB than the pool has frames: each has a shadow table of its own. */
static void walk_regions(void) {
    enum { REGIONS = 180, REGION = 0x200000 };
    while (goes_on()) {
        for (uint64_t region = 0; region < REGIONS; region++) {
            (void)*at(0x50000000 + region * REGION);
        }
    }
}

static void make_calls(void) {
    while (goes_on()) {
        self();
    }
}

/* Maps a page and unmaps it: each Unmap stops the processors that may cache it. */
static void change_pages(void) {
    while (goes_on()) {
        ask(TOWER_MAP, 1, 0x50000, 0, 0);
        ask(TOWER_UNMAP, 0, 0x50000, 0, 0);
    }
}

static void compute(void) {
    while (goes_on()) {
    }
}

static void begin_changing(uint32_t number) {
    (void)number;
    change_pages();
    for (;;) {
        ask(CALL_END_THREAD, 0, 0, 0, 0);
    }
}

/* One thread computes, and one changes pages: the computing one is stopped at each change. */
static void change_and_compute(void) {
    ask(CALL_THREAD, 0, (uint64_t)begin_changing, 0x60010000, 0);
    compute();
}

/* Counts for some ticks how often it goes through its own pages, and exits with that. */
static uint32_t count_rounds(void) {
    enum { PAGES = 4 };
    uint32_t rounds = 0;
    for (uint64_t end = began + TICKS; moment() < end; rounds++) {
        for (uint32_t page = 0; page < PAGES; page++) {
            *words(0x50000 + page) = rounds;
        }
    }
    return rounds / ROUNDS;
}

uint32_t program(uint32_t number) {
    began = moment();
    switch (number) {
    case COUNTS_ROUNDS: return count_rounds();
    case COMPUTES: compute(); break;
    case MAKES_CALLS: make_calls(); break;
    case WALKS_REGIONS: walk_regions(); break;
    case CHANGES_PAGES: change_and_compute(); break;
    }
    return 0;
}
