/* What the core does in a system call and in a page fault of the sandbox, without the sandbox: microseconds for each. */
#include <stdio.h>
#include <stdlib.h>
#include <time.h>

#include "tower.h"

enum { ROUNDS = 20000, PAGES = 64, FIRST = 0x50000, PID = 1 };

static struct tower tower = TOWER_NONE;

static void need(bool holds) {
    if (!holds) {
        fprintf(stderr, "core: the run isn't as expected\n");
        exit(1);
    }
}

static struct tower_reply does(struct tower_event event, uint32_t kind) {
    struct tower_reply reply;
    struct tower_ended ended;
    need(tower_step_ending(&tower, &event, &reply, &ended) && reply.kind == kind);
    return reply;
}

static double seconds(void) {
    struct timespec now;
    clock_gettime(CLOCK_PROCESS_CPUTIME_ID, &now);
    return (double)now.tv_sec + 1e-9 * (double)now.tv_nsec;
}

static double of_calls(void) {
    double from = seconds();
    for (uint32_t i = 0; i < ROUNDS * PAGES; i++) {
        does(tower_quota(PID), TOWER_USAGE);
    }
    return seconds() - from;
}

/* The events and the queries of a fault by a store, and the unmap of its page. */
static double of_faults(void) {
    double from = seconds();
    for (uint32_t round = 0; round < ROUNDS; round++) {
        for (uint32_t page = FIRST; page < FIRST + PAGES; page++) {
            struct tower_walk walk;
            struct tower_page found;
            uint32_t at;
            does(tower_store(PID, page << 12, 4, page), TOWER_DONE);
            need(tower_walk(&tower, PID, page << 12, true, &walk) && tower_next_page(&tower, PID, page, &at, &found));
        }
        for (uint32_t page = FIRST; page < FIRST + PAGES; page++) {
            does(tower_unmap(PID, page), TOWER_DONE);
        }
    }
    return seconds() - from;
}

int main(void) {
    need(tower_boot(TOWER_MAX_FRAMES, &tower) == TOWER_BOOTED);
    does(tower_spawn(0, 200), TOWER_CHILD);
    printf("%.3f %.3f\n", of_calls() / ROUNDS / PAGES * 1e6, of_faults() / ROUNDS / PAGES * 1e6);
    tower_free(&tower);
    return 0;
}
