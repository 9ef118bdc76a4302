/* Measures what a kernel does for its processes, in microseconds: the end of a family, a page taken back from other
 * slots, the next dirty page behind clean ones, bytes loaded into new pages, and whether an event may write a frame. The
 * best of several runs, each on a core of its own. */
#include <stdio.h>
#include <stdlib.h>
#include <time.h>

#include "tower.h"

enum { FRAMES = 16384, RUNS = 7, SLOTS = 1000, LOADED = 1000 };

static struct tower tower = TOWER_NONE;

static void need(bool holds) {
    if (!holds) {
        abort();
    }
}

static double now(void) {
    struct timespec at;
    clock_gettime(CLOCK_MONOTONIC, &at);
    return at.tv_sec * 1e6 + at.tv_nsec / 1e3;
}

static uint32_t done(struct tower_event event) {
    struct tower_reply reply;
    need(tower_do(&tower, event, &reply) == TOWER_OUTCOME_DONE);
    return reply.first;
}

static uint32_t address_of(uint32_t number) {
    return (TOWER_FIRST_PAGE + number) << 12;
}

/* A family of so many processes, each the child of the one before it, with ten pages each. */
static double end_of(uint32_t count) {
    struct tower_processes exited;
    struct tower_reply told;
    uint32_t first = 0, pid = 0;
    for (uint32_t made = 0; made < count; made++) {
        pid = done(tower_spawn(pid, 12 * (count - made) + 1));
        first = made ? first : pid;
        for (uint32_t page = 0; page < 10; page++) {
            done(tower_store(pid, address_of(page), 4, page));
        }
    }
    const double start = now();
    need(tower_end(&tower, first, &exited, &told) && told.kind == TOWER_DONE && exited.count == count);
    return now() - start;
}

/* A page of process 0 at so many pages of a child. */
static double taken_back(uint32_t count) {
    static struct tower_holder lost[SLOTS + 1];
    struct tower_reply told;
    size_t taken;
    const uint32_t child = done(tower_spawn(0, 2 * count + 8));
    done(tower_store(0, address_of(0), 4, 7));
    for (uint32_t page = 0; page < count; page++) {
        done(tower_offer(0, TOWER_FIRST_PAGE, child, TOWER_READ_ONLY));
        done(tower_accept(child, 0, TOWER_FIRST_PAGE, TOWER_FIRST_PAGE + page));
    }
    const double start = now();
    need(tower_take_back(&tower, 0, TOWER_FIRST_PAGE, lost, SLOTS + 1, &taken, &told) && taken == count);
    return now() - start;
}

/* So many pages of which the last is dirty. */
static double next_dirty(uint32_t count) {
    uint32_t page;
    for (uint32_t number = 0; number < count; number++) {
        done(tower_load(0, address_of(number), 4));
    }
    done(tower_store(0, address_of(count - 1), 4, 7));
    const double start = now();
    need(tower_next_dirty(&tower, 0, 0, &page) && page == TOWER_FIRST_PAGE + count - 1);
    return now() - start;
}

/* Bytes for so many pages, none of which is mapped. */
static double loaded(uint32_t count) {
    static uint8_t bytes[LOADED * TOWER_FRAME_BYTES];
    struct tower_reply told;
    const double start = now();
    need(tower_load_bytes(&tower, 0, address_of(0), bytes, (size_t)count * TOWER_FRAME_BYTES, false, &told));
    need(told.kind == TOWER_DONE);
    return now() - start;
}

/* A question about the frame of the last of so many pages. */
static double may_write(uint32_t count) {
    const struct tower_event event = tower_quota(0);
    struct tower_walk walk;
    bool may;
    for (uint32_t number = 0; number < count; number++) {
        done(tower_store(0, address_of(number), 4, 7));
    }
    need(tower_walk(&tower, 0, address_of(count - 1), false, &walk) && walk.kind == TOWER_WALK_FRAME);
    const double start = now();
    need(tower_may_write(&tower, &event, walk.frame, &may) && may);
    return now() - start;
}

int main(void) {
    const struct { const char *what; double (*measure)(uint32_t); uint32_t count; } rows[] = {
        {"the end of %u processes", end_of, 1}, {"the end of %u processes", end_of, 8},
        {"the end of %u processes", end_of, 63}, {"a page taken back from %u slots", taken_back, 1},
        {"a page taken back from %u slots", taken_back, 64}, {"a page taken back from %u slots", taken_back, SLOTS},
        {"the next dirty page, the last of %u", next_dirty, 10000}, {"a load into %u new pages", loaded, 1},
        {"a load into %u new pages", loaded, 64}, {"a load into %u new pages", loaded, LOADED},
        {"whether the frame of the last page of %u may be written", may_write, 1},
        {"whether the frame of the last page of %u may be written", may_write, 10000}};
    for (size_t row = 0; row < sizeof rows / sizeof *rows; row++) {
        double best = 1e9;
        for (int i = 0; i < RUNS; i++) {
            need(tower_boot_wide(FRAMES, &tower) == TOWER_BOOTED);
            const double took = rows[row].measure(rows[row].count);
            best = took < best ? took : best;
            tower_free(&tower);
        }
        printf(rows[row].what, rows[row].count);
        printf(": %.1f microseconds\n", best);
    }
    return 0;
}
