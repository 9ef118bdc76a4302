/* Measures calls through the library: the nanoseconds of a million loads, and of a million maps with unmaps, the best
 * of fifteen runs. Also measures one copy of a page's 4,096 bytes, in each of five ways. */
#include <stdio.h>
#include <stdlib.h>
#include <string.h>
#include <time.h>

#include "tower.h"

enum { TIMES = 1000000, RUNS = 15 };

static struct tower tower = TOWER_NONE;

static void need(bool holds) {
    if (!holds) {
        abort();
    }
}

static unsigned long long now(void) {
    struct timespec at;
    clock_gettime(CLOCK_MONOTONIC, &at);
    return at.tv_sec * 1000000000ull + at.tv_nsec;
}

static unsigned long long loads(void) {
    struct tower_event load = tower_load(0, 0x40000000, 4);
    struct tower_reply reply;
    unsigned long long start = now();
    for (int i = 0; i < TIMES; i++) {
        need(tower_step(&tower, &load, &reply));
    }
    return now() - start;
}

static unsigned long long maps(void) {
    struct tower_event map = tower_map(0, 0x40001, TOWER_READ_WRITE), unmap = tower_unmap(0, 0x40001);
    struct tower_reply reply;
    unsigned long long start = now();
    for (int i = 0; i < TIMES; i++) {
        need(tower_step(&tower, &map, &reply));
        need(tower_step(&tower, &unmap, &reply));
    }
    return now() - start;
}

enum { BYTES = 4096, COPIES = 20000 };

static const uint32_t FROM = 0x40000000;
static uint8_t copy[BYTES];

/* Copies a page with loads of four bytes. */
static void by_events(void) {
    struct tower_event load = tower_load(0, 0, 4);
    struct tower_reply reply;
    for (uint32_t at = 0; at < BYTES; at += 4) {
        load.first = FROM + at;
        need(tower_step(&tower, &load, &reply));
        memcpy(copy + at, &reply.first, 4);
    }
}

/* Copies a page with the same loads, in one run. */
static void by_run(void) {
    static struct tower_event events[BYTES / 4];
    static struct tower_reply replies[BYTES / 4];
    for (uint32_t i = 0; i < BYTES / 4; i++) {
        events[i] = tower_load(0, FROM + 4 * i, 4);
    }
    need(tower_run(&tower, events, BYTES / 4, replies, BYTES / 4));
    for (uint32_t i = 0; i < BYTES / 4; i++) {
        memcpy(copy + 4 * i, &replies[i].first, 4);
    }
}

static void by_read(void) {
    struct tower_reply stop;
    size_t moved;
    need(tower_read(&tower, 0, FROM, copy, BYTES, &moved, &stop));
}

static void by_write(void) {
    struct tower_reply stop;
    size_t moved;
    need(tower_write(&tower, 0, FROM, copy, BYTES, &moved, &stop));
}

/* Copies a page with a walk of the tables, from the memory to which the walk leads. */
static void by_walk(void) {
    struct tower_memory memory;
    struct tower_walk found;
    need(tower_memory(&tower, &memory));
    need(tower_walk(&tower, 0, FROM, false, &found));
    memcpy(copy, (const uint8_t *)memory.begins + (size_t)BYTES * found.frame, BYTES);
}

/* Returns the nanoseconds of COPIES copies, measured on `times` of them. */
static unsigned long long copies(void (*way)(void), int times) {
    unsigned long long start = now();
    for (int i = 0; i < times; i++) {
        way();
    }
    return (now() - start) * (COPIES / times);
}

static unsigned long long least(unsigned long long one, unsigned long long other) {
    return one < other ? one : other;
}

int main(void) {
    struct tower_event store = tower_store(0, 0x40000000, 4, 7);
    struct tower_reply reply;
    unsigned long long load = ~0ull, map = ~0ull;
    if (tower_boot(4096, &tower) != TOWER_BOOTED || !tower_step(&tower, &store, &reply)) {
        return 1;
    }
    for (int i = 0; i < RUNS; i++) {
        load = least(load, loads());
        map = least(map, maps());
    }
    printf("load %llu\nmap %llu\n", load, map);
    const struct { const char *name; void (*way)(void); int times; } ways[] = {
        {"events", by_events, 200}, {"run", by_run, 200}, {"read", by_read, COPIES}, {"write", by_write, COPIES},
        {"walk", by_walk, COPIES}};
    for (size_t nth = 0; nth < sizeof ways / sizeof *ways; nth++) {
        unsigned long long best = ~0ull;
        for (int i = 0; i < RUNS; i++) {
            best = least(best, copies(ways[nth].way, ways[nth].times));
        }
        printf("copy-%s %llu\n", ways[nth].name, best / COPIES);
    }
    tower_free(&tower);
    return 0;
}
