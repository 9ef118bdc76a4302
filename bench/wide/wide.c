/* wide FRAMES [zeros] [huge]: measures a core of many frames: its boot, and its calls.
 * With `zeros` the block is fresh from mmap, and a memset of a block that holds zeros does nothing. With `huge` the
 * block requests pages of 2 MiB. */
#define _GNU_SOURCE
#include <stdio.h>
#include <stdlib.h>
#include <string.h>
#include <sys/mman.h>
#include <sys/resource.h>
#include <time.h>

#include "tower_region.h"

enum { PAGE = TOWER_FIRST_PAGE, USER_PAGES = TOWER_LAST_PAGE + 1 - TOWER_FIRST_PAGE };

static uint8_t *zeros, *zeros_end;

void *tower_memset(void *to, int byte, size_t count) {
    uint8_t *bytes = to;
    if (!byte && count >= 65536 && bytes >= zeros && bytes + count <= zeros_end) {
        zeros = bytes + count; /* once */
        return to;
    }
    return memset(to, byte, count);
}

static double now(void) {
    struct timespec time;
    clock_gettime(CLOCK_MONOTONIC, &time);
    return time.tv_sec + time.tv_nsec * 1e-9;
}

static double resident(void) {
    long size, pages = 0;
    FILE *file = fopen("/proc/self/statm", "r");
    if (fscanf(file, "%ld %ld", &size, &pages) != 2) exit(3);
    fclose(file);
    return pages * 4096.0 / (1 << 20);
}

static uint64_t seed = 88172645463325252u;
static uint32_t draw(uint32_t below) {
    seed ^= seed << 13, seed ^= seed >> 7, seed ^= seed << 17;
    return (uint32_t)((seed >> 11) % below);
}

static struct tower tower;

static struct tower_reply does(struct tower_event event) {
    struct tower_reply reply = {0};
    if (!tower_step(&tower, &event, &reply)) exit(2);
    return reply;
}

static struct tower_event access_at(uint8_t pid, uint8_t call, uint32_t page) {
    return (struct tower_event){.pid = pid, .call = call, .flag = 4, .first = page << 12 | 64, .second = page};
}

static const char *at;
static double best;
#define MEASURE(name, times, body) do { \
    at = name; best = 1e9; \
    for (int run = 0; run < 5; run++) { \
        double from = now(); \
        for (uint32_t i = 0; i < (uint32_t)(times); i++) { body; } \
        double each = (now() - from) / (times) * 1e9; \
        if (each < best) best = each; \
    } \
    printf("  %-58s %9.1f ns\n", at, best); fflush(stdout); } while (0)

#define WANT(kind_wanted, event) do { if (does(event).kind != (kind_wanted)) { printf("%s: line %d\n", at, __LINE__); exit(4); } } while (0)

int main(int count, char **words) {
    uint32_t frames = (uint32_t)strtoul(words[1], NULL, 10);
    bool lazily = false, huge = false;
    for (int i = 2; i < count; i++) {
        lazily = lazily || !strcmp(words[i], "zeros");
        huge = huge || !strcmp(words[i], "huge");
    }
    size_t size = TOWER_BLOCK_BYTES(frames);
    double boots = 1e9, frees = 1e9, first = 0;
    uint8_t *block = NULL;
    int runs = frames > 100000 ? 3 : 20;
    for (int run = 0; run < runs; run++) {
        if (block) munmap(block, size); /* the rest is less than 2 MiB of addresses */
        size_t room = size + (2 << 20);
        uint8_t *all = mmap(NULL, room, PROT_READ | PROT_WRITE, MAP_PRIVATE | MAP_ANONYMOUS | MAP_NORESERVE, -1, 0);
        if (all == MAP_FAILED) return 1;
        block = all + (-(uintptr_t)all & ((2 << 20) - 1));
        if (huge && madvise(block, size, MADV_HUGEPAGE)) return 1;
        zeros = zeros_end = NULL;
        if (lazily) zeros = block, zeros_end = block + size;
        double from = now();
        if (tower_boot_over(frames, &tower, block, size) != TOWER_BOOTED) return 1;
        double took = now() - from;
        if (!run) first = took;
        if (took < boots) boots = took;
        if (run + 1 < runs) {
            from = now();
            tower_free(&tower);
            took = now() - from;
            if (took < frees) frees = took;
        }
    }
    printf("%u frames%s: boot over fresh pages %.3f ms (the first %.3f), free %.4f ms, resident %.1f MiB\n", frames, lazily ? huge ? ", zeros promised, huge pages" : ", zeros promised" : huge ? ", huge pages" : "",
           boots * 1e3, first * 1e3, frees * 1e3, resident());
    if (!lazily) { /* over a block that already has its pages */
        double again = 1e9;
        for (int run = 0; run < 3; run++) {
            tower_free(&tower);
            double from = now();
            if (tower_boot_over(frames, &tower, block, size) != TOWER_BOOTED) return 1;
            double took = now() - from;
            if (took < again) again = took;
        }
        printf("  boot over pages that are there: %.3f ms\n", again * 1e3);
    }

    /* a small working set: 8 pages */
    for (uint32_t i = 0; i < 8; i++) WANT(TOWER_DONE, access_at(0, TOWER_STORE, PAGE + i));
    MEASURE("load of 4, 8 pages in turn", 400000, WANT(TOWER_VALUE, access_at(0, TOWER_LOAD, PAGE + i % 8)));
    MEASURE("store of 4, 8 pages in turn", 400000, WANT(TOWER_DONE, access_at(0, TOWER_STORE, PAGE + i % 8)));
    MEASURE("info", 400000, WANT(TOWER_FLAGS, ((struct tower_event){.call = TOWER_INFO, .first = PAGE + i % 8})));
    MEASURE("quota", 400000, WANT(TOWER_USAGE, ((struct tower_event){.call = TOWER_QUOTA})));
    MEASURE("map and unmap of a page", 200000, WANT(TOWER_DONE, ((struct tower_event){.call = TOWER_MAP, .flag = 1, .first = PAGE + 9})); WANT(TOWER_DONE, ((struct tower_event){.call = TOWER_UNMAP, .first = PAGE + 9})));
    MEASURE("store to a new page, and unmap", 200000, WANT(TOWER_DONE, access_at(0, TOWER_STORE, PAGE + 9)); WANT(TOWER_DONE, ((struct tower_event){.call = TOWER_UNMAP, .first = PAGE + 9})));
    MEASURE("spawn of a child that stores to a page and exits", 50000,
            WANT(TOWER_CHILD, ((struct tower_event){.call = TOWER_SPAWN, .first = 3}));
            WANT(TOWER_DONE, access_at(1, TOWER_STORE, PAGE));
            WANT(TOWER_DONE, ((struct tower_event){.pid = 1, .call = TOWER_EXIT})));

    /* all frames in use: process 0 and a child have as many pages as their quotas allow */
    uint32_t half = frames / 2 + 8, mine = 0, child = 0;
    if (half > 4) {
        WANT(TOWER_CHILD, ((struct tower_event){.call = TOWER_SPAWN, .first = half}));
        double from = now();
        while (mine < USER_PAGES && does(access_at(0, TOWER_STORE, PAGE + mine)).kind == TOWER_DONE) mine++;
        while (child < USER_PAGES && does(access_at(1, TOWER_STORE, PAGE + child)).kind == TOWER_DONE) child++;
        double took = now() - from;
        printf("  all in use: %u and %u pages, %.1f ns for each store to a new page, resident %.1f MiB\n", mine, child, took / (mine + child) * 1e9, resident());
        MEASURE("load of 4, 8 pages in turn, all frames in use", 400000, WANT(TOWER_VALUE, access_at(0, TOWER_LOAD, PAGE + i % 8)));
        MEASURE("load of 4, pages at random, all frames in use", 400000, WANT(TOWER_VALUE, access_at(0, TOWER_LOAD, PAGE + draw(mine))));
        MEASURE("store of 4, pages at random, all frames in use", 400000, WANT(TOWER_DONE, access_at(0, TOWER_STORE, PAGE + draw(mine))));
        uint32_t some = mine < 512 ? mine : 512;
        for (uint32_t i = 0; i < some; i++) draw(mine);
        MEASURE("unmap of a random page, and a store there, all in use", 100000, uint32_t page = PAGE + draw(mine);
                WANT(TOWER_DONE, ((struct tower_event){.call = TOWER_UNMAP, .first = page})); WANT(TOWER_DONE, access_at(0, TOWER_STORE, page)));
        from = now();
        WANT(TOWER_DONE, ((struct tower_event){.pid = 1, .call = TOWER_EXIT}));
        took = now() - from;
        printf("  exit of the child with %u pages: %.3f ms, %.1f ns a page\n", child, took * 1e3, took / child * 1e9);
        from = now();
        struct tower_reply forked = does((struct tower_event){.call = TOWER_FORK, .first = mine + (mine + 1023) / 1024 + 1});
        took = now() - from;
        if (forked.kind == TOWER_CHILD) printf("  fork of %u pages: %.3f ms, %.1f ns a page\n", mine, took * 1e3, took / mine * 1e9);
        else printf("  fork of %u pages: kind %u, %u\n", mine, forked.kind, forked.first);
        for (uint32_t i = 0; i < mine; i++) WANT(TOWER_DONE, ((struct tower_event){.call = TOWER_UNMAP, .first = PAGE + i}));
    }
    double from = now();
    tower_free(&tower);
    printf("  free: %.4f ms\n", (now() - from) * 1e3);
    return 0;
}
