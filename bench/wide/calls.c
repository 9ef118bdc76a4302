/* calls FRAMES KIND TIMES: boots a core over a block, and repeats calls of one kind that many times. bench/wide/run counts
 * the instructions of two such programs, and takes the difference. The block is fresh from mmap, so a memset of its
 * frames returns immediately: a boot's instructions are then those of the book. It ends with status 0 if each reply is
 * the expected one. */
#define _GNU_SOURCE
#include <stdio.h>
#include <stdlib.h>
#include <string.h>
#include <sys/mman.h>

#include "tower_region.h"

enum { PAGE = TOWER_FIRST_PAGE, OTHER = PAGE + 2048 };

static uint8_t *zeros, *zeros_end;
static struct tower tower = TOWER_NONE;

void *tower_memset(void *to, int byte, size_t count) {
    uint8_t *bytes = to;
    if (!byte && bytes == zeros && bytes + count <= zeros_end) {
        zeros = NULL; /* once */
        return to;
    }
    return memset(to, byte, count);
}

/* The reply is of that kind. */
static void does(struct tower_event event, uint32_t kind) {
    struct tower_reply reply = {0};
    if (!tower_step(&tower, &event, &reply) || reply.kind != kind) {
        printf("call %u: a reply of kind %u, not %u\n", event.call, reply.kind, kind);
        exit(1);
    }
}

static void load(void) { does(tower_load(0, PAGE << 12, 4), TOWER_VALUE); }
static void store(void) { does(tower_store(0, PAGE << 12, 4, 7), TOWER_DONE); }
static void info(void) { does(tower_info(0, PAGE), TOWER_FLAGS); }
static void quota(void) { does(tower_quota(0), TOWER_USAGE); }
static void map(void) {
    does(tower_map(0, PAGE + 1, TOWER_READ_WRITE), TOWER_DONE);
    does(tower_unmap(0, PAGE + 1), TOWER_DONE);
}
static void fill(void) {
    does(tower_store(0, (PAGE + 1) << 12, 4, 7), TOWER_DONE);
    does(tower_unmap(0, PAGE + 1), TOWER_DONE);
}
static void protect(void) {
    does(tower_protect(0, PAGE, TOWER_READ_ONLY), TOWER_DONE);
    does(tower_protect(0, PAGE, TOWER_READ_WRITE), TOWER_DONE);
}
static void share(void) {
    does(tower_offer(0, PAGE, 1, TOWER_READ_ONLY), TOWER_DONE);
    does(tower_accept(1, 0, PAGE, PAGE), TOWER_DONE);
    does(tower_unmap(1, PAGE), TOWER_DONE);
}
static void spawn(void) {
    does(tower_spawn(0, 4), TOWER_CHILD);
    does(tower_store(2, PAGE << 12, 4, 7), TOWER_DONE);
    does(tower_exit(2), TOWER_DONE);
}
static void copies(void) {
    does(tower_fork(0, 4), TOWER_CHILD);
    does(tower_exit(2), TOWER_DONE);
}
static void nothing(void) {}

static const struct { const char *name; void (*act)(void); } kinds[] = {
    {"boot", nothing}, {"load", load}, {"store", store}, {"info", info}, {"quota", quota}, {"map", map}, {"fill", fill},
    {"protect", protect}, {"share", share}, {"spawn", spawn}, {"fork", copies},
};

int main(int count, char **words) {
    if (count != 4) {
        return 2;
    }
    uint32_t frames = (uint32_t)strtoul(words[1], NULL, 10), times = (uint32_t)strtoul(words[3], NULL, 10);
    size_t size = TOWER_BLOCK_BYTES(frames);
    uint8_t *block = mmap(NULL, size, PROT_READ | PROT_WRITE, MAP_PRIVATE | MAP_ANONYMOUS | MAP_NORESERVE, -1, 0);
    zeros = block, zeros_end = block + size;
    if (block == MAP_FAILED || tower_boot_over(frames, &tower, block, size) != TOWER_BOOTED) {
        return 3;
    }
    store();
    does(tower_spawn(0, 4), TOWER_CHILD);
    for (size_t kind = 0; kind < sizeof kinds / sizeof kinds[0]; kind++) {
        for (uint32_t i = 0; !strcmp(kinds[kind].name, words[2]) && i < times; i++) {
            kinds[kind].act();
        }
    }
    tower_free(&tower);
    return 0;
}
