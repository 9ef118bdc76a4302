/* A core of 262,144 frames, 1 GiB, in a block of the program's own. Tenants fill a good part of it, past the 16 MiB that
 * tower_boot gives; one lends a page, one forks and one exits. At the end all bytes are read back, the core is checked
 * where it lies, and the block is given back. It ends with status 0 if all goes as expected (expect.h). */
#define _DEFAULT_SOURCE

#include <stdio.h>
#include <stdlib.h>
#include <string.h>
#include <sys/mman.h>

#include "expect.h"
#include "heap.h"
#include "tower_images.h"

enum { FRAMES = 262144, TENANTS = 4, PAGES = 10000, QUOTA = 25000, FIRST = TOWER_FIRST_PAGE };

static uint32_t address_of(uint32_t page) {
    return (FIRST + page) << 12 | (page % 1000) * 4;
}

static uint32_t word_of(uint32_t pid, uint32_t page) {
    return pid << 24 | page;
}

/* The frame of a tenant's page, by a processor's walk. */
static uint32_t frame_of(struct tower *tower, uint32_t pid, uint32_t page) {
    struct tower_walk walk = {0};
    EXPECT(tower_walk(tower, pid, address_of(page), true, &walk) && walk.kind == TOWER_WALK_FRAME);
    return walk.frame;
}

static void fill(struct tower *tower, uint32_t pid, uint32_t first, uint32_t end) {
    for (uint32_t page = first; page < end; page++) {
        EXPECT(answers(tower, tower_store(pid, address_of(page), 4, word_of(pid, page)), TOWER_DONE, 0));
    }
}

/* Each page of a tenant has its word, through the core and in the block's own bytes. Returns the highest frame. */
static uint32_t same(struct tower *tower, const uint8_t *block, uint32_t pid, uint32_t parent, uint32_t end) {
    uint32_t highest = 0;
    for (uint32_t page = 0; page < end; page++) {
        uint32_t frame = frame_of(tower, pid, page), wanted = word_of(parent, page), word;
        EXPECT(answers(tower, tower_load(pid, address_of(page), 4), TOWER_VALUE, wanted));
        memcpy(&word, block + (size_t)frame * TOWER_FRAME_BYTES + address_of(page) % TOWER_FRAME_BYTES, sizeof word);
        EXPECT(word == wanted);
        highest = frame > highest ? frame : highest;
    }
    return highest;
}

/* The core is sound, judged where it lies, with the bytes that docs/C-LIBRARY.md gives. It has no image. */
static void audit(struct tower *tower) {
    struct tower_verdict verdict = {7, 7};
    size_t size = 7;
    heap_bytes = 0; /* of what a check requests, which comes from no region */
    EXPECT(tower_check(tower, &verdict) == TOWER_SOUND && verdict.number == 7 && verdict.clause == 7);
    EXPECT(heap_blocks == 0 && heap_bytes == (size_t)10 * FRAMES);
    EXPECT(tower_image(tower, NULL, 0, &size) == TOWER_IMAGE_TOO_MANY_FRAMES && size == 7);
}

/* A word that something else wrote is found, and the word put back. */
static void audit_damaged(struct tower *tower, uint8_t *block) {
    struct tower_verdict verdict = {7, 7};
    uint32_t directory = 0;
    EXPECT(tower_directory(tower, 2, &directory));
    uint8_t *word = block + (size_t)directory * TOWER_FRAME_BYTES + 4 * (FIRST >> 10), was = *word;
    *word ^= 2;
    EXPECT(tower_check(tower, &verdict) == TOWER_PROCESS_FAILS && verdict.number == 2 && verdict.clause == 3);
    *word = was;
}

int main(void) {
    const size_t size = TOWER_BLOCK_BYTES(FRAMES);
    uint8_t *block = mmap(NULL, size, PROT_READ | PROT_WRITE, MAP_PRIVATE | MAP_ANONYMOUS, -1, 0);
    EXPECT(block != MAP_FAILED && tower_frames_within(size) == FRAMES);
    tower_set_other_heap(&counting_heap);
    struct tower tower = TOWER_NONE;
    EXPECT(tower_boot_over(FRAMES, &tower, block, size) == TOWER_BOOTED && tower_frames(&tower) == FRAMES);
    for (uint32_t pid = 1; pid <= TENANTS; pid++) {
        EXPECT(answers(&tower, tower_spawn(0, QUOTA + pid), TOWER_CHILD, pid));
    }
    /* in turns, so that their frames are mixed */
    for (uint32_t page = 0; page < PAGES; page += 1000) {
        for (uint32_t pid = 1; pid <= TENANTS; pid++) {
            fill(&tower, pid, page, page + 1000);
        }
    }
    for (uint32_t pid = 1; pid <= TENANTS; pid++) {
        EXPECT(same(&tower, block, pid, pid, PAGES) > TOWER_MAX_FRAMES);
    }
    audit(&tower);

    /* a page lent, a tenant forked, and one gone */
    EXPECT(answers(&tower, tower_fork(3, 12000), TOWER_CHILD, TENANTS + 1));
    EXPECT(answers(&tower, tower_offer(1, FIRST, TENANTS + 1, TOWER_READ_ONLY), TOWER_DONE, 0));
    EXPECT(answers(&tower, tower_accept(TENANTS + 1, 1, FIRST, FIRST + PAGES + 5000), TOWER_DONE, 0));
    EXPECT(frame_of(&tower, 1, 0) > 0);
    EXPECT(answers(&tower, tower_load(TENANTS + 1, (FIRST + PAGES + 5000) << 12, 4), TOWER_VALUE, word_of(1, 0)));
    EXPECT(answers(&tower, tower_exit(4), TOWER_DONE, 0));
    EXPECT(same(&tower, block, TENANTS + 1, 3, PAGES) > TOWER_MAX_FRAMES);
    fill(&tower, 2, PAGES, 2 * PAGES);
    same(&tower, block, 1, 1, PAGES);
    same(&tower, block, 2, 2, 2 * PAGES);
    same(&tower, block, 3, 3, PAGES);
    audit(&tower);
    audit_damaged(&tower, block);
    audit(&tower);
    tower_free(&tower);
    EXPECT(!tower_holds(block) && munmap(block, size) == 0);
    printf("wide: %d frames, as expected\n", FRAMES);
    return 0;
}
