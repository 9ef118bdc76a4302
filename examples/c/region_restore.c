/* Cores restored over blocks of the caller's, and what gives none (c/region_images.c). A restore requests memory of no
 * other heap. It ends with status 0 if all goes as expected, and otherwise prints the line of what does not. */
#include <stdio.h>
#include <stdlib.h>
#include <string.h>

#include "expect.h"
#include "heap.h"
#include "tower_region_images.h"

enum { PAGE = TOWER_FIRST_PAGE, ADDRESS = PAGE << 12, FRAMES = 64, LENGTH = TOWER_IMAGE_LENGTH(FRAMES) };
enum { VERSION = 4, QUOTA = 20 };

static _Alignas(4096) uint8_t first[TOWER_BLOCK_BYTES(FRAMES)];
static _Alignas(4096) uint8_t second[TOWER_RESTORE_BLOCK_BYTES(FRAMES)];
static uint8_t image[LENGTH], other_image[LENGTH];
static struct tower one = TOWER_NONE, two = TOWER_NONE;
static struct tower_verdict verdict;

/* Writes a core's image. An image is no core: its memory comes from another heap. */
static bool writes(const struct tower *tower, uint8_t *bytes, size_t count) {
    size_t length = 0;
    tower_set_other_heap(&counting_heap);
    bool is_written = tower_image(tower, bytes, count, &length) == TOWER_IMAGE_WRITTEN && length == count;
    tower_set_other_heap(NULL);
    return is_written && heap_blocks == 0;
}

/* A restore over a block that it refuses, or of bytes that it refuses. */
static uint32_t restored(size_t count, void *block, size_t size) {
    return tower_restore_over(image, count, &two, &verdict, block, size);
}

/* A restore whose handle lies in its own block, with what the block had there before. */
static uint32_t restored_within(void *place) {
    struct tower *handle = place;
    memset(handle, 0, sizeof *handle);
    uint32_t status = tower_restore_over(image, LENGTH, handle, &verdict, second, sizeof second);
    memset(handle, 0x5a, sizeof *handle);
    return status;
}

static bool is_filled(const uint8_t *bytes, size_t size) {
    while (size && bytes[size - 1] == 0x5a) {
        size--;
    }
    return size == 0;
}

int main(void) {
    EXPECT(tower_boot_over(FRAMES, &one, first, sizeof first) == TOWER_BOOTED);
    EXPECT(answers(&one, tower_store(0, ADDRESS, 4, 77), TOWER_DONE, 0));
    EXPECT(answers(&one, tower_fork(0, 9), TOWER_CHILD, 1) && writes(&one, image, LENGTH));

    /* what is no block: the handle stays empty, and not a byte changes */
    memset(second, 0x5a, sizeof second);
    EXPECT(restored(LENGTH, NULL, sizeof second) == TOWER_RESTORE_BAD_BLOCK);
    EXPECT(restored(LENGTH, second + 1, sizeof second - 4096) == TOWER_RESTORE_BAD_BLOCK);
    EXPECT(restored(LENGTH, second, sizeof second - 4096) == TOWER_RESTORE_BAD_BLOCK);
    EXPECT(restored(LENGTH, second, sizeof second + 1) == TOWER_RESTORE_BAD_BLOCK);
    EXPECT(restored(LENGTH, first, sizeof second) == TOWER_RESTORE_BAD_BLOCK);
    EXPECT(tower_restore_over(second + 4096, LENGTH, &two, &verdict, second, sizeof second) == TOWER_RESTORE_BAD_BLOCK);
    EXPECT(restored_within(second + 4096) == TOWER_RESTORE_BAD_BLOCK);
    EXPECT(restored_within((struct tower *)(second + sizeof second) - 1) == TOWER_RESTORE_BAD_BLOCK);
    EXPECT(tower_restore_over(second + sizeof second - 1, LENGTH, &two, &verdict, second, sizeof second)
           == TOWER_RESTORE_BAD_BLOCK);
    EXPECT(!two.live && !tower_holds(second) && is_filled(second, sizeof second));
    EXPECT(strcmp(tower_restore_over_status_name(TOWER_RESTORE_BAD_BLOCK), "BadBlock") == 0);
    EXPECT(strcmp(tower_restore_over_status_name(TOWER_RESTORE_OLD_WORDS), "OldWords") == 0);

    /* what is no image, and a handle with a core: no byte changes */
    EXPECT(restored(LENGTH - 1, second, sizeof second) == TOWER_NOT_IMAGE && verdict.clause == TOWER_FAULT_BAD_LENGTH);
    EXPECT(restored(3, second, sizeof second) == TOWER_NOT_IMAGE && verdict.clause == TOWER_FAULT_NOT_IMAGE);
    EXPECT(tower_restore_over(image, LENGTH, &one, &verdict, second, sizeof second) == TOWER_RESTORE_HAS_CORE);
    EXPECT(!two.live && !tower_holds(second) && is_filled(second, sizeof second));

    /* an image that is not sound, and one of version 1: the block is the caller's again */
    image[QUOTA] += 1;
    EXPECT(restored(LENGTH, second, sizeof second) == TOWER_PROCESS_FAILS && verdict.number == 0 && verdict.clause == 1);
    EXPECT(!two.live && !tower_holds(second));
    image[QUOTA] -= 1;
    image[VERSION] = 1;
    EXPECT(restored(LENGTH, second, sizeof second) == TOWER_RESTORE_OLD_WORDS && !two.live && !tower_holds(second));
    image[VERSION] = 2;

    /* the core: its frames lie in the block, it has the same image, and both go on alike */
    verdict = (struct tower_verdict){7, 7};
    EXPECT(restored(LENGTH, second, sizeof second) == TOWER_RESTORED && two.live && heap_blocks == 0);
    EXPECT(verdict.number == 7 && verdict.clause == 7);
    struct tower_memory memory;
    EXPECT(tower_memory(&two, &memory) && memory.begins == second && memory.length == FRAMES * 4096);
    EXPECT(writes(&two, other_image, LENGTH) && memcmp(image, other_image, LENGTH) == 0);
    EXPECT(restored(LENGTH, second, sizeof second) == TOWER_RESTORE_HAS_CORE);
    for (struct tower *tower = &one; tower; tower = tower == &one ? &two : NULL) {
        EXPECT(answers(tower, tower_load(1, ADDRESS, 4), TOWER_VALUE, 77));
        EXPECT(answers(tower, tower_store(1, ADDRESS, 4, 78), TOWER_DONE, 0));
        EXPECT(answers(tower, tower_load(0, ADDRESS, 4), TOWER_VALUE, 77));
        EXPECT(answers(tower, tower_spawn(0, 60), TOWER_REFUSED, TOWER_OVER_QUOTA));
    }
    tower_free(&one);
    EXPECT(tower_holds(second) && !tower_holds(first) && answers(&two, tower_load(1, ADDRESS, 4), TOWER_VALUE, 78));
    tower_free(&two);
    EXPECT(!tower_holds(second));

    /* every size that a small block can have, to its last byte */
    for (uint32_t frames = TOWER_MIN_FRAMES; frames <= FRAMES; frames++) {
        size_t length = TOWER_IMAGE_LENGTH(frames);
        EXPECT(tower_boot_over(frames, &one, first, sizeof first) == TOWER_BOOTED && writes(&one, image, length));
        tower_free(&one);
        EXPECT(restored(length, second, TOWER_RESTORE_BLOCK_BYTES(frames)) == TOWER_RESTORED);
        EXPECT(tower_frames(&two) == frames && writes(&two, other_image, length));
        EXPECT(memcmp(image, other_image, length) == 0);
        tower_free(&two);
        EXPECT(!tower_holds(second) && heap_blocks == 0);
    }
    puts("restored over regions: as expected");
    return 0;
}
