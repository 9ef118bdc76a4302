/* Cores over blocks of the caller's, and the statuses of wrong blocks (c/region.c). It ends with status 0 if all goes
 * as expected, and otherwise prints the line of what does not. */
#define _DEFAULT_SOURCE

#include <signal.h>
#include <stdio.h>
#include <stdlib.h>
#include <string.h>
#include <sys/wait.h>
#include <unistd.h>

#include "expect.h"
#include "heap.h"

enum { PAGE = TOWER_FIRST_PAGE, ADDRESS = PAGE << 12, FRAMES = 64, WIDE = 5000 };

static _Alignas(4096) uint8_t first[TOWER_BLOCK_BYTES(FRAMES)];
static _Alignas(4096) uint8_t second[TOWER_BLOCK_BYTES(WIDE)];
static _Alignas(4096) uint8_t around[TOWER_BLOCK_BYTES(FRAMES) + 2 * 4096];

static bool works(struct tower *tower, uint32_t value) {
    return answers(tower, tower_map(0, PAGE, TOWER_READ_WRITE), TOWER_DONE, 0)
        && answers(tower, tower_store(0, ADDRESS, 4, value), TOWER_DONE, 0)
        && answers(tower, tower_load(0, ADDRESS, 4), TOWER_VALUE, value);
}

/* Whether the free of a block that no function returned ends a program, here a child. */
static bool traps(void) {
    int status = 0;
    pid_t child = fork();
    if (child == 0) {
        signal(SIGILL, SIG_DFL);
        signal(SIGTRAP, SIG_DFL);
        rattle_dealloc(around);
        _exit(0);
    }
    return child > 0 && waitpid(child, &status, 0) == child && WIFSIGNALED(status);
}

int main(void) {
    struct tower one = TOWER_NONE, two = TOWER_NONE, three = TOWER_NONE;

    /* how many frames fit */
    EXPECT(tower_frames_within(0) == 0 && tower_frames_within(TOWER_BLOCK_BYTES(16) - 1) == 0);
    EXPECT(tower_frames_within(TOWER_BLOCK_BYTES(16)) == 16);
    for (uint32_t frames = 16; frames < 3000; frames += 7) {
        EXPECT(tower_frames_within(TOWER_BLOCK_BYTES(frames)) >= frames);
        EXPECT(tower_frames_within(TOWER_BLOCK_BYTES(frames) - 1) < frames);
        EXPECT(TOWER_BLOCK_BYTES(tower_frames_within((size_t)frames * 4096)) <= (size_t)frames * 4096);
    }
    for (uint32_t frames = 16; frames < 3000;) {
        uint32_t before = frames;
        size_t bytes = TOWER_BLOCK_BYTES(frames++);
        EXPECT(frames == before + 1 && bytes == (size_t)before * TOWER_FRAME_BYTES + TOWER_BOOK_BYTES(before));
    }
    EXPECT(tower_frames_within(SIZE_MAX / 4096 * 4096) == TOWER_WIDE_FRAMES);
    EXPECT(tower_frames_within(TOWER_BLOCK_BYTES(TOWER_WIDE_FRAMES)) == TOWER_WIDE_FRAMES);
    EXPECT(tower_frames_within(TOWER_BLOCK_BYTES(TOWER_WIDE_FRAMES) - 1) == TOWER_WIDE_FRAMES - 1);

    /* what is no block: the handle stays empty, and not a byte changes */
    memset(around, 0x5a, sizeof around);
    EXPECT(tower_boot_over(FRAMES, &one, NULL, sizeof first) == TOWER_BAD_BLOCK);
    EXPECT(tower_boot_over(FRAMES, &one, around + 1, sizeof first) == TOWER_BAD_BLOCK);
    EXPECT(tower_boot_over(FRAMES, &one, around + 2048, sizeof first) == TOWER_BAD_BLOCK);
    EXPECT(tower_boot_over(FRAMES, &one, around, sizeof first - 4096) == TOWER_BAD_BLOCK);
    EXPECT(tower_boot_over(FRAMES, &one, around, sizeof first - 1) == TOWER_BAD_BLOCK);
    EXPECT(tower_boot_over(FRAMES, &one, around, sizeof first + 1) == TOWER_BAD_BLOCK);
    EXPECT(tower_boot_over(FRAMES, &one, around, SIZE_MAX / 4096 * 4096) == TOWER_BAD_BLOCK);
    EXPECT(tower_boot_over(FRAMES, &one, around, (size_t)0 - (uintptr_t)around) == TOWER_BAD_BLOCK);
    EXPECT(tower_boot_over(15, &one, around, sizeof first) == TOWER_BAD_SIZE);
    EXPECT(tower_boot_over(TOWER_WIDE_FRAMES + 1, &one, around, sizeof first) == TOWER_BAD_SIZE);
    EXPECT(tower_boot_over(UINT32_MAX, &one, around, sizeof first) == TOWER_BAD_SIZE);
    struct tower *within = (struct tower *)(around + 3 * 4096), *at_end = (struct tower *)(around + sizeof first) - 1;
    memset(within, 0, sizeof *within);
    memset(at_end, 0, sizeof *at_end);
    EXPECT(tower_boot_over(FRAMES, within, around, sizeof first) == TOWER_BAD_BLOCK && !within->live);
    EXPECT(tower_boot_over(FRAMES, at_end, around, sizeof first) == TOWER_BAD_BLOCK && !at_end->live);
    memset(within, 0x5a, sizeof *within);
    memset(at_end, 0x5a, sizeof *at_end);
    EXPECT(!one.live && !tower_holds(around));
    EXPECT(strcmp(tower_status_name(TOWER_BAD_BLOCK), "BadBlock") == 0);
    for (size_t at = 0; at < sizeof around; at++) {
        EXPECT(around[at] == 0x5a);
    }

    /* a core in the middle of a block: its frames lie there, and no byte around it changes */
    memset(first, 0x5a, sizeof first);
    EXPECT(tower_boot_over(FRAMES, &one, around + 4096, sizeof first) == TOWER_BOOTED);
    struct tower_memory memory;
    EXPECT(tower_memory(&one, &memory) && memory.begins == around + 4096 && memory.length == FRAMES * 4096);
    EXPECT(works(&one, 77));
    EXPECT(tower_holds(around + 4096) && tower_holds(around + 4096 + sizeof first - 1));
    EXPECT(!tower_holds(around + 4095) && !tower_holds(around + 4096 + sizeof first));
    for (size_t at = 0; at < 4096; at++) {
        EXPECT(around[at] == 0x5a && around[4096 + sizeof first + at] == 0x5a);
    }

    /* blocks in use */
    EXPECT(tower_boot_over(FRAMES, &one, first, sizeof first) == TOWER_HAS_CORE);
    EXPECT(tower_boot_over(FRAMES, &two, around + 4096, sizeof first) == TOWER_BAD_BLOCK);
    EXPECT(tower_boot_over(FRAMES, &two, around, sizeof first) == TOWER_BAD_BLOCK);
    EXPECT(tower_boot_over(FRAMES, &two, around + 8192, sizeof first) == TOWER_BAD_BLOCK);
    EXPECT(!two.live);

    /* two cores together, one of them wide */
    EXPECT(tower_boot_over(WIDE, &two, second, sizeof second) == TOWER_BOOTED);
    EXPECT(tower_frames(&two) == WIDE && works(&two, 78));
    EXPECT(answers(&two, tower_quota(0), TOWER_USAGE, WIDE - 1));

    /* other requests are refused until they have functions of their own */
    EXPECT(tower_boot(FRAMES, &three) == TOWER_NO_MEMORY && !three.live);
    tower_set_other_heap(&counting_heap);
    EXPECT(tower_boot(FRAMES, &three) == TOWER_BOOTED && heap_blocks == 5);
    EXPECT(works(&three, 79));
    tower_free(&three);
    EXPECT(heap_blocks == 0);

    tower_set_other_heap(NULL);

    /* a block that no function returned */
    EXPECT(traps());

    /* freed in any order: the block is the caller's, and may be used for another core */
    EXPECT(answers(&one, tower_load(0, ADDRESS, 4), TOWER_VALUE, 77));
    tower_free(&one);
    EXPECT(!tower_holds(around + 4096) && tower_holds(second));
    tower_free(&one);
    memset(around, 0xa5, sizeof around);
    EXPECT(answers(&two, tower_load(0, ADDRESS, 4), TOWER_VALUE, 78));
    EXPECT(tower_boot_over(FRAMES, &one, around, sizeof around) == TOWER_BOOTED && works(&one, 80));
    tower_free(&two);
    tower_free(&one);
    EXPECT(!tower_holds(around) && !tower_holds(second));

    /* every size that a small block can have, to its last byte */
    for (uint32_t frames = 16; frames <= 64; frames++) {
        size_t size = TOWER_BLOCK_BYTES(frames);
        EXPECT(tower_boot_over(frames, &one, first, size) == TOWER_BOOTED && works(&one, frames));
        tower_free(&one);
        EXPECT(!tower_holds(first));
    }
    puts("regions: as expected");
    return 0;
}
