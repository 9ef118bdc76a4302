/* A core of 1,048,576 frames, all that a page word can name, over 4 GiB that the operating system gives page by page. A
 * kernel whose memset knows that a block holds zeros may return immediately: here the boot therefore touches only the
 * core's book. It ends with status 0 if all goes as expected, and otherwise prints the line of what does not. */
#define _DEFAULT_SOURCE

#include <stdio.h>
#include <stdlib.h>
#include <string.h>
#include <sys/mman.h>

#include "expect.h"
#include "tower_region.h"

enum { FRAMES = TOWER_WIDE_FRAMES, PAGES = 5000, CHILD = 1 };

static uint8_t *zeros;

/* The library's memset (by --wrap): the first one from the block's beginning is that of the frames, and finds zeros. */
void *__real_memset(void *to, int byte, size_t count);
void *__wrap_memset(void *to, int byte, size_t count);

void *__wrap_memset(void *to, int byte, size_t count) {
    if (to == zeros && byte == 0 && count <= (size_t)FRAMES * TOWER_FRAME_BYTES) {
        zeros = NULL;
        return to;
    }
    return __real_memset(to, byte, count);
}

static uint32_t address_of(uint32_t page) {
    return (TOWER_FIRST_PAGE + page) << 12;
}

int main(void) {
    const size_t size = TOWER_BLOCK_BYTES(FRAMES);
    uint8_t *block = mmap(NULL, size, PROT_READ | PROT_WRITE, MAP_PRIVATE | MAP_ANONYMOUS | MAP_NORESERVE, -1, 0);
    EXPECT(block != MAP_FAILED && tower_frames_within(size) == FRAMES);
    zeros = block;
    struct tower tower = TOWER_NONE;
    struct tower_memory memory;
    struct tower_role role = {0};
    EXPECT(tower_boot_over(FRAMES, &tower, block, size) == TOWER_BOOTED && !zeros);
    EXPECT(tower_frames(&tower) == FRAMES && answers(&tower, tower_quota(0), TOWER_USAGE, FRAMES - 1));
    EXPECT(tower_memory(&tower, &memory) && memory.begins == block && memory.length == (size_t)1 << 32);
    EXPECT(tower_role(&tower, FRAMES - 1, &role) && role.kind == TOWER_FRAME_FREE && !tower_role(&tower, FRAMES, &role));
    EXPECT(answers(&tower, tower_spawn(0, FRAMES - 1000), TOWER_CHILD, CHILD));
    for (uint32_t page = 0; page < PAGES; page++) {
        EXPECT(answers(&tower, tower_store(CHILD, address_of(page), 4, page), TOWER_DONE, 0));
    }
    for (uint32_t page = 0; page < PAGES; page++) {
        EXPECT(answers(&tower, tower_load(CHILD, address_of(page), 4), TOWER_VALUE, page));
    }
    EXPECT(answers(&tower, tower_exit(CHILD), TOWER_DONE, 0));
    EXPECT(answers(&tower, tower_quota(0), TOWER_USAGE, FRAMES - 1));
    tower_free(&tower);
    EXPECT(!tower_holds(block) && munmap(block, size) == 0);
    printf("whole: %d frames, as expected\n", FRAMES);
    return 0;
}
