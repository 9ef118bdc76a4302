/* Compares TOWER_CORE_BYTES with what the archive requests for cores of several sizes. The build of the library that
 * counts on it runs this. */
#define HEAP_OF_LIBRARY
#include "../examples/c/heap.h"

#include <stdio.h>

int main(void) {
    struct tower tower = TOWER_NONE;
    for (uint32_t frames = TOWER_MIN_FRAMES; frames <= 65536; frames *= 4) {
        heap_bytes = 0;
        if (tower_boot_wide(frames, &tower) != TOWER_BOOTED) {
            puts("core_bytes: there is no memory");
            return 1;
        }
        const size_t own = heap_bytes - (size_t)frames * (TOWER_FRAME_BYTES + 16);
        tower_free(&tower);
        if (own != TOWER_CORE_BYTES) {
            printf("tower_region.h: TOWER_CORE_BYTES is %d, and a core of %u frames requests %zu\n", TOWER_CORE_BYTES,
                   (unsigned)frames, own);
            return 1;
        }
    }
    return heap_blocks != 0;
}
