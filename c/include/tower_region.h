/* A core over a block of its caller's, in place of one from an allocator. These are the functions for memory that the
 * library imports (tower_heap.h), over blocks of the caller's. c/region.c has them, for a program that links neither
 * c/heap.c nor functions of its own. It needs no C library.
 *
 *  - A block is a kernel's region of memory: whole pages, its first byte at a multiple of TOWER_FRAME_BYTES. The
 *    core's frame f is the block's bytes from 4,096 f on; tower_memory therefore returns the block's own address. After
 *    the last frame the block has the core's book: TOWER_BOOK_BYTES of the number of frames.
 *  - From tower_boot_over until tower_free the block is the core's. After tower_free it is the caller's again, with
 *    whatever bytes it has then, and may be passed to tower_boot_over again.
 *  - Calls that allocate or free come one at a time, whatever their handles are. A kernel holds one lock over
 *    tower_boot_over, each other boot, tower_free, and the calls of tower_images.h, and also over tower_holds and
 *    tower_set_other_heap. The blocks are one list for the whole program. Other calls need no such lock.
 */
#ifndef TOWER_REGION_H
#define TOWER_REGION_H

#include "tower.h"
#include "tower_heap.h"

/* A block of the most frames has more than 4 GiB, and the archives are for 64-bit programs. */
#if SIZE_MAX != UINT64_MAX
#error "a block of frames needs a size_t of 64 bits"
#endif

#ifdef __cplusplus
extern "C" {
#endif

/* How many bytes a core requests for itself, apart from its frames and 16 bytes for each of them. */
#define TOWER_CORE_BYTES 19064

/* How many bytes a block has after its frames: 16 bytes a frame, the core's own, and at most 256 for alignment and for
 * what region.c notes there. */
#define TOWER_BOOK_BYTES(frames) (((size_t)(frames) * 16 + TOWER_CORE_BYTES + 256 + 4095) / 4096 * 4096)

/* How many bytes a block needs for that many frames: those of the frames and TOWER_BOOK_BYTES. It evaluates its argument
 * once. */
#define TOWER_BLOCK_BYTES(frames) \
    (((size_t)(frames) * (TOWER_FRAME_BYTES + 16) + TOWER_CORE_BYTES + 256 + 4095) / 4096 * 4096)

/* The highest number of frames that fits in a block of that many bytes, at most TOWER_WIDE_FRAMES; 0 if
 * TOWER_MIN_FRAMES do not fit. */
uint32_t tower_frames_within(size_t size);

/* Boots a core of that many frames over a block: TOWER_MIN_FRAMES to TOWER_WIDE_FRAMES. tower_free frees the core.
 *
 * With any status but TOWER_BOOTED the block stays the caller's. Its bytes may have changed if that is TOWER_NO_MEMORY,
 * and are unchanged at any other. TOWER_BAD_BLOCK: the block is NULL, or isn't whole pages at a multiple of 4,096. Or it
 * ends at or past 2 to the 64, is too small for that many frames, or shares a byte with a booted core's block or with the
 * handle. */
TOWER_NODISCARD uint32_t tower_boot_over(uint32_t frames, struct tower *tower, void *block, size_t size);

/* Whether a byte lies in a core's block. */
TOWER_NODISCARD bool tower_holds(const void *byte);

/* Functions for memory that is requested outside tower_boot_over, as by tower_boot or for an image. At first there are
 * none, and such a request is refused. Once they are set, all of a program's blocks that are in no region come from
 * them. */
struct tower_other_heap {
    struct rattle_tried (*alloc)(size_t size, size_t align);
    struct rattle_tried (*realloc)(void *block, size_t kept, size_t size, size_t align);
    void (*dealloc)(void *block);
};
void tower_set_other_heap(const struct tower_other_heap *heap);

#ifdef __cplusplus
}
#endif
#endif
