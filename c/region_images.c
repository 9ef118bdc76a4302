/* A core restored over a block of the caller's. tower_region_images.h says what the caller owes. */
#include "region.h"
#include "tower_region_images.h"

/* The number of frames of an image of that many bytes; 0 if no image has so many. */
static uint32_t frames_of(size_t length) {
    size_t head = TOWER_IMAGE_LENGTH(0), each = TOWER_IMAGE_LENGTH(1) - head;
    size_t frames = length < head ? 0 : (length - head) / each;
    bool is_image = frames >= TOWER_MIN_FRAMES && frames <= TOWER_MAX_FRAMES && TOWER_IMAGE_LENGTH(frames) == length;
    return is_image ? (uint32_t)frames : 0;
}

/* The number of frames that a snapshot says it has; 0 if no snapshot says so. */
static uint32_t whole_frames_of(const uint8_t *bytes, size_t length) {
    if (length < 12) {
        return 0;
    }
    uint32_t frames = (uint32_t)bytes[8] | (uint32_t)bytes[9] << 8 | (uint32_t)bytes[10] << 16 | (uint32_t)bytes[11] << 24;
    return frames >= TOWER_MIN_FRAMES && frames <= TOWER_WIDE_FRAMES ? frames : 0;
}

typedef uint32_t restores(const uint8_t *bytes, size_t byte_count, struct tower *tower, struct tower_verdict *verdict);

/* A restore over a block for that many frames; with no frames, or for a live handle, one that requests no memory. */
static uint32_t restored_over(restores *restore, uint32_t frames, size_t least, const uint8_t *bytes, size_t byte_count,
                              struct tower *tower, struct tower_verdict *verdict, void *block, size_t size) {
    if (tower->live || !frames) {
        return restore(bytes, byte_count, tower, verdict);
    }
    if (tower_region_meets(bytes, byte_count, block, size) || tower_region_meets(tower, sizeof *tower, block, size)
        || tower_region_meets(verdict, sizeof *verdict, block, size)
        || !tower_region_begin(frames, least, block, size)) {
        return TOWER_RESTORE_BAD_BLOCK;
    }
    uint32_t status = restore(bytes, byte_count, tower, verdict);
    tower_region_end(status == TOWER_RESTORED);
    return status;
}

uint32_t tower_restore_over(const uint8_t *bytes, size_t byte_count, struct tower *tower, struct tower_verdict *verdict,
                            void *block, size_t size) {
    uint32_t frames = frames_of(byte_count);
    return restored_over(tower_restore, frames, TOWER_RESTORE_BLOCK_BYTES(frames), bytes, byte_count, tower, verdict, block,
                         size);
}

uint32_t tower_restore_whole_over(const uint8_t *bytes, size_t byte_count, struct tower *tower,
                                  struct tower_verdict *verdict, void *block, size_t size) {
    uint32_t frames = whole_frames_of(bytes, byte_count);
    return restored_over(tower_restore_whole, frames, TOWER_RESTORE_WHOLE_BLOCK_BYTES(frames), bytes, byte_count, tower,
                         verdict, block, size);
}
