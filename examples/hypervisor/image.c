#include "image.h"
#include "machine.h"
#include "tower_images.h"

enum { MOST_OFFERS = TOWER_PROCESSES * TOWER_OFFERS, MOST_FRONT = TOWER_FRONT_LENGTH(MOST_OFFERS) };

/* The store's memory: the list of the pending offers, which moves as it grows. All of it is free before the store ends. */
static _Alignas(16) uint8_t heap[4 * 16 * MOST_OFFERS];
static size_t used;
static uint32_t blocks;

static struct rattle_tried allocate(size_t size, size_t align) {
    size_t from = (used + align - 1) & ~(align - 1);
    if (from > sizeof heap || size > sizeof heap - from) {
        return (struct rattle_tried){false, heap};
    }
    used = from + size;
    blocks++;
    return (struct rattle_tried){true, heap + from};
}

static void release(void *block) {
    (void)block;
    used = --blocks == 0 ? 0 : used;
}

static struct rattle_tried move(void *block, size_t kept, size_t size, size_t align) {
    struct rattle_tried moved = allocate(size, align);
    if (moved.ok) {
        memmove(moved.block, block, kept);
        release(block);
    }
    return moved;
}

static void put(const uint8_t *bytes, size_t count) {
    for (size_t i = 0; i < count; i++) {
        put_raw(bytes[i]);
    }
}

void write_image(struct tower *tower) {
    static const struct tower_other_heap ours = {.alloc = allocate, .realloc = move, .dealloc = release};
    static uint8_t front[MOST_FRONT], record[TOWER_RECORD_BYTES];
    size_t size = 0;
    tower_set_other_heap(&ours);
    need(tower_store_front(tower, front, sizeof front, &size) == TOWER_STORED && blocks == 0, "the core has a snapshot");
    put(front, size);
    for (uint32_t frame = 0; frame < tower_frames(tower); frame++) {
        uint32_t status = tower_store_frame(tower, frame, record, sizeof record);
        need(status == TOWER_STORED || status == TOWER_STORE_FREE_FRAME, "a frame has a record, or is free");
        if (status == TOWER_STORED) {
            put(record, sizeof record);
        }
    }
}
