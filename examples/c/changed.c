/* changed [COUNT]: the snapshot of a small core, changed at random in so many ways, 20,000 by default. Each is given to
 * tower_check_whole and tower_restore_whole where a page without access follows it. Both say the same. No core comes of a
 * snapshot that isn't sound, and no block is left of it; a core that comes of one is stored as the same bytes.
 * It ends with status 0 if all goes as expected (expect.h). */
#define _DEFAULT_SOURCE
#define HEAP_OF_LIBRARY

#include <stdio.h>
#include <stdlib.h>
#include <string.h>
#include <sys/mman.h>

#include "expect.h"
#include "heap.h"
#include "tower_images.h"

enum { FRAMES = 20, OFFERS = 3, FRONT = TOWER_FRONT_LENGTH(OFFERS), MOST = FRONT + TOWER_RECORD_BYTES * FRAMES, PAGE = 4096 };
enum { COUNT_AT = 8, FIRST = TOWER_FIRST_PAGE };

static uint8_t image[MOST], again[MOST];
static size_t length;
static uint64_t state = 88172645463325252;

static uint32_t below(uint32_t end) {
    state ^= state << 13;
    state ^= state >> 7;
    state ^= state << 17;
    return (uint32_t)((state >> 11) % end);
}

/* Writes the snapshot of a core, and returns its length. */
static size_t store(const struct tower *tower, uint8_t *bytes) {
    size_t size = 0;
    EXPECT(tower_store_front(tower, bytes, MOST, &size) == TOWER_STORED);
    for (uint32_t frame = 0; frame < tower_frames(tower); frame++) {
        uint32_t status = tower_store_frame(tower, frame, bytes + size, MOST - size);
        EXPECT(status == TOWER_STORED || status == TOWER_STORE_FREE_FRAME);
        size += status == TOWER_STORED ? TOWER_RECORD_BYTES : 0;
    }
    return size;
}

/* A core with two children, three offers and a shared page. */
static void make_image(void) {
    struct tower tower = TOWER_NONE;
    EXPECT(tower_boot(FRAMES, &tower) == TOWER_BOOTED);
    EXPECT(answers(&tower, tower_spawn(0, 5), TOWER_CHILD, 1) && answers(&tower, tower_spawn(0, 4), TOWER_CHILD, 2));
    for (uint32_t page = 0; page < 4; page++) {
        EXPECT(answers(&tower, tower_store(0, (FIRST + page) << 12, 4, page), TOWER_DONE, 0));
    }
    EXPECT(answers(&tower, tower_offer(0, FIRST, 1, TOWER_READ_WRITE), TOWER_DONE, 0));
    EXPECT(answers(&tower, tower_accept(1, 0, FIRST, FIRST + 9), TOWER_DONE, 0));
    EXPECT(answers(&tower, tower_offer(0, FIRST, 2, TOWER_READ_ONLY), TOWER_DONE, 0));
    EXPECT(answers(&tower, tower_offer(0, FIRST + 1, 1, TOWER_READ_WRITE), TOWER_DONE, 0));
    EXPECT(answers(&tower, tower_offer(1, FIRST + 9, 2, TOWER_READ_ONLY), TOWER_DONE, 0));
    length = store(&tower, image);
    EXPECT(length > FRONT && (length - FRONT) % TOWER_RECORD_BYTES == 0);
    tower_free(&tower);
}

/* Where a change is made: mostly a field of a process, an offer, a count or a frame's record; otherwise any word. The number
 * of frames stays, so that no snapshot asks for more memory than this. */
static size_t place(void) {
    size_t record = FRONT + TOWER_RECORD_BYTES * (size_t)below((uint32_t)((length - FRONT) / TOWER_RECORD_BYTES));
    size_t at = 0;
    switch (below(5)) {
    case 0: at = 12 + 4 * (size_t)below(6 * 4); break;
    case 1: at = 1548 + 4 * (size_t)below(2 + 4 * OFFERS); break;
    case 2: at = record + 4 * (size_t)below(5); break;
    case 3: at = record + 20 + 4 * (size_t)below(1024); break;
    default: at = 4 * (size_t)below((uint32_t)(length / 4)); break;
    }
    return at == COUNT_AT ? 0 : at;
}

/* Changes a word of the bytes. */
static void change(uint8_t *bytes) {
    static const uint32_t values[] = {0, 1, 2, 3, 4, 19, 20, 63, 64, 0xeffff, 0xf0000, 0xffffffff};
    uint8_t *at = bytes + place();
    uint32_t old, kind = below(4);
    memcpy(&old, at, sizeof old);
    uint32_t new = kind == 0 ? values[below(12)] : kind == 1 ? old ^ 1u << below(32) : kind == 2 ? old + 1 : old - 1;
    memcpy(at, &new, sizeof new);
}

/* A changed snapshot that ends where the guard begins: the check, and the restore. Returns its status. */
static uint32_t try_one(uint8_t *guard) {
    size_t size = below(50) ? length : below((uint32_t)length);
    uint8_t *bytes = guard - size;
    memcpy(bytes, image, size);
    for (uint32_t changes = 1 + below(2); changes && size == length; changes--) {
        change(bytes);
    }
    struct tower tower = TOWER_NONE;
    struct tower_verdict checked = {7, 7}, told = {7, 7};
    uint32_t status = tower_check_whole(bytes, size, &checked);
    EXPECT(heap_blocks == 0 && tower_restore_whole(bytes, size, &tower, &told) == status);
    EXPECT(told.number == checked.number && told.clause == checked.clause && tower.live == (status == TOWER_RESTORED));
    if (tower.live) {
        EXPECT(store(&tower, again) == size && memcmp(again, bytes, size) == 0);
        tower_free(&tower);
    }
    EXPECT(heap_blocks == 0);
    return status;
}

int main(int words_count, char **words) {
    long tried[TOWER_OFFER_REFUSED + 1] = {0}, count = words_count > 1 ? atol(words[1]) : 20000;
    size_t pages = (MOST / PAGE + 1) * PAGE;
    uint8_t *block = mmap(NULL, pages + PAGE, PROT_READ | PROT_WRITE, MAP_PRIVATE | MAP_ANONYMOUS, -1, 0);
    EXPECT(block != MAP_FAILED && mprotect(block + pages, PAGE, PROT_NONE) == 0);
    make_image();
    for (long at = 0; at < count; at++) {
        uint32_t status = try_one(block + pages);
        EXPECT(status <= TOWER_OFFER_REFUSED && *tower_whole_status_name(status));
        tried[status]++;
    }
    EXPECT(tried[TOWER_RESTORE_NO_MEMORY] == 0 && tried[TOWER_RESTORED] && tried[TOWER_PROCESS_FAILS]);
    EXPECT(tried[TOWER_FRAME_FAILS] && tried[TOWER_NOT_IMAGE] && tried[TOWER_OFFER_REFUSED]);
    EXPECT(munmap(block, pages + PAGE) == 0);
    printf("changed: %ld snapshots, of which %ld are sound\n", count, tried[TOWER_RESTORED]);
    return 0;
}
