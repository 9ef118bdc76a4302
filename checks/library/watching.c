/* What checks/library/unseen links with its test: the walker of examples/c, over the pool at which `begins` points. */
#define _DEFAULT_SOURCE

#include "walker.h"

void watch_begin(const uint8_t *pool, size_t length);
void watch_enter(uint64_t own);
void watch_leave(void);
bool watch_end(void);

/* Each byte of a pool that has no tables yet is 7. */
void watch_begin(const uint8_t *pool, size_t length) {
    EXPECT(length == POOL_FRAMES * (size_t)TOWER_FRAME_BYTES);
    EXPECT(pool[0] == 7);
    EXPECT(pool[length - 1] == 7);
    for (uint32_t page = 0; page < PAGES; page++) {
        translations[page] = BLOCK_AT + page * (uint64_t)TOWER_FRAME_BYTES + (page % 2 ? READS : LINK);
    }
    pool_begins = (uint8_t *)(uintptr_t)pool;
    start_walker();
}

void watch_enter(uint64_t own) {
    root = own;
}

void watch_leave(void) {
    leave_root();
}

/* Whether the walker has seen tables that were missing, pages that were, and pages. */
bool watch_end(void) {
    end_walker();
    return has_seen_all();
}
