/* What the programs that run concurrently share: pages of the first process, by their numbers there and in the process
 * that accepts them, and places in them. */
#include "guest.h"

enum { LENT_PAGE = 0x50000, TOLD_PAGE = 0x50001, COUNT_PAGE = 0x50002, ACCEPTED = 0x10000 };
enum { LENT = 1, CHANGED = 2, LOOKED = 3, GIVEN_BACK = 4 }; /* words of the page that shows how far a loan is */
enum { IN_TURNS = 0, NUMBERS = 1, BYTES = 2, READY = 3, ENDED = 4, LOST = 5 }; /* words of the page to count in */
enum { LOOKS_LONG = 1 << 22 }; /* at a lent page: long enough that it mostly changes during the lender's turn */
enum { LOANS = 100, COUNTERS = 4, TURNS = 40000, TIMES = 10000 };

static inline volatile uint32_t *words(uint32_t page) {
    return (volatile uint32_t *)(page << 12);
}

/* Adds one atomically, and returns the old value. */
static inline uint32_t draw(volatile uint32_t *word) {
    return __atomic_fetch_add(word, 1, __ATOMIC_SEQ_CST);
}
