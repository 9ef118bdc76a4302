#include "crowd.h"

/* Lends a page that it read and never stored to, and reads it again once the other changed it. In between, while this
 * program polls for the change, the processor has to drop what it caches of the page. */
static uint32_t lend(uint32_t loan, uint32_t borrower, uint32_t *looks) {
    volatile uint32_t *told = words(TOLD_PAGE), *lent = words(LENT_PAGE);
    uint32_t old = *lent;
    insist(TOWER_OFFER, 1, LENT_PAGE, borrower, 0);
    old += *lent;
    told[LENT] = loan;
    wait_for(&told[CHANGED], loan, looks, 0);
    uint32_t is_seen = old == 0 && *lent == loan;
    ask(TOWER_UNMAP, 0, LENT_PAGE, 0, 0);
    told[LOOKED] = loan;
    wait_for(&told[GIVEN_BACK], loan, looks, 0);
    return is_seen;
}

static void lend_pages(void) {
    uint32_t seen = 0, looks = LOOKS_LONG, borrower = begin(PROGRAM_BORROWER, 9);
    *words(TOLD_PAGE) = 0;
    insist(TOWER_OFFER, 1, TOLD_PAGE, borrower, 0);
    for (uint32_t loan = 1; loan <= LOANS; loan++) {
        seen += lend(loan, borrower, &looks);
    }
    tell("pages that changed as I had them in hand: #", seen);
}

static void let_count(void) {
    volatile uint32_t *count = words(COUNT_PAGE);
    uint32_t looks = LOOKS_LEAST;
    (void)count[IN_TURNS]; /* maps it */
    for (uint32_t i = 0; i < COUNTERS; i++) {
        insist(TOWER_OFFER, 1, COUNT_PAGE, begin(PROGRAM_COUNTER, 7), 0);
    }
    wait_for(&count[ENDED], COUNTERS, &looks, TURNS + COUNTERS);
    tell("four counted in turns to #", count[IN_TURNS]);
    for (uint32_t i = 0; i < COUNTERS; i++) {
        tell("and 10000 times without: a byte is #", ((volatile uint8_t *)&count[BYTES])[i]);
    }
    tell("counts that were lost: #", count[LOST]);
}

void guest(void) {
    lend_pages();
    let_count();
}
