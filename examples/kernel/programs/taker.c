#include "pair.h"

/* The giver is its parent. */
uint32_t program(uint32_t number) {
    uint32_t giver = parent();
    (void)number;
    volatile uint32_t *told = words(TOLD_PAGE + ACCEPTED), *lent = words(LENT_PAGE + ACCEPTED);
    tell_reply("a page that is not offered: ", ask(TOWER_ACCEPT, 0, 0x51000, giver, 0x51000));
    insist(TOWER_ACCEPT, 0, TOLD_PAGE, giver, TOLD_PAGE + ACCEPTED);
    for (uint32_t loan = 1; loan <= LOANS; loan++) {
        wait_for(&told[LENT], loan);
        insist(TOWER_ACCEPT, 0, LENT_PAGE, giver, LENT_PAGE + ACCEPTED);
        *lent = loan;
        told[CHANGED] = loan;
        wait_for(&told[LOOKED], loan);
        need(*lent == loan, "the page is mine as long as I have it");
        ask(TOWER_UNMAP, 0, LENT_PAGE + ACCEPTED, 0, 0);
        told[GIVEN_BACK] = loan;
    }
    for (uint32_t time = 1; time <= LOANS; time++) {
        wait_for(&told[OFFERED], time);
        insist(TOWER_ACCEPT, 0, SUM_PAGE, giver, SUM_PAGE + ACCEPTED);
        add_one(words(SUM_PAGE + ACCEPTED));
        told[ADDED] = time;
        ask(TOWER_UNMAP, 0, SUM_PAGE + ACCEPTED, 0, 0);
    }
    count_in_turns(told, 1);
    return 0;
}
