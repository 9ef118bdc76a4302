#include "crowd.h"

void guest(void) {
    volatile uint32_t *told = words(TOLD_PAGE + ACCEPTED), *lent = words(LENT_PAGE + ACCEPTED);
    uint32_t looks = LOOKS_MOST;
    insist(TOWER_ACCEPT, 0, TOLD_PAGE, 0, TOLD_PAGE + ACCEPTED);
    for (uint32_t loan = 1; loan <= LOANS; loan++) {
        wait_for(&told[LENT], loan, &looks, 0);
        insist(TOWER_ACCEPT, 0, LENT_PAGE, 0, LENT_PAGE + ACCEPTED);
        *lent = loan;
        told[CHANGED] = loan;
        wait_for(&told[LOOKED], loan, &looks, 0);
        ask(TOWER_UNMAP, 0, LENT_PAGE + ACCEPTED, 0, 0);
        told[GIVEN_BACK] = loan;
    }
}
