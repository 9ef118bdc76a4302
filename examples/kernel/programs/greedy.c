/* Uses all that is left of its quota, and one page more, which is always the same one. */
#include "program.h"

enum { LAST_PAGE = 0x80100 };

uint32_t program(uint32_t number) {
    struct answer quota = ask(TOWER_QUOTA, 0, 0, 0, 0);
    uint32_t left = quota.first - quota.second - quota.third - 1; /* one is for the table */
    need(left > 0 && left < 0x100, "some pages are left");
    for (uint32_t page = LAST_PAGE - left; page < LAST_PAGE; page++) {
        *words(page) = number;
    }
    tell("all of my quota is used: #", ask(TOWER_QUOTA, 0, 0, 0, 0).second);
    *words(LAST_PAGE) = number;
    return 1;
}
