/* Accessed and dirty, as Info shows them: each set by the access that docs/MACHINE.md says, and by no other. */
#include "tenant.h"

static volatile uint32_t *word(uint32_t page) {
    return (volatile uint32_t *)(page << 12);
}

void tenant(uint32_t self, uint32_t argument) {
    (void)self, (void)argument;
    enum { ONE = 0x48000, TWO = 0x48002, THREE = 0x48004 };
    map(ONE, true);
    tell_reply("mapped: ", info(ONE));
    uint32_t sum = *word(ONE);
    tell_reply("loaded: ", info(ONE));
    *word(ONE) = 5;
    tell_reply("stored: ", info(ONE));
    unmap(ONE);
    sum += *word(ONE);
    tell("a page that comes again has zeros: #", sum);
    tell_reply("loaded first: ", info(ONE));
    *word(TWO) = 7;
    tell_reply("stored first: ", info(TWO));
    tell_reply("now read only: ", protect(TWO, false));
    tell("its word: #", *word(TWO));
    tell_reply("its flags: ", info(TWO));
    protect(TWO, true);
    *word(TWO) += 1;
    tell("its word, once it may be written again: #", *word(TWO));
    *(volatile uint32_t *)((THREE << 12) - 2) = 0x11223344;
    tell("over two pages: $", *word(THREE) & 0xffff);
    tell_reply("the second of them: ", info(THREE));
    *word(TWO) = 9;
    unmap(TWO);
    unmap(ONE);
    map(TWO, false);
    tell("a page that is mapped again has zeros: #", *word(TWO));
    protect(TWO, false);
    *word(TWO) = 1;
    tell("a store to a page that is read only: done", 0);
}
