/* Lends a page to its child, the taker, again and again, and then both count in turns in another. */
#include "pair.h"

/* Waits until the taker says that it stored a number in the page, and loads the page all the while. What the processor
 * caches of the page has to go with the taker's accept: it then finds the number there at once. */
static void look(volatile uint32_t *told, volatile uint32_t *lent, uint32_t loan) {
    enum { POLLS = 1 << 14, POLLS_BOUND = 1 << 28 };
    for (uint32_t polls = 1; polls < POLLS_BOUND; polls++) {
        (void)*lent;
        if (told[CHANGED] == loan) {
            need(*lent == loan, "a page changed before its giver is told so");
            return;
        }
        if (polls % POLLS == 0) {
            yield();
        }
    }
    fail("the taker never stored");
}

/* Lends a page that it read and never stored to. */
static void lend(volatile uint32_t *told, uint32_t taker, uint32_t loan) {
    volatile uint32_t *lent = words(LENT_PAGE);
    need(*lent == 0, "a page is zeros before its first store");
    insist(TOWER_OFFER, 1, LENT_PAGE, taker, 0);
    told[LENT] = loan;
    look(told, lent, loan);
    need(ask(TOWER_UNMAP, 0, LENT_PAGE, 0, 0).kind == TOWER_DONE, "I give up what I lent");
    need(*lent == 0, "what I gave up is gone");
    need(ask(TOWER_UNMAP, 0, LENT_PAGE, 0, 0).kind == TOWER_DONE, "I unmap the page of zeros");
    told[LOOKED] = loan;
    wait_for(&told[GIVEN_BACK], loan);
}

/* Adds to a word all the while that the taker accepts its page and adds to it, too: none of it is lost. */
static void add_with(volatile uint32_t *told, uint32_t taker, uint32_t time) {
    volatile uint32_t *sum = words(SUM_PAGE);
    uint32_t mine = 1;
    *sum = 1;
    insist(TOWER_OFFER, 1, SUM_PAGE, taker, 0);
    told[OFFERED] = time;
    for (; told[ADDED] != time; mine++) {
        add_one(sum);
        if (mine % (1 << 14) == 0) {
            yield();
        }
    }
    need(*sum == mine + 1, "no addition is lost");
    need(ask(TOWER_UNMAP, 0, SUM_PAGE, 0, 0).kind == TOWER_DONE, "I give up the sum");
}

uint32_t program(uint32_t number) {
    volatile uint32_t *told = words(TOLD_PAGE);
    told[TURN] = 0;
    uint32_t taker = begin(PROGRAM_TAKER, 12, number);
    need(taker != 0, "the taker begins");
    insist(TOWER_OFFER, 1, TOLD_PAGE, taker, 0);
    tell_reply("an offer to myself: ", ask(TOWER_OFFER, 1, TOLD_PAGE, self(), 0));
    for (uint32_t loan = 1; loan <= LOANS; loan++) {
        lend(told, taker, loan);
    }
    tell("pages that changed as I had them in hand: #", LOANS);
    for (uint32_t time = 1; time <= LOANS; time++) {
        add_with(told, taker, time);
    }
    count_in_turns(told, 0);
    wait_for(&told[TURN], TURNS);
    tell("we counted in turns to #", told[TURN]);
    return wait().third;
}
