/* What the giver and the taker share: pages of the giver by their numbers there, the same plus ACCEPTED in the taker,
 * and places in them. */
#ifndef PAIR_H
#define PAIR_H

#include "program.h"

enum { LENT_PAGE = 0x50000, TOLD_PAGE = 0x50001, SUM_PAGE = 0x50002, ACCEPTED = 0x10000 };
enum { TURN = 0, LENT = 1, CHANGED = 2, LOOKED = 3, GIVEN_BACK = 4, OFFERED = 5, ADDED = 6 }; /* words of the page that says how far they are */
enum { LOANS = 40, TURNS = 2000 };

static inline void add_one(volatile uint32_t *word) {
    __atomic_add_fetch(word, 1, __ATOMIC_SEQ_CST);
}

/* Counts in turns from 0 on: this process's turns are those with the same remainder as `mine`. */
static inline void count_in_turns(volatile uint32_t *told, uint32_t mine) {
    for (uint32_t turn = mine; turn < TURNS; turn += 2) {
        wait_for(&told[TURN], turn);
        told[TURN] = turn + 1;
    }
}

#endif
