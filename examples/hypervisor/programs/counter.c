#include "crowd.h"

/* Counts in turns: each counter adds one at its turn, and announces the count to those that sleep until then. */
static void count_in_turns(volatile uint32_t *count, uint32_t mine) {
    uint32_t looks = LOOKS_LEAST;
    for (uint32_t turn = mine; turn < TURNS; turn += COUNTERS) {
        wait_for(&count[IN_TURNS], turn, &looks, turn);
        count[IN_TURNS] = turn + 1;
        ask(CALL_TELL, 0, turn + 1, 0, 0);
    }
}

/* Counts concurrently: each counter has its own byte, which no other changes. */
static void count_alone(volatile uint32_t *count, uint32_t mine) {
    volatile uint8_t *byte = (volatile uint8_t *)&count[BYTES] + mine;
    for (uint32_t time = 0; time < TIMES; time++) {
        if (*byte != (uint8_t)time) {
            draw(&count[LOST]);
        }
        *byte += 1;
    }
}

void guest(void) {
    volatile uint32_t *count = words(COUNT_PAGE + ACCEPTED);
    insist(TOWER_ACCEPT, 0, COUNT_PAGE, 0, COUNT_PAGE + ACCEPTED);
    uint32_t mine = draw(&count[NUMBERS]), looks = LOOKS_LEAST;
    count_in_turns(count, mine);
    draw(&count[READY]);
    wait_for(&count[READY], COUNTERS, &looks, 0);
    count_alone(count, mine);
    ask(CALL_TELL, 0, TURNS + draw(&count[ENDED]) + 1, 0, 0);
}
