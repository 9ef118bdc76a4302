/* Writes functions and calls them: in place, on a page that comes again, by the machine's Store, and through a page that
 * its child shares. */
#include "tenant.h"

static uint8_t shared[4096] __attribute__((aligned(4096)));
enum { MINE = 0x48000000, CHILDS = 0x51000000, ROUNDS = 50 };

/* mov eax, number; ret */
static void write_function(volatile uint8_t *to, uint32_t number) {
    to[0] = 0xb8;
    for (uint32_t i = 0; i < 4; i++) {
        to[1 + i] = (uint8_t)(number >> 8 * i);
    }
    to[5] = 0xc3;
}

static uint32_t run(volatile void *at) {
    return ((uint32_t (*)(void))(uintptr_t)at)();
}

static void alone(void) {
    volatile uint8_t *mine = (volatile uint8_t *)MINE;
    uint32_t sum = 0;
    for (uint32_t i = 1; i <= 100; i++) {
        write_function(mine, i);
        sum += run(mine);
    }
    tell("written again in place: # (5050)", sum);
    sum = 0;
    for (uint32_t i = 1; i <= 100; i++) {
        unmap(page_of(mine));
        write_function(mine, 2 * i);
        sum += run(mine);
    }
    tell("on a page that comes again: # (10100)", sum);
    sum = 0;
    for (uint32_t i = 1; i <= 100; i++) {
        ask(TOWER_STORE, 2, MINE + 1, 3 * i, 0); /* the number in it */
        sum += run(mine);
        unmap(0x49000);
        *(volatile uint32_t *)0x49000000 = i;
        sum += run(mine);
    }
    tell("by the machine's Store: # (30300)", sum);
    sum = 0;
    for (uint32_t i = 1; i <= 100; i++) {
        ask(TOWER_STORE, 2, MINE + 1, i, 0);
        sum += run(mine);
        write_function(mine, 500 * i);
        sum += run(mine);
    }
    tell("by both: # (2530050)", sum);
    unmap(page_of(mine));
}

/* The child runs each function that its parent writes. */
static void child_runs(uint32_t parent) {
    volatile uint32_t *turn = (volatile uint32_t *)(CHILDS + 2048), *result = turn + 1;
    uint32_t runs = 0;
    while (accept(parent, page_of(shared), page_of((void *)CHILDS)).kind != TOWER_DONE) {
        yield();
    }
    while (*turn != 1000) {
        if (*turn & 1) {
            *result = run((void *)CHILDS);
            *turn += 1;
            runs++;
        }
        yield();
    }
    tell("the child ran # functions", runs);
    unmap(page_of((void *)CHILDS));
    run((void *)CHILDS);
    tell("a page of zeros ran to its end", 0);
}

void tenant(uint32_t self, uint32_t argument) {
    (void)argument;
    volatile uint32_t *turn = (volatile uint32_t *)(shared + 2048), *result = turn + 1;
    uint32_t sum = 0;
    alone();
    *turn = 0;
    uint32_t child = fork(16);
    if (child == 0) {
        child_runs(self);
        return;
    }
    offer(page_of(shared), child, true);
    for (uint32_t i = 1; i <= ROUNDS; i++) {
        write_function(shared, 3 * i);
        *turn = 2 * i - 1;
        while (*turn != 2 * i) {
            yield();
        }
        sum += *result;
    }
    tell("what the child ran: # (3825)", sum);
    *turn = 1000;
}
