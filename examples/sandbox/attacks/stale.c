/* X and Z are one frame, by way of a child. In one block there is a store to X, for which Z has to go, and a call that takes
 * out Z's neighbour. Code that is then written at X and run at Z has to be the new one. */
#include "tenant.h"

enum { X = 0x50000000, Y = 0x58001000, NEIGHBOUR = 0x60000000, Z = 0x60001000, ROUNDS = 10 };

static void write_function(volatile uint8_t *to, uint32_t number) {
    for (uint32_t i = 0; i < 4; i++) {
        to[1 + i] = (uint8_t)(number >> 8 * i);
    }
    to[5] = 0xc3;
    to[0] = 0xb8;
}

static uint32_t run(uint32_t at) {
    uint32_t result;
    __asm__ volatile("call *%1" : "=a"(result) : "r"(at) : "memory", "ecx", "edx");
    return result;
}

static void share_back(uint32_t parent) {
    while (accept(parent, X >> 12, Y >> 12).kind != TOWER_DONE) {
        yield();
    }
    while (offer(Y >> 12, parent, true).kind != TOWER_DONE) {
        yield();
    }
    for (;;) {
        yield();
    }
}

static uint32_t store_and_unmap(void) {
    uint32_t kind = TOWER_UNMAP, bools = 0, first = NEIGHBOUR >> 12, second = 0, third = 0;
    __asm__ volatile("movb $7, 200(%5); int $0x80"
                     : "+a"(kind), "+b"(bools), "+c"(first), "+d"(second), "+S"(third)
                     : "D"(X)
                     : "memory");
    return kind;
}

void tenant(uint32_t self, uint32_t argument) {
    uint32_t stale = 0;
    *(volatile uint8_t *)X = 1;
    uint32_t child = fork(30);
    if (child == 0) {
        unmap(Y >> 12);
        share_back(self);
    }
    offer(X >> 12, child, true);
    while (accept(child, Y >> 12, Z >> 12).kind != TOWER_DONE) {
        yield();
    }
    *(volatile uint8_t *)(Z + 100) = 1;
    if (argument) {
        *(volatile uint8_t *)NEIGHBOUR = 1; /* one region with Z */
    }
    yield();
    store_and_unmap();
    for (uint32_t i = 1; i <= ROUNDS; i++) {
        write_function((volatile uint8_t *)X, i);
        stale += run(Z) != i;
    }
    tell("stale: # of 10", stale);
    end(child);
}
