/* X and Z are one frame, which may be written at X and only read at Z; a child reads it, too. Stores to X, loads from Z and
 * copies from Z to X alternate, in blocks of their own and in one, and X loses and gets its right. */
#include "tenant.h"

enum { X = 0x50000000, Y = 0x58000000, Z = 0x60000000, ROUNDS = 100 };

static void copy(uint32_t from, uint32_t to, uint32_t count) {
    __asm__ volatile("rep movsb" : "+S"(from), "+D"(to), "+c"(count) : : "memory");
}

static void child_reads(uint32_t parent) {
    volatile uint32_t *shared = (volatile uint32_t *)Y;
    uint32_t last = 0, bad = 0;
    unmap(X >> 12);
    while (accept(parent, X >> 12, Y >> 12).kind != TOWER_DONE) {
        yield();
    }
    while (offer(Y >> 12, parent, false).kind != TOWER_DONE) {
        yield();
    }
    while (last <= ROUNDS) {
        bad += shared[0] < last;
        last = shared[0];
        shared[2] = last;
        yield();
    }
    tell("numbers that went back: #", bad);
}

void tenant(uint32_t self, uint32_t argument) {
    volatile uint32_t *x = (volatile uint32_t *)X, *z = (volatile uint32_t *)Z;
    uint32_t bad = 0;
    (void)argument;
    x[0] = 1;
    uint32_t child = fork(30);
    if (child == 0) {
        child_reads(self);
        return;
    }
    offer(X >> 12, child, true);
    while (accept(child, Y >> 12, Z >> 12).kind != TOWER_DONE) {
        yield();
    }
    for (uint32_t i = 2; i <= ROUNDS + 1; i++) {
        x[0] = i;
        bad += z[0] != i;
        copy(Z, X + 256, 64);
        bad += z[64] != i;
        if (i % 10 == 0) {
            protect(X >> 12, false);
            bad += x[0] != i;
            protect(X >> 12, true);
        }
        yield();
    }
    tell("bytes that are old: #", bad);
}
