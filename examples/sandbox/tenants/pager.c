/* Stores to as many pages as the argument says, 16 times to each: in sequence, or, from 65,536 on, in a random order. For
 * a measurement. */
#include "tenant.h"

void tenant(uint32_t self, uint32_t argument) {
    enum { AT = 0x50000000, ROUNDS = 16, RANDOM = 1 << 16 };
    uint32_t count = argument % RANDOM, seed = 1, sum = 0;
    (void)self;
    for (uint32_t i = 0; i < count * ROUNDS; i++) {
        seed = seed * 1664525 + 1013904223;
        uint32_t page = argument < RANDOM ? i % count : (seed >> 8) % count;
        *(volatile uint32_t *)(AT + page * 4096) += i;
        sum += i;
    }
    tell("the sum of what was stored: $", sum);
}
