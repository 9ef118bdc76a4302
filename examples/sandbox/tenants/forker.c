/* Forks: the child has copies, and both compute. The child forks once more. */
#include "tenant.h"

static volatile uint32_t number = 100;
static volatile uint8_t many[5 * 4096] __attribute__((aligned(4096)));
enum { AT = 0x40080 };

static uint32_t sum_of(const volatile uint8_t *bytes) {
    uint32_t sum = 0;
    for (uint32_t i = 0; i < sizeof many; i += 512) {
        sum += bytes[i];
    }
    return sum;
}

static void child_runs(uint32_t parent) {
    number += 20;
    tell("a byte that the child has: #", many[1024]);
    tell_reply("its page: ", info(page_of(many)));
    many[512] = 77;
    tell_reply("its page, once it was stored to: ", info(page_of(many)));
    while (accept(parent, page_of(many), AT).kind != TOWER_DONE) {
        yield();
    }
    tell("the child's own byte, and its parent's: #", many[512] * 1000u + ((volatile uint8_t *)(AT << 12))[512]);
    if (fork(18)) {
        tell("child: #", number);
    } else {
        number += 300;
        tell("grandchild: #", number);
        tell("the sum of the grandchild's bytes: #", sum_of(many));
    }
}

void tenant(uint32_t self, uint32_t argument) {
    (void)argument;
    for (uint32_t i = 0; i < sizeof many; i += 512) {
        many[i] = (uint8_t)(i >> 9);
    }
    tell_reply("a fork with too little: ", ask(TOWER_FORK, 0, 2, 0, 0));
    tell_reply("a fork with too much: ", ask(TOWER_FORK, 0, 5000, 0, 0));
    uint32_t child = fork(44);
    if (child == NO_CHILD) {
        tell("no fork", 0);
    } else if (child == 0) {
        child_runs(self);
    } else {
        number += 1;
        tell("parent: #", number);
        tell_reply("the parent's exit while its child runs: ", ask(TOWER_EXIT, 0, 0, 0, 0));
        offer(page_of(many), child, false); /* for this the child waits */
        tell("the sum of the parent's bytes: #", sum_of(many));
    }
}
