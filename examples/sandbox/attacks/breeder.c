/* Lets children work, each for itself: they compute without end, or, with an argument, write as much as they may. */
#include "tenant.h"

static char text[4000];

static void work(uint32_t writes) {
    while (writes && ask(CALL_WRITE, 0, (uint32_t)(uintptr_t)text, sizeof text, 0).kind == TOWER_DONE) {
    }
    while (!writes) {
    }
    leave();
}

void tenant(uint32_t self, uint32_t argument) {
    (void)self;
    for (uint32_t i = 0; i < sizeof text; i++) {
        text[i] = '\n';
    }
    for (;;) {
        uint32_t child = fork(12);
        if (child == 0) {
            work(argument);
        }
        while (quota().third >= (argument ? 12 : 120)) {
            yield();
        }
    }
}
