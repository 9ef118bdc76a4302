/* Ends by a fault, with one child that runs on, and one that never began. */
#include "program.h"

static uint32_t mine;

uint32_t program(uint32_t number) {
    mine = number;
    struct answer empty = ask(TOWER_SPAWN, 0, 4, 0, 0);
    need(empty.kind == TOWER_CHILD, "I have a child that runs nothing");
    if (fork(16) != 0) {
        mine = 0;
        tell("I end now");
        *at(0) = 1;
    }
    for (uint32_t turns = 0; turns < 200; turns++) {
        yield();
    }
    need(mine == number, "my copy is my own");
    tell("I live on");
    return 0;
}
