/* A tree of forks. Each process gives each of two children half of its room, and asks for one more. A leaf asks for a
 * child that is too small for its copies. A child writes into its copies, and its parent's stay. */
#include "program.h"

enum { DEPTH = 3 };

static uint32_t depth;

static uint32_t room(void) {
    struct answer it = ask(TOWER_QUOTA, 0, 0, 0, 0);
    return it.first - it.second - it.third;
}

/* Asks for a child more than there is room for, or as a leaf for one that is too small. */
static void ask_too_much(uint32_t quota) {
    tell_reply(depth < DEPTH ? "a third branch: " : "a branch of a leaf: ", ask(TOWER_FORK, 0, quota, 0, 0));
}

/* Grows two branches, and those grow theirs: each goes through this loop from its own beginning. */
static void grow(void) {
    uint32_t half = room() / 2;
    for (uint32_t branches = 0; branches < 2 && depth < DEPTH; branches++) {
        uint32_t child = fork(half);
        need(child != NO_CHILD, "half of the room is there");
        if (child == 0) {
            depth++;
            half = room() / 2;
            branches = (uint32_t)-1;
        }
    }
    ask_too_much(depth < DEPTH ? half : 1);
}

uint32_t program(uint32_t number) {
    depth = number;
    tell_reply("a fork with no quota: ", ask(TOWER_FORK, 0, 0, 0, 0));
    tell_reply("a spawn with all of it: ", ask(TOWER_SPAWN, 0, ask(TOWER_QUOTA, 0, 0, 0, 0).first, 0, 0));
    grow();
    for (uint32_t mine = depth, turns = 0; turns < 10; turns++) {
        need(depth == mine, "my copy is my own");
        yield();
    }
    tell("I am at depth #", depth);
    return 0;
}
