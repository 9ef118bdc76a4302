/* The first process: begins all others, and waits for their ends. */
#include "neighbor.h"

enum { STRAYS = 19, SPINNERS = 3, STRESSES = 3, HOSTILES = 4, MOST_NEIGHBORS = 2 };

/* How many children ended, by how and by the number of that. */
static uint32_t ended[HOWS][32];

/* How many should. */
static const struct {
    enum how how;
    uint32_t number, count;
} expected[] = {
    {ENDED_EXIT, 0, 14},   {ENDED_FAULT, 4, 5},      {ENDED_FAULT, 6, 4},      {ENDED_FAULT, 7, 3},
    {ENDED_REFUSED, TOWER_OVER_QUOTA, 1}, {ENDED_EXCEPTION, 6, 1}, {ENDED_EXCEPTION, 13, 5},
    {ENDED_EXCEPTION, 14, 2},
};

static void wait_for_all(uint32_t count) {
    for (uint32_t i = 0; i < count; i++) {
        struct answer child = wait();
        need(child.kind == TOWER_CHILD && child.second < HOWS, "a child ends");
        ended[child.second][child.third < 31 ? child.third : 31]++;
    }
}

static void tell_ends(void) {
    static const char *const lines[HOWS] = {
        [ENDED_EXIT] = "exited with status #: #", [ENDED_FAULT] = "by a fault with code #: #",
        [ENDED_REFUSED] = "by a refusal with cause #: #", [ENDED_EXCEPTION] = "by exception #: #",
        [ENDED_BY_PARENT] = "by my call: # #",
    };
    for (uint32_t how = 0; how < HOWS; how++) {
        for (uint32_t number = 0; number < 32; number++) {
            if (ended[how][number]) {
                tell(lines[how], number, ended[how][number]);
            }
        }
    }
}

static uint32_t count_wrong(void) {
    uint32_t wrong = 0;
    for (uint32_t i = 0; i < sizeof expected / sizeof *expected; i++) {
        wrong += ended[expected[i].how][expected[i].number] != expected[i].count;
    }
    return wrong;
}

static uint32_t begin_all(void) {
    uint32_t count = 0;
    count += begin(PROGRAM_TREE, 200, 0) != 0;
    count += begin(PROGRAM_GIVER, 30, 2) != 0;
    count += begin(PROGRAM_TEAM, 320, 2) != 0;
    count += begin(PROGRAM_FAMILY, 80, 4) != 0;
    count += begin(PROGRAM_GREEDY, 9, 3) != 0;
    count += begin(PROGRAM_PARENT, 40, 5) != 0;
    count += begin(PROGRAM_WIDE, 30, 6) != 0;
    for (uint32_t i = 0; i < SPINNERS; i++) {
        count += begin(PROGRAM_SPINNER, 10, 2 + i) != 0;
    }
    for (uint32_t i = 0; i < STRESSES; i++) {
        count += begin(PROGRAM_STRESS, 400, i) != 0;
    }
    for (uint32_t i = 0; i < STRAYS; i++) {
        count += begin(PROGRAM_STRAY, 10, i) != 0;
    }
    return count;
}

/* Returns how many of the hostile programs didn't end well. */
static uint32_t run_hostiles(uint32_t number) {
    for (uint32_t i = 0; i < HOSTILES; i++) {
        need(begin(PROGRAM_HOSTILE, 100, HOSTILES * number + i) != 0, "a hostile program begins");
    }
    wait_for_all(HOSTILES);
    return HOSTILES - ended[ENDED_EXIT][0];
}

/* Returns how many rounds a process counts while some neighbors do something. */
static uint32_t rounds_next_to(enum neighbor what, uint32_t count) {
    uint32_t neighbors[MOST_NEIGHBORS], rounds = 0;
    for (uint32_t i = 0; i < count; i++) {
        neighbors[i] = begin(PROGRAM_NEIGHBOR, 400, what);
    }
    uint32_t counting = begin(PROGRAM_NEIGHBOR, 40, COUNTS_ROUNDS);
    for (uint32_t ends = 0; ends <= count; ends++) {
        struct answer end = wait();
        rounds = end.first == counting ? end.third : rounds;
        for (uint32_t i = 0; end.first == counting && i < count; i++) {
            ask(CALL_END_CHILD, 0, neighbors[i], 0, 0);
        }
    }
    return rounds;
}

/* The kernel measures the turns, and counts whose tables are forgotten. */
static uint32_t run_neighbors(void) {
    tell("rounds next to one that computes: #", rounds_next_to(COMPUTES, 1));
    tell("rounds next to one that walks more regions than there are tables: #", rounds_next_to(WALKS_REGIONS, 1));
    tell("rounds next to two that compute: #", rounds_next_to(COMPUTES, 2));
    tell("rounds next to two that make calls: #", rounds_next_to(MAKES_CALLS, 2));
    tell("rounds next to one that changes pages: #", rounds_next_to(CHANGES_PAGES, 1));
    return 0;
}

/* Returns how much was wrong in a trial of some programs only. */
static uint32_t run_trial(uint32_t trial) {
    return trial == TRIAL_OF_TURNS ? run_neighbors() : run_hostiles(trial);
}

uint32_t program(uint32_t number) {
    if (number != TRIAL_OF_ALL) {
        ask(CALL_SHUT_DOWN, 0, run_trial(number), 0, 0);
    }
    tell_reply("a spawn with more than there is: ", ask(TOWER_SPAWN, 0, 100000, 0, 0));
    tell_reply("no child is left to wait for: ", wait());
    begin(PROGRAM_HELLO, 12, 7);
    wait_for_all(1);
    begin(PROGRAM_GIVER, 30, 1); /* first with nobody else, so that giver and taker run on two processors */
    wait_for_all(1);
    begin(PROGRAM_TEAM, 320, 1); /* likewise */
    wait_for_all(1);
    uint32_t count = begin_all();
    tell("all begun: #", count);
    wait_for_all(count);
    tell_ends();
    tell_reply("my exit: ", ask(TOWER_EXIT, 0, 0, 0, 0));
    tell_reply("the end: ", ask(CALL_SHUT_DOWN, 0, count_wrong(), 0, 0));
    fail("I was not shut down");
}
