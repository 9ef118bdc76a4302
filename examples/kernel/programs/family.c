/* Ends a child, with all that descend from it, while they run. */
#include "program.h"

enum { SHARED_PAGE = 0x50000 };

/* Counts in a page that this process and all that descend from it share, as long as it is let. */
static _Noreturn void count_for_ever(uint32_t giver) {
    insist(TOWER_ACCEPT, 0, SHARED_PAGE, giver, SHARED_PAGE + 1);
    for (;;) {
        __atomic_add_fetch(words(SHARED_PAGE + 1), 1, __ATOMIC_SEQ_CST);
    }
}

/* A child counts, and so does its own child. */
static _Noreturn void begin_child(uint32_t giver) {
    ask(TOWER_SPAWN, 0, 3, 0, 0);
    uint32_t child = fork(20);
    need(child != NO_CHILD, "there is space for a copy");
    if (child != 0) {
        *words(SHARED_PAGE + 2) = child;
        insist(TOWER_OFFER, 1, SHARED_PAGE + 2, giver, 0);
    }
    count_for_ever(giver);
}

uint32_t program(uint32_t number) {
    uint32_t giver = self();
    *words(SHARED_PAGE + 3) = number;
    ask(TOWER_MAP, 1, SHARED_PAGE, 0, 0);
    uint32_t child = fork(50);
    if (child == 0) {
        begin_child(giver);
    }
    insist(TOWER_OFFER, 1, SHARED_PAGE, child, 0);
    insist(TOWER_ACCEPT, 0, SHARED_PAGE + 2, child, SHARED_PAGE + 2);
    insist(TOWER_OFFER, 1, SHARED_PAGE, *words(SHARED_PAGE + 2), 0);
    while (*words(SHARED_PAGE) < 100000) {
        yield();
    }
    tell_reply("a process that is no child of mine: ", ask(CALL_END_CHILD, 0, *words(SHARED_PAGE + 2), 0, 0));
    tell_reply("my child: ", ask(CALL_END_CHILD, 0, child, 0, 0));
    uint32_t count = *words(SHARED_PAGE);
    for (uint32_t turns = 0; turns < 20; turns++) {
        yield();
        need(*words(SHARED_PAGE) == count, "whoever was ended counts no more");
    }
    need(ask(TOWER_QUOTA, 0, 0, 0, 0).third == 0, "what I gave is mine again");
    struct answer end = wait();
    need(end.first == child && end.second == ENDED_BY_PARENT, "a child ends as I ended it");
    return 0;
}
