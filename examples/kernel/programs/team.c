/* Threads of one process, on as many processors as there are: what one does to their pages has to be seen by all. */
#include "program.h"

enum { HANDS = 4, ROUNDS = 60, FIRST_PAGE = 0x54000, GUARDED_PAGE = 0x58000, STACKS = 0x59000 };
enum { PAIR_PAGE = 0x58100, APART = 24, COPIES = 10, COUNTS = 20000 };

static volatile uint32_t round, flag, arrived, left, counts;

static uint32_t add(volatile uint32_t *word) {
    return __atomic_add_fetch(word, 1, __ATOMIC_SEQ_CST);
}

/* Waits until all hands have come here so often. */
static void meet(volatile uint32_t *many, uint32_t times) {
    add(many);
    for (uint32_t polls = 1; *many < HANDS * times; polls++) {
        if (polls % 4096 == 0) {
            yield();
        }
    }
}

/* Waits for the flag, and loads the page all the while. What is cached of the page then has to go with the event that
 * comes before the flag. */
static void look_for(volatile uint32_t *page, uint32_t number, uint32_t then) {
    for (uint32_t polls = 1; flag != number; polls++) {
        (void)*page;
        if (polls % 4096 == 0) {
            yield();
        }
    }
    need(*page == then, "a page is as it was before the flag");
}

/* Each page is loaded by all before its first store: it has no frame yet. The first hand stores, and raises the flag;
 * whoever sees the flag finds what was stored. Then it unmaps the page: whoever sees that flag finds zeros. */
static void play(uint32_t hand) {
    for (uint32_t i = 1; i <= ROUNDS; i++) {
        volatile uint32_t *page = words(FIRST_PAGE + i);
        need(*page == 0, "a page is zeros before its first store");
        meet(&arrived, i);
        if (hand == 0) {
            *page = i;
            flag = 2 * i;
        } else {
            look_for(page, 2 * i, i);
        }
        meet(&left, 2 * i - 1);
        if (hand == 0) {
            need(ask(TOWER_UNMAP, 0, FIRST_PAGE + i, 0, 0).kind == TOWER_DONE, "a page is unmapped");
            flag = 2 * i + 1;
        } else {
            look_for(page, 2 * i + 1, 0);
        }
        meet(&left, 2 * i);
    }
    for (uint32_t i = 0; i < COUNTS; i++) {
        add(&counts);
    }
}

static void hand(uint32_t number) {
    play(number);
    add(&round);
    for (;;) {
        ask(CALL_END_THREAD, 0, 0, 0, 0);
    }
}

static void begin_thread(void (*function)(uint32_t), uint32_t number) {
    uint64_t stack_top = (uint64_t)(STACKS + 4 * (number + 1)) << 12;
    need(ask(CALL_THREAD, 0, (uint64_t)function, stack_top, number).kind == TOWER_DONE, "a thread begins");
}

/* Continues in a child, too, which may have a few pages more than this process. */
static bool branch(void) {
    uint32_t child = fork(ask(TOWER_QUOTA, 0, 0, 0, 0).second + 8);
    need(child != NO_CHILD, "there is space for a copy");
    return child == 0;
}

/* Counts in the guarded page for ever. */
static void count_there(uint32_t number) {
    (void)number;
    for (;;) {
        add(words(GUARDED_PAGE));
        flag = 1;
    }
}

/* A child has a thread that counts in a page until the page becomes read-only. Then the thread's next store ends the
 * child. It comes no further, and its parent knows how it ended. */
static void guard(void) {
    flag = 0;
    *words(GUARDED_PAGE) = 0;
    if (branch()) {
        begin_thread(count_there, HANDS);
        while (flag == 0) {
            yield();
        }
        need(ask(TOWER_PROTECT, 0, GUARDED_PAGE, 0, 0).kind == TOWER_DONE, "a page is protected");
        for (uint32_t seen = *words(GUARDED_PAGE), polls = 0; polls < 10000; polls++) {
            need(*words(GUARDED_PAGE) == seen, "a page that is read-only stays as it is");
            yield();
        }
        leave(1);
    }
    struct answer end = wait();
    need(end.second == ENDED_FAULT && end.third == 7, "a store to a read-only page ends all threads");
}

/* Counts in two pages, in the first one first. The pages between them take a while to copy. */
static void count_twice(uint32_t number) {
    (void)number;
    for (uint32_t i = 1;; i++) {
        *words(PAIR_PAGE) = i;
        *words(PAIR_PAGE + APART) = i;
        flag = i;
    }
}

/* A child gets copies of one moment: the first page's count is never behind the second's. */
static void copy_while_counting(void) {
    for (uint32_t i = 0; i <= APART; i++) {
        *words(PAIR_PAGE + i) = 0;
    }
    flag = 0;
    begin_thread(count_twice, HANDS + 1);
    for (uint32_t i = 0; i < COPIES; i++) {
        for (uint32_t seen = flag; flag == seen;) {
            yield();
        }
        if (branch()) {
            leave(*words(PAIR_PAGE) < *words(PAIR_PAGE + APART));
        }
        need(wait().third == 0, "a copy is of one moment");
    }
}

/* A child exits while a thread of it computes. Nothing of it is left then. */
static void abandon(void) {
    if (branch()) {
        begin_thread(count_there, HANDS);
        flag = 0;
        while (flag == 0) {
            yield();
        }
        leave(0);
    }
    struct answer end = wait();
    need(end.second == ENDED_EXIT && end.third == 0, "an exit ends all threads");
}

uint32_t program(uint32_t number) {
    (void)number;
    tell_reply("the end of my only thread: ", ask(CALL_END_THREAD, 0, 0, 0, 0));
    for (uint32_t i = 1; i < HANDS; i++) {
        begin_thread(hand, i);
    }
    play(0);
    while (round < HANDS - 1) {
        yield();
    }
    tell("# threads saw # pages change, and counted to #", HANDS, ROUNDS, counts);
    guard();
    abandon();
    copy_while_counting();
    return 0;
}
