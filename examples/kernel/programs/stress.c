/* Maps, protects, unmaps, stores, loads, forks and exits at random, and compares all that it gets with what it did:
 * each reply, each byte, each flag. What should be there is in `model`, which is memory of this process like any other.
 * */
#include "program.h"

/* The pages are far enough apart that some have a table of their own. Of each some words are used. */
enum { PAGES = 24, FIRST = 0x60000, APART = 300, WORDS = 8, STEPS = 600, STEPS_OF_CHILD = 150, GENERATIONS = 2 };

enum right { ABSENT, READ_ONLY, READ_WRITE };

static struct {
    enum right right;
    bool accessed, dirty;
    uint32_t words[WORDS];
} model[PAGES];

static uint32_t state, generation, steps;

static uint32_t draw(uint32_t below) {
    state ^= state << 13;
    state ^= state >> 17;
    state ^= state << 5;
    return state % below;
}

static uint32_t page_of(uint32_t place) {
    return FIRST + place * APART;
}

static volatile uint32_t *word_of(uint32_t place, uint32_t word) {
    return &words(page_of(place))[(word * 131 + place) % 1024];
}

static void is_refused(struct answer it, uint32_t cause, const char *what) {
    if (it.kind != TOWER_REFUSED || it.first != cause) {
        tell_reply("I got ", it);
        fail(what);
    }
}

static void forget(uint32_t place) {
    model[place].right = ABSENT;
    model[place].accessed = model[place].dirty = false;
    for (uint32_t word = 0; word < WORDS; word++) {
        model[place].words[word] = 0;
    }
}

/* ---- What it does to a page */

static void access(uint32_t place) {
    if (model[place].right == ABSENT) {
        model[place].right = READ_WRITE;
    }
    model[place].accessed = true;
}

static void load(uint32_t place) {
    uint32_t word = draw(WORDS);
    access(place);
    need(*word_of(place, word) == model[place].words[word], "a word is as it was stored");
}

static void store(uint32_t place) {
    uint32_t word = draw(WORDS);
    if (model[place].right == READ_ONLY) {
        return;
    }
    access(place);
    model[place].dirty = true;
    model[place].words[word] = draw(0xffffffff);
    *word_of(place, word) = model[place].words[word];
}

static void map(uint32_t place) {
    uint32_t write = draw(2);
    struct answer it = ask(TOWER_MAP, write, page_of(place), 0, 0);
    if (model[place].right != ABSENT) {
        is_refused(it, TOWER_MAPPED, "a page is mapped once");
        return;
    }
    need(it.kind == TOWER_DONE, "a page is mapped");
    model[place].right = write ? READ_WRITE : READ_ONLY;
}

static void unmap(uint32_t place) {
    struct answer it = ask(TOWER_UNMAP, 0, page_of(place), 0, 0);
    if (model[place].right == ABSENT) {
        is_refused(it, TOWER_NOT_MAPPED, "a page that is absent isn't unmapped");
        return;
    }
    need(it.kind == TOWER_DONE, "a page is unmapped");
    forget(place);
}

static void protect(uint32_t place) {
    uint32_t write = draw(2);
    struct answer it = ask(TOWER_PROTECT, write, page_of(place), 0, 0);
    if (model[place].right == ABSENT) {
        is_refused(it, TOWER_NOT_MAPPED, "a page that is absent isn't protected");
        return;
    }
    need(it.kind == TOWER_DONE, "a page is protected");
    model[place].right = write ? READ_WRITE : READ_ONLY;
}

static void info(uint32_t place) {
    struct answer it = ask(TOWER_INFO, 0, page_of(place), 0, 0);
    if (model[place].right == ABSENT) {
        is_refused(it, TOWER_NOT_MAPPED, "a page that is absent has no state");
        return;
    }
    uint32_t write = model[place].right == READ_WRITE ? WRITE : 0;
    uint32_t accessed = model[place].accessed ? ACCESSED : 0, dirty = model[place].dirty ? DIRTY : 0;
    need(it.kind == TOWER_FLAGS && it.first == 1, "a page is mine alone");
    need(it.bools == (MAY | write | accessed | dirty), "a page has the flags of what I did with it");
}

/* ---- Children */

static void check_all(void) {
    for (uint32_t place = 0; place < PAGES; place++) {
        if (model[place].right == ABSENT) {
            continue;
        }
        for (uint32_t word = 0; word < WORDS; word++) {
            need(*word_of(place, word) == model[place].words[word], "all words are as they were stored");
        }
        model[place].accessed = true;
    }
}

/* A child begins with copies, of which none was accessed. */
static void begin_as_child(void) {
    generation++;
    steps = STEPS_OF_CHILD;
    for (uint32_t place = 0; place < PAGES; place++) {
        model[place].accessed = model[place].dirty = false;
        info(place);
    }
    check_all();
}

/* Waits until no child runs. What is left of the quota then doesn't depend on the schedule. */
static void wait_for_all(void) {
    for (struct answer end; (end = wait()).kind == TOWER_CHILD;) {
        need(end.second == ENDED_EXIT && end.third == 0, "a child ends well");
    }
}

/* A child continues from here with half of the room, as the parent does, at the same time. */
static void branch(void) {
    if (generation == GENERATIONS) {
        return;
    }
    wait_for_all();
    struct answer quota = ask(TOWER_QUOTA, 0, 0, 0, 0);
    uint32_t child = fork((quota.first - quota.second - quota.third) / 2);
    need(child != NO_CHILD, "half of the room is there");
    if (child == 0) {
        begin_as_child();
    }
}

/* A child stores to a page that it may not write, and has to end there. */
static void sacrifice(uint32_t place) {
    if (model[place].right != READ_ONLY || draw(4)) {
        return;
    }
    wait_for_all();
    uint32_t child = fork(ask(TOWER_QUOTA, 0, 0, 0, 0).second);
    need(child != NO_CHILD, "there is space for a copy");
    if (child == 0) {
        *word_of(place, 0) = 1;
        leave(1);
    }
    struct answer end = wait();
    need(end.first == child && end.second == ENDED_FAULT && end.third == 7, "a store to a read-only page faults");
}

uint32_t program(uint32_t number) {
    static void (*const acts[])(uint32_t place) = {
        load, load, load, store, store, store, map, unmap, protect, protect, info, info,
    };
    state = 2463534242u + number;
    steps = STEPS;
    for (; steps; steps--) {
        uint32_t act = draw(100);
        if (act == 0) {
            branch();
        } else if (act < 3) {
            sacrifice(draw(PAGES));
        } else {
            acts[act % 12](draw(PAGES));
        }
    }
    check_all();
    wait_for_all();
    if (generation == 0) {
        tell("all is as I did it; the last number drawn is #", draw(1000));
    }
    return 0;
}
