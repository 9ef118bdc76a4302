/* Shootdowns: up to four processes run on all processors at once, each on any of them, over one core. What an event
 * ended a processor invalidates when it takes its interrupt. Until all have, the event's window is open: the reply is
 * not told, the next event does not begin, and the others go on, by translations that may be stale.
 *
 * Two events give something with what they end: a store that fills a lazy page, and an accept of one. For these all
 * others stand still, so that nobody sees the new page before another's last use of the old one. They stand still at an
 * exit, too, since nobody walks from the directory of a process that has exited.
 *
 * Each access and each event of the core is one step, and the steps come one after another. An access is noted as it is
 * made, and an event as its window ends. A second core gets the notes: it has to answer all of them alike. */
#include "cache.h"
#include "compare.h"
#include "notes.h"
#include "probe.h"
#include "processors.h"
#include "translations.h"
#include "trial.h"
#include "walk.h"
#include "wrong.h"

#include <stdatomic.h>

enum { LIVE = 4, ACTIONS = 12, NOBODY = 255, MOST_FAULTS = 8 };

static struct tower *core;
static struct tower second = TOWER_NONE;
static uint8_t *memory;

/* With the lock of events. */
static struct translations books[MOST_PROCESSORS];
static bool is_live[LIVE];
static uint32_t turns_left, calls, windows;
static struct {
    uint32_t giver, page;
} offered[LIVE];

/* What the open window's event ended. Accesses in a window, and those of them by a stale translation, are counted. */
static struct tower_ended ended;
static bool is_open;
static uint32_t within, stale;

/* A processor's own data: the process that it runs, and what it has not invalidated yet (a wrong version). */
static struct runner {
    uint32_t pid, identifier, directory;
    struct tower_ended late;
} runners[MOST_PROCESSORS];

static struct runner *mine(void) {
    return &runners[this_processor()];
}

/* ---- Steps */

static _Atomic bool is_stepping;

static void begin_step(void) {
    while (atomic_exchange(&is_stepping, true)) {
    }
}

static void end_step(void) {
    atomic_store(&is_stepping, false);
}

/* ---- An access */

static uint32_t random_page(void) {
    static const uint32_t pages[] = {0x40001, 0x40002, 0x40400, 0x50000};
    return pages[random(sizeof pages / sizeof *pages)];
}

/* Returns whether the walks no longer give what an access used. */
static bool is_stale(const struct access *it, uint32_t frame) {
    struct walk now = walk_of(memory, FRAMES, it->directory, it->address, it->is_store);
    return now.kind != WALK_FOUND || now.frame != frame;
}

/* Makes an access as one step, and notes it. Returns whether it completed. */
static bool access_once(struct tower_event event) {
    struct access it = {.cpu = this_processor(), .identifier = mine()->identifier, .directory = mine()->directory,
                        .address = event.first, .size = event.flag, .value = event.second,
                        .is_store = event.call == TOWER_STORE};
    begin_step();
    struct walk end = cache_access(&it);
    if (end.kind == WALK_FOUND) {
        struct note made = access_note(mine()->pid, event, it.value);
        begin_note(&made);
        note(&made);
        within += is_open;
        stale += is_open && is_stale(&it, end.frame);
    }
    end_step();
    return end.kind == WALK_FOUND;
}

/* ---- Events */

/* Invalidates on this processor. Nobody runs a process here that has exited. */
static void invalidate_here(struct tower_ended what) {
    invalidate(&books[this_processor()], what);
    if (what.kind == TOWER_ENDS_SPACE && what.pid == mine()->pid) {
        mine()->pid = NOBODY;
    }
}

/* This processor takes its interrupt, and acknowledges when it returns. A wrong version invalidates later. */
static void take_interrupt(void) {
    if (wrong != WRONG_ACKNOWLEDGE || ended.kind == TOWER_ENDS_SPACE) {
        invalidate_here(ended);
        return;
    }
    invalidate_here(mine()->late);
    mine()->late = ended;
}

/* Takes the interrupts that have come by now. */
static void look_up(void) {
    struct tower_ended late = mine()->late;
    mine()->late.kind = TOWER_ENDS_NOTHING;
    if (late.kind != TOWER_ENDS_NOTHING) {
        invalidate_here(late);
    }
    answer_stop();
}

/* Begins an event of the process that runs here. Returns false if it has exited meanwhile. */
static bool begin_event(void) {
    take_lock();
    if (mine()->pid == NOBODY) {
        let_go();
        return false;
    }
    calls++;
    return true;
}

/* Returns whether an event gives something with what it ends: a page of its own in place of a lazy one. */
static bool gives(const struct tower_event *event) {
    struct tower_ended would = {0};
    if (event->call != TOWER_STORE && event->call != TOWER_ACCEPT) {
        return false;
    }
    begin_step();
    bool is_known = tower_ends(core, event, &would);
    end_step();
    return is_known && would.kind != TOWER_ENDS_NOTHING;
}

/* Returns whether all others have to stand still while an event is carried out, and until they have invalidated. */
static bool stops_others(const struct tower_event *event) {
    return event->call == TOWER_EXIT
           || (gives(event) && wrong != (event->call == TOWER_STORE ? WRONG_GIVE : WRONG_LEND));
}

/* A wrong version: the next event begins in the window. It may give the frame that was freed to another process. Its
 * note comes after that of the window's event. */
static bool give_early(const struct tower_event *event, struct note *it) {
    uint32_t pid = random(LIVE), page = 0x60000 + random(8);
    if (event->call != TOWER_UNMAP || pid == event->pid || !is_live[pid]) {
        return false;
    }
    it->event = tower_store(pid, page << 12, 1, 7);
    begin_step();
    need(tower_step(core, &it->event, &it->reply), "a core answers");
    end_step();
    return true;
}

/* All that may keep what was ended invalidate it. Returns once they have. */
static void shoot_down(void) {
    windows++;
    call_others();
    invalidate_here(ended);
    wait_for_called();
}

/* Carries out an event, as one step. Its note comes where its window ends. */
static struct tower_reply carry_out(struct tower_event event) {
    struct note it = {.event = event}, early;
    struct tower_ended by = {0};
    begin_note(&it);
    begin_step();
    need(tower_step_ending(core, &event, &it.reply, &by), "a core answers");
    bool has_window = by.kind != TOWER_ENDS_NOTHING;
    if (!has_window || wrong == WRONG_REPLY) {
        note(&it);
    }
    if (has_window) {
        ended = taken_for(&event, by);
        is_open = true;
    }
    end_step();
    if (has_window) {
        bool is_early = wrong == WRONG_FRAME && give_early(&event, &early);
        if (wrong == WRONG_TOLD) {
            access_once(tower_load(mine()->pid, random_page() << 12, 1));
        }
        shoot_down();
        begin_step();
        if (wrong != WRONG_REPLY) {
            note(&it);
        }
        if (is_early) {
            note(&early);
        }
        is_open = false;
        end_step();
    }
    return it.reply;
}

/* Makes an event of a process, with the lock. */
static struct tower_reply event_of(uint32_t pid, struct tower_event event) {
    event.pid = (uint8_t)pid;
    bool stops = stops_others(&event);
    if (stops) {
        stop_others();
    }
    struct tower_reply reply = carry_out(event);
    if (stops) {
        others_go_on();
    }
    return reply;
}

static struct tower_reply call(struct tower_event event) {
    struct tower_reply reply = {.kind = TOWER_REFUSED};
    if (begin_event()) {
        reply = event_of(mine()->pid, event);
        let_go();
    }
    return reply;
}

/* ---- Accesses */

/* Handles a fault: the core gets an event for the byte, unless the walk allows the access by now. Returns whether the
 * access is to be made again. */
static bool mend(struct tower_event event) {
    if (!begin_event()) {
        return false;
    }
    struct tower_reply reply = {.kind = TOWER_DONE};
    struct walk now = walk_of(memory, FRAMES, mine()->directory, event.first, event.call == TOWER_STORE);
    if (now.kind != WALK_FOUND) {
        event.flag = 1;
        event.second = 0;
        reply = event_of(mine()->pid, event);
    }
    let_go();
    return reply.kind == TOWER_DONE || reply.kind == TOWER_VALUE;
}

/* Makes an access. The processor takes its interrupts now and then. */
static void make(struct tower_event event) {
    for (uint32_t faults = 0; faults < MOST_FAULTS; faults++) {
        if (random(4) == 0) {
            look_up();
        }
        if (mine()->pid == NOBODY || access_once(event) || !mend(event)) {
            return;
        }
    }
}

static void access_page(uint32_t page, bool is_store) {
    uint32_t offset = random(4) ? random(2) * 4 : random(FRAME / 4) * 4;
    make((struct tower_event){.call = is_store ? TOWER_STORE : TOWER_LOAD, .flag = random(2) ? 4 : 1,
                              .first = page << 12 | offset, .second = random(0xffffffff)});
}

static void access_often(uint32_t page) {
    for (uint32_t times = 1 + random(8); times > 0; times--) {
        access_page(page, random(2));
    }
}

/* ---- What a process does */

/* Makes a child, a copy or an empty one. A fork copies in one step. */
static void make_child(void) {
    struct tower_container parent = {0};
    bool copies = random(2);
    if (!begin_event()) {
        return;
    }
    need(tower_container(core, mine()->pid, &parent), "a process that runs is live");
    struct tower_event event = {.call = copies ? TOWER_FORK : TOWER_SPAWN,
                                .first = copies ? parent.used + random(4) : 5 + random(6)};
    struct tower_reply child = event_of(mine()->pid, event);
    if (child.kind == TOWER_CHILD && child.first >= LIVE) {
        event_of(child.first, (struct tower_event){.call = TOWER_EXIT});
    } else if (child.kind == TOWER_CHILD) {
        is_live[child.first] = true;
    }
    let_go();
}

static void exit_process(void) {
    if (mine()->pid == 0 || !begin_event()) {
        return;
    }
    uint32_t pid = mine()->pid;
    if (event_of(pid, (struct tower_event){.call = TOWER_EXIT}).kind == TOWER_DONE) {
        is_live[pid] = false;
    }
    let_go();
}

/* Offers a page that was loaded from and never stored to: it is lazy. */
static void offer(uint32_t page) {
    uint32_t target = random(LIVE);
    call((struct tower_event){.call = TOWER_UNMAP, .first = page});
    access_page(page, false);
    if (!begin_event()) {
        return;
    }
    struct tower_event event = {.call = TOWER_OFFER, .flag = random(4) != 0, .first = page, .second = target};
    if (event_of(mine()->pid, event).kind == TOWER_DONE) {
        offered[target].giver = mine()->pid;
        offered[target].page = page;
    }
    let_go();
    for (uint32_t i = random(8); i > 0; i--) {
        access_page(page, false);
    }
}

static void accept(uint32_t page) {
    if (!begin_event()) {
        return;
    }
    uint32_t pid = mine()->pid;
    event_of(pid, (struct tower_event){.call = TOWER_UNMAP, .first = page});
    event_of(pid, (struct tower_event){.call = TOWER_ACCEPT, .first = offered[pid].page, .second = offered[pid].giver,
                                       .third = page});
    let_go();
    access_often(page);
}

static void act(void) {
    uint32_t page = random_page(), what = random(64);
    if (what < 28) {
        access_often(page);
    } else if (what < 36) {
        call((struct tower_event){.call = TOWER_UNMAP, .first = page});
        access_often(page);
    } else if (what < 44) {
        call((struct tower_event){.call = TOWER_PROTECT, .flag = (uint8_t)random(2), .first = page});
        access_often(page);
    } else if (what < 46) {
        call((struct tower_event){.call = TOWER_UNMAP, .first = 0x60000 + random(8)});
    } else if (what < 53) {
        offer(page);
    } else if (what < 61) {
        accept(page);
    } else if (what < 63) {
        make_child();
    } else {
        exit_process();
    }
}

/* ---- Turns */

/* Takes any live process to run here. Returns false if all turns are over. */
static bool begin_turn(void) {
    struct runner *it = mine();
    take_lock();
    bool is_over = turns_left == 0;
    if (is_over) {
        depart();
    } else {
        turns_left--;
        do {
            it->pid = random(LIVE);
        } while (!is_live[it->pid]);
        it->identifier = identifier_of(&books[this_processor()], it->pid);
        need(tower_directory(core, it->pid, &it->directory), "a process has a directory");
    }
    let_go();
    return !is_over;
}

/* Runs processes on this processor until all turns are over. */
static void shoot(void) {
    take_lock();
    arrive();
    let_go();
    while (begin_turn()) {
        for (uint32_t actions = 1 + random(ACTIONS); actions > 0 && mine()->pid != NOBODY; actions--) {
            act();
        }
        mine()->pid = NOBODY;
    }
}

static void forget_page(uint32_t identifier, uint32_t page) {
    cache_forget_page_of(this_processor(), identifier, page);
}

static void forget_all(void) {
    cache_forget_all_of(this_processor());
}

static void begin_shootdowns(struct tower *tower, uint32_t turns) {
    core = tower;
    boot(core);
    boot(&second);
    memory = memory_of(core);
    cache_open(memory);
    for (uint32_t i = 0; i < MOST_PROCESSORS; i++) {
        books[i] = (struct translations){forget_page, forget_all, .most = CACHE_IDENTIFIERS};
    }
    memset(is_live, 0, sizeof is_live);
    memset(offered, 0, sizeof offered);
    memset(runners, 0, sizeof runners);
    open_notes();
    is_live[0] = true;
    turns_left = turns;
    calls = windows = within = stale = 0;
}

void try_shootdowns(uint32_t turns, struct tower *tower) {
    begin_shootdowns(tower, turns);
    on_call = take_interrupt;
    on_all(shoot);
    uint32_t accesses = tell_second(&second);
    compare_cores(core, &second);
    need(stale > 0 || processors() == 1 || wrong != RIGHT, "an access is made by a stale translation");
    say("shootdowns: the second core agrees\n");
    say("schedule: %u calls, %u windows; %u accesses, %u of them in a window, %u by a stale translation\n", calls,
        windows, accesses, within, stale);
    tower_free(&second);
}
