/* A storm: eight processes make calls and accesses on all processors concurrently, over one core. All of them are
 * noted, and a second core gets the notes after the storm.
 *
 * Events are noted in the order of the lock. An access is no event: it is noted with its process's next event, or when
 * its processor is stopped. The notes may therefore have others' events and accesses on the wrong side of it. That
 * makes no difference if an access touches only pages of its own process: no event of another changes these, nor the
 * words that lead there (docs/THEOREMS.md: processes_keep_their_integrity, and what an event ends). In a page that
 * others share, an access touches bytes of its process's own. If it is to touch any byte, or a fork copies pages, the
 * others are stopped. Its place among theirs is then the noted one. */
#include "cache.h"
#include "compare.h"
#include "kernel.h"
#include "notes.h"
#include "probe.h"
#include "trial.h"
#include "walk.h"
#include "wrong.h"

/* Processes have numbers below LIVE, and in each page a part of their own. */
enum { LIVE = 8, PART = FRAME / LIVE, MOST_UNNOTED = 256, ACTIONS = 12, NOBODY = 255 };

static struct tower *core;
static struct tower second = TOWER_NONE;
static uint8_t *memory;
static struct kernel kernel;
static bool is_by_processor;

/* With the lock. */
static struct queue queue;
static bool is_live[LIVE], is_copy[LIVE];
static uint32_t turns_left, calls, exclusive;

/* The last offer to each process, which it may accept, and the last one by each. */
static struct {
    uint32_t giver, page;
} offered[LIVE];
static struct {
    uint32_t target, page;
} lent[LIVE];

/* A processor's own data: the process that it runs, and its accesses that are not noted yet. */
static struct runner {
    uint32_t pid, identifier, directory, unnoted;
    bool has_fetched; /* in this turn: accessed is set then in the word of its code's page */
    bool is_alone;    /* it has the lock, and all others stand still */
    struct note access[MOST_UNNOTED];
} runners[MOST_PROCESSORS];

static struct runner *mine(void) {
    return &runners[this_processor()];
}

/* Notes this processor's accesses: with the lock, or while another stops this processor. */
static void note_accesses(void) {
    struct runner *it = mine();
    for (uint32_t i = 0; i < it->unnoted; i++) {
        note(&it->access[i]);
    }
    it->unnoted = 0;
}

/* ---- Events */

static void begin_event(void) {
    if (!mine()->is_alone) {
        take_lock();
    }
    note_accesses();
}

static void end_event(void) {
    if (!mine()->is_alone) {
        let_go();
    }
}

/* With the lock. */
static struct tower_reply event_of(uint32_t pid, struct tower_event event) {
    event.pid = (uint8_t)pid;
    struct note it = {.event = event, .reply = make_event(&kernel, pid, event)};
    note(&it);
    return it.reply;
}

static struct tower_reply call(struct tower_event event) {
    begin_event();
    struct tower_reply reply = event_of(mine()->pid, event);
    calls++;
    end_event();
    return reply;
}

/* ---- Accesses */

/* Adds an access that completed to those not noted yet. */
static void made(struct tower_event event, uint32_t value) {
    struct runner *it = mine();
    need(it->unnoted < MOST_UNNOTED, "there is room for a turn's accesses");
    it->access[it->unnoted++] = access_note(it->pid, event, value);
}

/* Handles a fault of a processor at a byte: the core gets an event for the byte, unless the words lead there by now,
 * since another accepted the page meanwhile. Returns whether the access is to be made again. */
static bool mend(uint32_t at, uint32_t code) {
    bool writes = code & 2;
    begin_event();
    struct walk walk = walk_of(memory, FRAMES, mine()->directory, at, writes);
    struct tower_reply reply = {.kind = TOWER_DONE};
    if (walk.kind != WALK_FOUND) {
        need(walk.kind == WALK_FAULT && walk.code == code, "a processor faults as the walk does");
        struct tower_event event = {.call = writes ? TOWER_STORE : TOWER_LOAD, .flag = 1, .first = at};
        reply = event_of(mine()->pid, event);
        need(reply.kind != TOWER_FAULT || (reply.first == at && reply.second == code),
             "a processor faults as the core does");
    }
    end_event();
    return reply.kind == TOWER_DONE || reply.kind == TOWER_VALUE;
}

static void make_in_software(struct tower_event event) {
    struct runner *runner = mine();
    struct access it = {.cpu = this_processor(), .identifier = runner->identifier, .directory = runner->directory,
                        .size = event.flag, .is_store = event.call == TOWER_STORE};
    for (uint32_t faults = 0;; faults++) {
        need(faults <= 3, "an access is mended");
        it.address = event.first;
        it.value = event.second;
        answer_stop();
        struct walk end = cache_access(&it);
        if (end.kind == WALK_FOUND) {
            made(event, it.value);
            return;
        }
        if (!mend(it.address, end.code)) {
            return;
        }
    }
}

/* Makes an access on the processor. An interrupt may come before or after the instruction. */
static void make_by_processor(struct tower_event event) {
    static const uint32_t entries[2][2] = {{LOAD1, LOAD4}, {STORE1, STORE4}};
    bool is_store = event.call == TOWER_STORE, is_made = false;
    uint32_t entry = entries[is_store][event.flag == 4];
    open_probe(mine()->directory, entry, event.first, event.second);
    for (uint32_t faults = 0; faults <= 3;) {
        answer_stop();
        uint64_t exit = svm_run(probe(), mine()->identifier);
        take_interrupts();
        if (!is_made && exit != EXIT_PAGE_FAULT && svm_eip(probe()) != STUB_AT + entry) {
            made(event, svm_eax(probe()));
            is_made = true;
        }
        if (exit == EXIT_CALL) {
            return;
        }
        if (exit == EXIT_PAGE_FAULT) {
            faults++;
            if (!mend(svm_fault_address(probe()), svm_fault_code(probe()))) {
                return;
            }
        }
    }
    fail("an access is mended");
}

static void make(struct tower_event event) {
    (is_by_processor ? make_by_processor : make_in_software)(event);
}

/* Notes the fetch of the instruction, or makes it in software. The first fetch sets accessed for its page. */
static void fetch(void) {
    struct tower_event event = {.call = TOWER_LOAD, .flag = 1, .first = STUB_AT};
    if (is_by_processor) {
        made(event, stub[0]);
    } else {
        make_in_software(event);
    }
    mine()->has_fetched = true;
}

/* Makes an access to a process's part of a page: mostly to its first two words, so that others load what was stored. */
static void access_part(uint32_t page, uint32_t pid, bool is_store) {
    uint32_t offset = pid * PART + random(random(8) ? 2 : PART / 4) * 4;
    struct tower_event event = {.call = is_store ? TOWER_STORE : TOWER_LOAD, .flag = random(2) ? 4 : 1,
                                .first = page << 12 | offset, .second = random(0xffffffff)};
    make(event);
}

/* From here to end_alone the others stand still. */
static void begin_alone(void) {
    if (!mine()->has_fetched) {
        fetch();
    }
    take_lock();
    stop_others();
    mine()->is_alone = true;
}

static void end_alone(void) {
    note_accesses();
    exclusive++;
    mine()->is_alone = false;
    others_go_on();
    let_go();
}

/* Makes an access to a process's part of a page, while the others stand still. */
static void access_alone(uint32_t page, uint32_t pid, bool is_store) {
    begin_alone();
    access_part(page, pid, is_store);
    end_alone();
}

static void access(uint32_t page, bool is_store) {
    if (!mine()->has_fetched) {
        fetch();
    }
    if (random(32) == 0) {
        access_alone(page, random(LIVE), is_store);
    } else {
        access_part(page, mine()->pid, is_store);
    }
}

/* Makes accesses in sequence, with no event in between if none faults. */
static void access_often(uint32_t page, bool is_store) {
    for (uint32_t times = 1 + random(6); times > 0; times--) {
        access(page, is_store);
    }
}

/* ---- Processes */

/* Stores the code with the process's own stores; it runs nowhere yet. False if its quota does not allow them. */
static bool store_code(uint32_t pid) {
    for (uint32_t i = 0; i < (uint32_t)(stub_end - stub); i++) {
        struct tower_event store = {.call = TOWER_STORE, .flag = 1, .first = STUB_AT + i, .second = stub[i]};
        if (event_of(pid, store).kind != TOWER_DONE) {
            return false;
        }
    }
    return event_of(pid, (struct tower_event){.call = TOWER_PROTECT, .first = STUB_PAGE}).kind == TOWER_DONE;
}

/* Makes a child with the page of code; a copy has its parent's. */
static void make_child(void) {
    bool copies = random(4) != 0;
    begin_event();
    struct tower_container parent = {0};
    need(tower_container(core, mine()->pid, &parent) || wrong != RIGHT, "a process that runs is live");
    struct tower_event event = {.call = copies ? TOWER_FORK : TOWER_SPAWN,
                                .first = copies ? parent.used + random(4) : 5 + random(6)};
    struct tower_reply child = event_of(mine()->pid, event);
    if (child.kind == TOWER_CHILD && (child.first >= LIVE || (!copies && !store_code(child.first)))) {
        event_of(child.first, (struct tower_event){.call = TOWER_EXIT});
    } else if (child.kind == TOWER_CHILD) {
        is_live[child.first] = true;
        is_copy[child.first] = copies;
        put_last(&queue, child.first);
    }
    calls++;
    end_event();
}

static void exit_process(void) {
    begin_event();
    calls++;
    if (event_of(mine()->pid, (struct tower_event){.call = TOWER_EXIT}).kind == TOWER_DONE) {
        is_live[mine()->pid] = false;
        mine()->pid = NOBODY;
    }
    end_event();
}

/* ---- What a process does */

/* The first ones are of the user range. */
enum { MAPPED_PAGES = 6, PAGES = 8 };
static const uint32_t pages[PAGES] = {0x40001, 0x40002, 0x50000, 0x50001, 0x50400, 0xeffff, 0x3ffff, 0xf0000};

static uint32_t random_page(void) {
    return pages[random(random(4) ? 3 : random(8) ? MAPPED_PAGES : PAGES)];
}

/* Unmaps a page and loads from it, without a store: what is cached of it then leads to frame 0. */
static void load_anew(uint32_t page) {
    call((struct tower_event){.call = TOWER_UNMAP, .first = page});
    access(page, false);
}

static void offer(uint32_t page) {
    uint32_t target = random(LIVE);
    if (random(4)) {
        load_anew(page);
    }
    begin_event();
    calls++;
    struct tower_event event = {.call = TOWER_OFFER, .flag = random(4) != 0, .first = page, .second = target};
    if (event_of(mine()->pid, event).kind == TOWER_DONE) {
        offered[target].giver = mine()->pid;
        offered[target].page = page;
    }
    end_event();
    lent[mine()->pid].target = target;
    lent[mine()->pid].page = page;
    /* The giver still uses its page, as an accept may come from another processor. */
    for (uint32_t i = random(8); i > 0; i--) {
        access(page, false);
    }
}

/* Loads what others stored in the page that this process offered last. */
static void look_back(void) {
    access_alone(lent[mine()->pid].page, lent[mine()->pid].target, false);
}

/* Loads all that others may have stored in a page that this process has. */
static void look_over(uint32_t page) {
    for (uint32_t at = 0; at < FRAME; at += at % PART ? PART - 4 : 4) {
        if (walk_of(memory, FRAMES, mine()->directory, page << 12, false).kind == WALK_FOUND) {
            make((struct tower_event){.call = TOWER_LOAD, .flag = 4, .first = page << 12 | at});
        }
    }
}

/* Loads all that a copy begins with. */
static void look_over_all(void) {
    begin_alone();
    for (uint32_t i = 0; i < MAPPED_PAGES; i++) {
        look_over(pages[i]);
    }
    end_alone();
    is_copy[mine()->pid] = false;
}

/* Makes a store as the kernel for the process, as a loader does: what its processor caches may lead to frame 0. */
static void store_by_kernel(uint32_t page) {
    if (random(2)) {
        load_anew(page);
    }
    call((struct tower_event){.call = TOWER_STORE, .flag = 1, .first = page << 12 | mine()->pid * PART,
                              .second = random(256)});
    access(page, false);
}

static void accept(uint32_t page) {
    begin_event();
    struct tower_event event = {.call = TOWER_ACCEPT, .first = offered[mine()->pid].page,
                                .second = offered[mine()->pid].giver, .third = page};
    event_of(mine()->pid, (struct tower_event){.call = TOWER_UNMAP, .first = page});
    event_of(mine()->pid, event);
    calls += 2;
    end_event();
    access_often(page, true);
}

static void call_any(uint32_t page) {
    static const uint8_t asked[] = {TOWER_MAP, TOWER_UNMAP, TOWER_UNMAP, TOWER_PROTECT, TOWER_PROTECT, TOWER_INFO,
                                    TOWER_WITHDRAW, TOWER_QUOTA};
    call((struct tower_event){.call = asked[random(sizeof asked)], .flag = (uint8_t)random(2), .first = page,
                              .second = random(LIVE)});
}

static void act(void) {
    uint32_t page = random_page(), what = random(64);
    if (what < 28) {
        access_often(page, random(2));
    } else if (what < 32) {
        look_back();
    } else if (what < 36) {
        store_by_kernel(page);
    } else if (what < 42) {
        call_any(page);
    } else if (what < 48) {
        offer(page);
    } else if (what < 54) {
        accept(page);
    } else if (what < 61 || mine()->pid == 0) {
        make_child();
    } else {
        exit_process();
    }
}

/* ---- Turns */

/* Takes the next process, with the lock. In a wrong version the process stays in the queue. */
static void take_process(struct runner *it) {
    if (!take_first(&queue, &it->pid)) {
        return;
    }
    if (!is_live[it->pid]) {
        it->pid = NOBODY;
        return;
    }
    if (wrong == WRONG_TWICE) {
        put_last(&queue, it->pid);
    }
    turns_left--;
    it->identifier = bring_here(&kernel, it->pid);
    need(tower_directory(core, it->pid, &it->directory), "a process has a directory");
    it->has_fetched = false;
}

/* Begins a turn. Returns false if all turns are over. */
static bool begin_turn(void) {
    mine()->pid = NOBODY;
    take_lock();
    bool is_over = turns_left == 0;
    if (is_over) {
        leave_kernel(&kernel);
        depart();
    } else {
        take_process(mine());
    }
    let_go();
    return !is_over;
}

static void end_turn(void) {
    take_lock();
    note_accesses();
    if (mine()->pid != NOBODY && wrong != WRONG_TWICE) {
        put_last(&queue, mine()->pid);
    }
    let_go();
    wake_others();
}

static bool is_process_waiting(const void *of) {
    (void)of;
    return *(volatile uint32_t *)&turns_left == 0 || *(volatile uint32_t *)&queue.count != 0;
}

/* Gives processes turns on this processor until all turns are over. */
static void blow(void) {
    take_lock();
    arrive();
    let_go();
    while (begin_turn()) {
        if (mine()->pid == NOBODY) {
            wait_until(is_process_waiting, 0, "a processor gets a process");
            continue;
        }
        if (is_copy[mine()->pid]) {
            look_over_all();
        }
        for (uint32_t actions = 1 + random(ACTIONS); actions > 0 && mine()->pid != NOBODY; actions--) {
            act();
        }
        end_turn();
    }
}

/* ---- The storm */

static void forget_page_in_software(uint32_t identifier, uint32_t page) {
    cache_forget_page_of(this_processor(), identifier, page);
}

static void forget_all_in_software(void) {
    cache_forget_all_of(this_processor());
}

static void begin_kernel(void) {
    if (is_by_processor) {
        svm_memory(memory, FRAMES, false);
        open_kernel(&kernel, core, svm_forget_page, svm_forget_all, svm_most_identifiers());
    } else {
        cache_open(memory);
        open_kernel(&kernel, core, forget_page_in_software, forget_all_in_software, CACHE_IDENTIFIERS);
    }
}

static void begin_storm(void) {
    boot(core);
    boot(&second);
    memory = memory_of(core);
    begin_kernel();
    open_notes();
    calls = exclusive = 0;
    queue.count = 0;
    memset(lent, 0, sizeof lent);
    memset(offered, 0, sizeof offered);
    memset(is_live, 0, sizeof is_live);
    is_live[0] = true;
    need(store_code(0), "the first process has its code");
    put_last(&queue, 0);
}

static void tell_storm(uint32_t accesses, uint32_t runs, uint32_t interrupts) {
    say("storm by %s: the second core agrees\n", is_by_processor ? "the processors" : "processors in software");
    say("schedule: %u calls; %u accesses, %u of them while others stood still\n", calls, accesses, exclusive);
    tell_invalidated(&kernel, runs, interrupts);
}

void try_storm(uint32_t turns, bool by_processor, struct tower *tower) {
    uint32_t runs = (uint32_t)svm_runs(), interrupts = stops();
    core = tower;
    is_by_processor = by_processor;
    turns_left = turns;
    begin_storm();
    before_stop = note_accesses;
    on_all(blow);
    before_stop = 0;
    uint32_t accesses = tell_second(&second);
    compare_cores(core, &second);
    tell_storm(accesses, is_by_processor ? (uint32_t)svm_runs() - runs : turns, stops() - interrupts);
    tower_free(&second);
}
