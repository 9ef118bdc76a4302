/* A small hypervisor over the proved core. Guests run on the processors' own paging, over the directories and tables
 * that the core wrote. Everything else that they do is an event of the core, under one lock. */
#include <stdatomic.h>

#include "cache.h"
#include "calls.h"
#include "image.h"
#include "kernel.h"
#include "machine.h"
#include "svm.h"
#include "trial.h"
#include "wrong.h"

enum { RUNNING_MAX = 16, NOBODY = 255, NONE_LEFT = 254, LINES_MAX = 20, IMAGES_MAX = 4 };
enum { SLICES = 5, EXITS = 1000, WALKS = 10000, EVENTS = 20000, TURNS = 4000, ROUNDS = 4, PARTS = 8 };

static struct tower tower = TOWER_NONE;
static uint8_t *memory;
static struct kernel kernel;
static struct queue queue;

/* Forget, on this processor, and in the cache that represents all that the processor may cache. */
static void forget_page(uint32_t identifier, uint32_t page) {
    svm_forget_page(identifier, page);
    cache_forget_page_of(this_processor(), identifier, page);
}

static void forget_all(void) {
    svm_forget_all();
    cache_forget_all_of(this_processor());
}

struct stop {
    uint32_t address, code, eip;
};

/* A guest. It belongs to its processor; while it runs nowhere, to the processor that holds the lock. */
static struct guest {
    bool runs;
    uint32_t slices; /* since its last call */
    uint32_t exits;
    uint32_t sleeps_until; /* this number is announced; 0: it has turns */
    uint32_t told; /* the highest number that was announced to it */
    struct stop last; /* its last page fault, if it made no call after it */
    struct guest_cpu cpu;
} guests[RUNNING_MAX];

static _Atomic uint32_t running; /* how many guests run, or wait for a turn */
static uint32_t page_faults, stopped, slices_allowed = SLICES;
static uint32_t images; /* that guests had written */
static uint32_t lines[RUNNING_MAX]; /* that the first process's child and all that descend from it have written */

extern const struct {
    const uint8_t *begin, *end;
} programs[PROGRAMS];

/* Checks that each identifier of this processor is a live process's, and that all it may cache under the identifier is
 * what the walks give. */
static void all_kept_is_given(void) {
    for (uint32_t pid = 0; pid < TOWER_PROCESSES; pid++) {
        uint32_t directory = 0, identifier = kernel.books[this_processor()].identifiers[pid];
        bool is_live = tower_directory(&tower, pid, &directory);
        need(!identifier || is_live, "a process that is gone has no identifier");
        need(!identifier || cache_is_given(this_processor(), identifier, directory),
             "all that may be kept is what the walks give");
    }
}

/* Makes an event. What it ended is invalidated before anything else is done. */
static struct tower_reply step(struct tower_event event) {
    struct tower_reply reply = make_event(&kernel, event.pid, event);
    all_kept_is_given();
    return reply;
}

/* Makes the access for which a processor stopped a guest. */
static struct tower_reply touch(uint32_t pid, uint32_t address, bool is_store) {
    struct tower_reply reply = make_touch(&kernel, pid, address, is_store);
    all_kept_is_given();
    return reply;
}

/* Checks that the guests' memory is the core's, frame by frame. */
static void same_memory(void) {
    static uint8_t bytes[FRAME];
    for (uint32_t frame = 0; frame < FRAMES; frame++) {
        need(tower_copy_frame(&tower, frame, bytes, sizeof bytes), "a frame is copied");
        for (uint32_t i = 0; i < FRAME; i++) {
            need(bytes[i] == memory[frame * FRAME + i], "the memory is the core's");
        }
    }
}

/* ---- Programs */

/* Writes the program's bytes into the process's memory, as its own stores would. Its pages are then made read-only. */
static bool store_program(uint32_t program, uint32_t pid) {
    uint32_t bytes = (uint32_t)(programs[program].end - programs[program].begin);
    bool is_stored = write_memory(&kernel, pid, PROGRAM_AT, programs[program].begin, bytes);
    all_kept_is_given();
    for (uint32_t at = 0; is_stored && at < bytes; at += FRAME) {
        struct tower_event protect = tower_protect(pid, (PROGRAM_AT + at) >> 12, TOWER_READ_ONLY);
        need(step(protect).kind == TOWER_DONE, "a program's page is protected");
    }
    return is_stored;
}

static bool load(uint32_t program, uint32_t pid) {
    uint32_t directory;
    if (program >= PROGRAMS || pid >= RUNNING_MAX || guests[pid].runs || !tower_directory(&tower, pid, &directory) ||
        !store_program(program, pid)) {
        return false;
    }
    guests[pid] = (struct guest){.runs = true};
    running++;
    put_last(&queue, pid);
    svm_open(&guests[pid].cpu, directory, PROGRAM_AT, STACK_TOP);
    return true;
}

/* Loads a program into a guest's own child. The core does not check the parent: a loader's stores are those of the
 * process that it loads. */
static bool load_child(uint32_t parent, uint32_t program, uint32_t pid) {
    struct tower_container container;
    return pid != parent && tower_container(&tower, pid, &container) && container.parent == parent && load(program, pid);
}

/* Ends a guest: it no longer runs. */
static void end(struct guest *guest) {
    guest->runs = false;
    running--;
}

/* Ends a guest; its process exits, too, if the core lets it. */
static void stop(uint32_t pid) {
    struct tower_reply reply = step(tower_exit(pid));
    end(&guests[pid]);
    stopped++;
    if (reply.kind != TOWER_DONE) {
        say("[%u] stays, as its exit is refused: %s\n", pid, tower_cause_name(reply.first));
    }
}

/* ---- Page faults */

static bool is_same_stop(struct stop a, struct stop b) {
    return a.address == b.address && a.code == b.code && a.eip == b.eip;
}

/* Handles a page fault: the processor stopped an access. The core gets it for one byte, which doesn't change. If the core
 * completes it, the guest continues, and its processor makes the access. If the core faults or refuses, the guest
 * ends. */
static void page_fault(uint32_t pid, struct guest *guest) {
    struct stop at = {svm_fault_address(&guest->cpu), svm_fault_code(&guest->cpu), svm_eip(&guest->cpu)};
    bool is_store = at.code & 2;
    page_faults++;
    need(!is_same_stop(at, guest->last), "the core carried out an access that the processor stops");
    guest->last = at;
    struct tower_reply reply = touch(pid, at.address, is_store);
    if (reply.kind == TOWER_DONE || reply.kind == TOWER_VALUE) {
        return;
    }
    say("[%u] stopped: the processor faults at %x with code %u, ", pid, at.address, at.code);
    if (reply.kind == TOWER_FAULT) {
        say("the core at %x with code %u\n", reply.first, reply.second);
        need(reply.first == at.address && reply.second == at.code, "the processor and the core agree on a fault");
    } else {
        say("and the core refuses the page: %s\n", tower_cause_name(reply.first));
    }
    stop(pid);
}

/* ---- Calls */

/* The first process, or its child from which the process descends. */
static uint32_t family_of(uint32_t pid) {
    struct tower_container container;
    while (tower_container(&tower, pid, &container) && container.parent != 0) {
        pid = container.parent;
    }
    return pid;
}

/* Prints a line of a guest's text, read from its process's memory: all that the process may load of it. It prints no more
 * than so many lines of a family, as each stops the other processors. */
static struct tower_reply write(uint32_t pid, uint32_t address, uint32_t bytes) {
    uint8_t text[100];
    struct tower_reply stop = {.kind = TOWER_NO_EVENT};
    size_t moved = 0, count = bytes < sizeof text ? bytes : sizeof text;
    uint32_t *written = &lines[family_of(pid) % RUNNING_MAX];
    if (*written == LINES_MAX) {
        return stop;
    }
    ++*written;
    stop_others(); /* its bytes are of one moment */
    need(tower_read(&tower, pid, address, text, count, &moved, &stop), "a core answers");
    others_go_on();
    say("[%u] ", pid);
    for (size_t at = 0; at < moved; at++) {
        say("%c", text[at] >= ' ' && text[at] <= '~' ? text[at] : '?');
    }
    say("\n");
    return stop;
}

/* Writes an image for the host, a few times for all guests. */
static struct tower_reply write_image_for_guest(void) {
    if (images == IMAGES_MAX) {
        return (struct tower_reply){.kind = TOWER_NO_EVENT};
    }
    images++;
    stop_others(); /* its bytes are of one moment */
    write_image(&tower);
    others_go_on();
    return (struct tower_reply){.kind = TOWER_DONE};
}

/* Makes a guest sleep: it has no turn until that number or a higher one is announced to it. */
static bool sleep_until(struct guest *guest, uint32_t number) {
    guest->sleeps_until = number > guest->told ? number : 0;
    return guest->sleeps_until != 0;
}

static bool share_a_page(uint32_t pid, uint32_t other) {
    struct tower_page found;
    uint32_t there;
    for (uint32_t page = 0; tower_next_page(&tower, pid, page, &page, &found); page++) {
        if (found.holders > 1 && tower_next_holder(&tower, pid, page, other, 0, &there)) {
            return true;
        }
    }
    return false;
}

/* Announces a number to all that share a page with the guest: only they can know what it means. */
static void announce(uint32_t pid, uint32_t number) {
    for (uint32_t other = 0; other < RUNNING_MAX; other++) {
        struct guest *guest = &guests[other];
        if (!guest->runs || other == pid || number <= guest->told || !share_a_page(pid, other)) {
            continue;
        }
        guest->told = number;
        if (guest->sleeps_until && guest->sleeps_until <= number) {
            guest->sleeps_until = 0;
            put_last(&queue, other);
        }
    }
}

/* If all guests that are left sleep, none will ever be told what it waits for. */
static void stop_if_all_sleep(void) {
    for (uint32_t pid = 0; pid < RUNNING_MAX; pid++) {
        if (guests[pid].runs && !guests[pid].sleeps_until) {
            return;
        }
    }
    for (uint32_t pid = RUNNING_MAX; pid-- > 0;) {
        if (guests[pid].runs) {
            say("[%u] stopped: all guests that are left sleep\n", pid);
            bring_here(&kernel, pid); /* its exit is invalidated on this processor */
            stop(pid);
        }
    }
}

/* Returns the reply to a call. Sets `over` if the guest's turn is over. */
static struct tower_reply answer(uint32_t pid, struct guest *guest, const struct tower_event *event, bool *over) {
    struct tower_reply done = {.kind = TOWER_DONE};
    switch (event->call) {
    case CALL_YIELD:
        *over = true;
        return done;
    case CALL_WRITE:
        return write(pid, event->first, event->second);
    case CALL_START:
        return load_child(pid, event->first, event->second) ? done : (struct tower_reply){.kind = TOWER_NO_EVENT};
    case CALL_WAIT:
        *over = true;
        return (struct tower_reply){.kind = TOWER_VALUE, .first = running - 1};
    case CALL_SLEEP:
        *over = sleep_until(guest, event->first);
        return done;
    case CALL_TELL:
        announce(pid, event->first);
        return done;
    case CALL_EXITS:
        return (struct tower_reply){.kind = TOWER_VALUE, .first = guest->exits};
    case CALL_IMAGE:
        return write_image_for_guest();
    case CALL_END:
        end(guest);
        *over = true;
        return done;
    case TOWER_LOAD:
    case TOWER_STORE: /* a guest's accesses are the processor's */
        return (struct tower_reply){.kind = TOWER_NO_EVENT};
    default:
        return step(*event);
    }
}

/* Makes a guest's call. Returns whether its turn is over. */
static bool call(uint32_t pid, struct guest *guest) {
    bool over = false;
    struct tower_event event = tower_event_of(pid, svm_eax(&guest->cpu), guest->cpu.more.ebx, guest->cpu.more.ecx,
                                              guest->cpu.more.edx, guest->cpu.more.esi);
    struct tower_reply reply = answer(pid, guest, &event, &over);
    if (event.call == TOWER_EXIT && reply.kind == TOWER_DONE) {
        end(guest);
        over = true;
    }
    svm_past_call(&guest->cpu);
    svm_set_eax(&guest->cpu, reply.kind);
    guest->cpu.more.ecx = reply.first;
    guest->cpu.more.edx = reply.second;
    guest->cpu.more.esi = reply.third;
    guest->cpu.more.ebx = (uint32_t)reply.write | (uint32_t)reply.may << 1 | (uint32_t)reply.accessed << 2 |
                          (uint32_t)reply.dirty << 3;
    return over;
}

/* ---- Turns */

/* Ends a slice of time. The guest continues in its next turn, unless it had too many slices without a call. */
static void slice_ended(uint32_t pid, struct guest *guest) {
    guest->last = (struct stop){0};
    if (++guest->slices > slices_allowed) {
        say("[%u] stopped: more than %u slices of time without a call\n", pid, slices_allowed);
        stop(pid);
    }
}

/* Handles a guest's exit, with the lock. Returns whether its turn is over. */
static bool left_for(uint64_t exit, uint32_t pid, struct guest *guest) {
    switch (exit) {
    case EXIT_PAGE_FAULT:
        page_fault(pid, guest);
        return false;
    case EXIT_CALL:
        guest->last = (struct stop){0};
        guest->slices = 0;
        return call(pid, guest);
    case EXIT_INTERRUPT:
        slice_ended(pid, guest);
        return true;
    default:
        say("[%u] stopped: exit %x\n", pid, (uint32_t)exit);
        need(exit != EXIT_OUTSIDE, "no page of the core's lies outside its memory");
        stop(pid);
        return true;
    }
}

/* Runs the guest until an exit of its own, or its slice's end. Another processor may stop this one meanwhile. Before
 * each run, all that may be cached of the guest's process is what the walks give. After it, that is what was cached,
 * and each page that was accessed. */
static uint64_t run(struct guest *guest, uint32_t identifier, uint32_t directory) {
    uint64_t exit;
    do {
        start_slice();
        need(cache_is_given(this_processor(), identifier, directory), "all that may be kept is what the walks give");
        exit = svm_run(&guest->cpu, identifier);
        cache_keep_accessed(this_processor(), identifier, directory);
        take_interrupts();
    } while (exit == EXIT_INTERRUPT && !is_slice_over());
    return exit;
}

/* Gives a guest one turn: until it yields or ends, a slice of time, or too many exits. If it would also have the next
 * turn here, it most likely waits for others, and the processor rests. */
static void turn(uint32_t pid, uint32_t identifier) {
    struct guest *guest = &guests[pid];
    uint32_t exits = 0, directory = svm_directory(&guest->cpu);
    for (bool over = false; !over;) {
        uint64_t exit = run(guest, identifier, directory);
        guest->exits++;
        take_lock();
        over = left_for(exit, pid, guest) || !guest->runs || ++exits == EXITS;
        stop_if_all_sleep();
        bool goes_on = over && guest->runs && !guest->sleeps_until;
        bool is_alone = goes_on && queue.count == 0 && processors() > 1;
        if (goes_on) {
            put_last(&queue, pid);
        }
        bool is_more = queue.count != 0 || running == 0;
        let_go();
        if (is_alone) {
            rest();
        } else if (is_more) {
            wake_others();
        }
    }
}

/* Returns the next guest for this processor, and its identifier here; NOBODY if other processors run or get all that
 * are left, and NONE_LEFT if none is left. */
static uint32_t next_guest(uint32_t *identifier) {
    uint32_t pid = NOBODY;
    take_lock();
    if (take_near(&queue, &kernel, &pid)) {
        *identifier = bring_here(&kernel, pid);
    } else if (running == 0) {
        pid = NONE_LEFT;
        leave_kernel(&kernel);
        depart();
    }
    let_go();
    return pid;
}

static bool is_guest_waiting(const void *of) {
    (void)of;
    return running == 0 || *(volatile uint32_t *)&queue.count != 0;
}

/* Gives guests turns on this processor until none is left. */
static void serve(void) {
    take_lock();
    arrive();
    let_go();
    uint32_t identifier = 0, pid;
    while ((pid = next_guest(&identifier)) != NONE_LEFT) {
        if (pid != NOBODY) {
            turn(pid, identifier);
        } else if (is_guest_waiting(0)) {
            rest(); /* it waits for a processor that has nothing else to do */
        } else {
            while (!comes_in_time(is_guest_waiting, 0)) {
            } /* a guest's turns and calls have no bound of time together, so this wait has none */
        }
    }
}

/* Runs all guests, from the first program on, on all processors. */
static void run_guests(uint32_t program) {
    boot(&tower);
    memory = memory_of(&tower);
    svm_memory(memory, FRAMES, false);
    cache_open(memory);
    open_kernel(&kernel, &tower, forget_page, forget_all, svm_most_identifiers());
    say("core: %u frames\n", tower_frames(&tower));
    need(load(program, 0), "the first program is stored");
    same_memory();
    on_all(serve);
    same_memory();
}

/* ---- One processor's guests and trials, and several processors' */

static void tell_alone(void) {
    struct invalidated sum = invalidated_by(&kernel);
    say("all guests ended: %u runs of the processor, %u page faults, %u guests stopped\n", (uint32_t)svm_runs(),
        page_faults, stopped);
    say("translations: %u pages invalidated, %u identifiers given up, %u flushes of all; at each run it would be %u\n",
        sum.pages, sum.spaces, sum.all, (uint32_t)svm_runs());
}

static void try_alone(void) {
    say("guests in 32-bit paging, over the core's page tables\n");
    run_guests(PROGRAM_INIT);
    tell_alone();
    tower_free(&tower);
    try_instructions();
    try_walks(WALKS);
    try_events(EVENTS, &tower);
    write_image(&tower);
}

/* Guests that sleep for ever, write in the name of others, and wake others. */
static void try_rude(void) {
    say("guests that are rude to others\n");
    run_guests(PROGRAM_RUDE);
    say("all guests ended, and %u were stopped\n", stopped);
    tower_free(&tower);
    stopped = 0;
}

/* Lines that depend on the schedule begin with a word of their own. */
static void try_several(void) {
    slices_allowed = 20 * SLICES; /* the host's clock runs even while a processor's thread doesn't */
    start_processors(svm_start);
    say("schedule: %u processors\n", processors());
    try_rude();
    say("guests that run at once, over the core's page tables\n");
    run_guests(PROGRAM_CROWD);
    say("all guests ended, and %u were stopped\n", stopped);
    say("schedule: %u page faults\n", page_faults);
    tell_invalidated(&kernel, (uint32_t)svm_runs(), stops());
    write_image(&tower);
    tower_free(&tower);
    try_storm(TURNS, true, &tower);
    write_image(&tower);
    tower_free(&tower);
    try_storm(TURNS, false, &tower);
    write_image(&tower);
    tower_free(&tower);
    try_shootdowns(TURNS, &tower);
    write_image(&tower);
}

/* The rest of `word` after `first`, or null. */
static const char *behind(const char *first, const char *word) {
    while (*first && *first == *word) {
        first++;
        word++;
    }
    return *first ? 0 : word;
}

/* Runs a trial of several processors in a version of wrong.c. The cores are compared once its turns are over, so a wrong
 * version has few turns in each of many rounds: most are then found soon. A round may miss a rare event. */
static void try_version(const char *version, bool is_storm) {
    choose_wrong(version);
    start_processors(svm_start);
    uint32_t parts = wrong == RIGHT ? 1 : PARTS, rounds = wrong == RIGHT ? 1 : ROUNDS * PARTS;
    for (uint32_t round = 0; round < rounds; round++) {
        if (is_storm) {
            try_storm(TURNS / parts, false, &tower);
        } else {
            try_shootdowns(TURNS / parts, &tower);
        }
        tower_free(&tower);
    }
}

/* Without a word, runs all that one processor does; with `several`, what all do. With a word of wrong.c, runs only the
 * trial of events in that version, and with `storm` or `shootdowns` before the word only that. */
void begin(const char *word) {
    const char *storm = behind("storm ", word), *shootdowns = behind("shootdowns ", word);
    begin_first_processor();
    svm_start();
    if (storm || shootdowns) {
        try_version(storm ? storm : shootdowns, storm != 0);
    } else if (*word == 0) {
        try_alone();
    } else if (behind("several", word)) {
        try_several();
    } else {
        choose_wrong(word);
        try_events(EVENTS, &tower);
    }
    say(wrong == RIGHT ? "all is well\n" : "NOT FOUND\n");
    leave(wrong == RIGHT ? 0 : 2);
}
