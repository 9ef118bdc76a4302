/* A small kernel over the library: processes of 64 bits in ring 3, on one to eight processors. */
#include "answers.h"
#include "audit.h"
#include "faults.h"
#include "loader.h"
#include "pool.h"
#include "processes.h"
#include "processors.h"
#include "roots.h"
#include "scheduler.h"
#include "spaces.h"

static void open_first_process(uint32_t number) {
    uint64_t entry;
    need(load_program(PROGRAM_INIT, 0, &entry).kind == TOWER_DONE, "the first program is loaded");
    begin_program(0, program_name(PROGRAM_INIT), entry, number);
}

static uint32_t number_of(const char *word) {
    uint32_t number = 0;
    for (; *word >= '0' && *word <= '9'; word++) {
        number = 10 * number + (uint32_t)(*word - '0');
    }
    return number;
}

/* The lines that depend on the schedule begin with a word of their own. */
static void tell_counts(void) {
    struct spaces_counts counts = spaces_counts();
    struct pool_counts full = pool_counts();
    struct root_counts on_processors = root_counts();
    struct turns turns = turns_given();
    say("schedule: %u processors, %u turns, of which the timer ended %u, %u page faults\n", processors(), turns.all,
        turns.preempted, page_faults());
    say("schedule: the longest turn took %u thousand ticks, and the longest wait for one %u\n", turns.longest,
        turns.longest_wait);
    say("schedule: shadow entries: %u filled; forgotten %u of pages, %u times of a process; as the pool was full, "
        "%u times of the process itself, %u times of another\n",
        counts.fills, counts.pages, counts.processes, full.own, full.others);
    say("schedule: shootdowns: %u interrupts for another processor, which took at most %u thousand ticks; "
        "%u invalidations of a page or of all, on any\n",
        on_processors.stopped, on_processors.longest, on_processors.invalidated);
}

static void check_all(void) {
    struct tower_container first;
    need(tower_container(&core, 0, &first), "the first process is live");
    need(first.children == 0 && first.given == 0, "all other processes are gone");
    say("schedule: the first process uses %u frames, and %u shadow entries are left\n", first.used, audit_all());
    say("all shadow entries are what the walk gives\n");
    check_core();
}

/* In the trial of turns a tick is a nanosecond of the machine's own time, which no load of the host's prolongs. A slice
 * has 10 ms, and two processors give turns to four threads. A processor's interrupt may come after some slices of the
 * other, as QEMU runs them in turns. Neighbors compute, or make calls, for 500 ms. One walks more regions than the pool
 * has frames. */
static void check_turns(void) {
    enum { LONGEST_STOP = 3000, LONGEST_TURN = 60000, LONGEST_WAIT = 150000 };
    need(root_counts().longest < LONGEST_STOP, "a processor that begins a slice stops first, if it is to stop");
    need(pool_counts().own > 0 && pool_counts().others == 0,
         "a process that walks many regions takes no tables from others");
    need(turns_given().longest < LONGEST_TURN, "each turn ends with its slice");
    need(turns_given().longest_wait < LONGEST_WAIT, "no thread waits for more than the turns before its own");
}

/* boot.S calls it, on the first processor, with the kernel's command line: a number for the first program, or none. */
_Noreturn void begin(const char *word) {
    uint32_t trial = number_of(word);
    begin_first_processor();
    open_core();
    open_pool();
    leave_all();
    say("kernel: a core of %u frames, and shadow tables for it\n", tower_frames(&core));
    open_first_process(trial);
    start_processors(leave_all);
    on_all(serve);
    tell_outcomes();
    tell_counts();
    check_all();
    if (trial == TRIAL_OF_TURNS) {
        check_turns();
    }
    need(faults_again() == 0, "no fault comes again once the core has made its access");
    need(found_wrong() == 0, "the processes end as they should");
    say("all is well\n");
    leave(0);
}
