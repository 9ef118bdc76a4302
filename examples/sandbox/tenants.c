#include "tenants.h"

#include <signal.h>
#include <stdio.h>
#include <string.h>
#include <sys/resource.h>
#include <unistd.h>

#include "kernel.h"
#include "need.h"
#include "output.h"

enum { MOST_WHY = 128 };
/* By the clock a turn ends after so long. Its family pays for what neither of both processes worked of it, if that is more. */
static const uint64_t MOST_TURN = 200000000, FREE_SLEEP = 1000000;

struct tenant tenants[TOWER_PROCESSES];
struct queue queue;
struct limits limits = {.engines = 32};

static struct {
    uint64_t worked, clock;       /* when it began: the kernel's processor time, and the clock */
    uint64_t steps, until;        /* it ends at that number of them, and at that time */
    bool is_over;
} turn;
static uint64_t steps;
static volatile sig_atomic_t is_stopping;
static unsigned long long turns, calls, faults, engines;

/* ---- Tenants that begin and end */

bool is_name(const char *name) {
    size_t length = strnlen(name, MOST_NAME);
    for (size_t i = 0; i < length; i++) {
        if (name[i] <= ' ' || name[i] > '~' || name[i] == '[' || name[i] == ']') {
            return false;
        }
    }
    return length > 0 && length < MOST_NAME;
}

static void enter_queue(uint32_t pid) {
    need(queue.count < TOWER_PROCESSES, "each tenant waits for one turn");
    queue.pids[queue.count++] = (uint8_t)pid;
}

static void leave_queue(uint32_t pid) {
    uint8_t *found = memchr(queue.pids, (int)pid, queue.count);
    if (found) {
        memmove(found, found + 1, (size_t)(queue.pids + --queue.count - found));
    }
}

void tenant_enter(uint32_t pid, const char *name, const struct registers *registers) {
    int parent = kernel_parent(pid);
    uint8_t family = parent > 0 ? tenants[parent].family : (uint8_t)pid;
    tenants[pid] = (struct tenant){.runs = true, .start = *registers, .family = family};
    snprintf(tenants[pid].name, MOST_NAME, "%s", name);
    enter_queue(pid);
}

/* Of its own engine only the registers are needed: the child's pages are copies. */
void tenant_fork(uint32_t pid, uint32_t child) {
    char name[MOST_NAME + 16];
    struct registers registers = engine_registers(&kernel.engines[pid]);
    registers.general[EAX] = TOWER_DONE;
    registers.general[EBX] = registers.general[ECX] = registers.general[EDX] = registers.general[ESI] = 0;
    snprintf(name, sizeof name, "%.30s.%u", tenants[pid].name, ++tenants[pid].children);
    tenant_enter(child, name, &registers);
}

void tenant_gone(uint32_t pid) {
    tenants[tenants[pid].family].spent += engine_time(&kernel.engines[pid]);
    tenants[pid].runs = false;
    leave_queue(pid);
}

void tenant_end(uint32_t pid, const char *reason) {
    struct tower_processes exited;
    struct tower_reply told = kernel_end(pid, &exited);
    need(told.kind == TOWER_DONE, "a tenant's process can be ended");
    for (uint32_t i = 0; i < exited.count; i++) {
        uint32_t one = exited.pids[i];
        if (tenants[one].runs) {
            output_line(one, one == pid ? reason : "ended: its parent ended");
            tenant_gone(one);
        }
    }
}

/* ---- Engines */

/* The engine is closed, and the tenant's next turn is in another. */
static bool park(uint32_t pid) {
    struct engine *it = &kernel.engines[pid];
    if (!engine_is_open(it) || !it->is_at_rest) {
        return false;
    }
    tenants[pid].start = engine_registers(it);
    engine_close(it);
    return true;
}

static uint64_t time_left(uint32_t pid) {
    const struct tenant *family = &tenants[tenants[pid].family];
    return family->most > family->spent ? family->most - family->spent : 0;
}

/* False if the host has no process for it. If too many are open, that is closed whose turn comes last. */
static bool open_engine(uint32_t pid) {
    uint64_t open = 0;
    for (uint32_t other = 0; other < TOWER_PROCESSES; other++) {
        open += engine_is_open(&kernel.engines[other]);
    }
    for (uint32_t i = queue.count; open >= limits.engines && i > 0; i--) {
        open -= park(queue.pids[i - 1]);
    }
    engines++;
    return engine_open(&kernel.engines[pid], &tenants[pid].start, time_left(pid));
}

/* ---- Reports: each returns why the tenant has to end, or NULL */

void tenant_end_turn(void) {
    turn.is_over = true;
}

static const char *on_access(uint32_t pid, const struct report *report) {
    static const char *const names[] = {"load", "store", "fetch"};
    static char why[MOST_WHY];
    struct tower_reply reply = kernel_fault(pid, report->address, report->access == ACCESS_STORE);
    faults++;
    if (tower_outcome_of(&reply) == TOWER_OUTCOME_DONE) {
        return NULL;
    }
    if (reply.kind == TOWER_FAULT) {
        snprintf(why, sizeof why, "%s at %08x: fault %u", names[report->access], reply.first, reply.second);
    } else {
        const char *cause = tower_cause_name(reply.first);
        snprintf(why, sizeof why, "%s at %08x: refused, %s", names[report->access], report->address, cause);
    }
    return why;
}

static void on_call(uint32_t pid, const struct words *in) {
    struct engine *it = &kernel.engines[pid];
    const struct tower_event event = {0, (uint8_t)pid, tower_byte(in->eax), tower_byte(in->ebx), in->ecx, in->edx, in->esi};
    struct tower_reply reply = tenant_call(pid, &event);
    uint32_t rights = (uint32_t)reply.write | (uint32_t)reply.may << 1;
    uint32_t bools = rights | (uint32_t)reply.accessed << 2 | (uint32_t)reply.dirty << 3;
    calls++;
    it->next.kind = ORDER_ANSWER;
    it->next.words = (struct words){reply.kind, bools, reply.first, reply.second, reply.third};
}

static const char *on_report(uint32_t pid, const struct report *report) {
    static char what[MOST_WHAT];
    if (report->kind == REPORT_ACCESS) {
        return on_access(pid, report);
    } else if (report->kind == REPORT_END) {
        return memcpy(what, kernel.engines[pid].channel->what, MOST_WHAT - 1);
    } else if (report->kind == REPORT_CALL) {
        on_call(pid, &report->words);
    } else {
        turn.is_over |= report->kind == REPORT_LATE || !limits.turn || steps >= turn.steps || is_stopping;
    }
    return NULL;
}

/* ---- Turns */

/* A turn of instructions ends by the clock, too: once each took a microsecond, or all that its family has left. */
static void begin_turn(uint32_t pid) {
    uint64_t left = limits.after ? limits.after - steps : INT64_MAX, most = time_left(pid);
    uint64_t length = limits.turn && limits.turn < left ? limits.turn : left;
    turns++;
    turn.is_over = false;
    turn.worked = nanoseconds(CLOCK_PROCESS_CPUTIME_ID);
    turn.clock = nanoseconds(CLOCK_MONOTONIC);
    turn.steps = steps + length;
    turn.until = turn.clock + MOST_TURN + (!limits.turn ? 0 : length < most / 1000 ? length * 1000 : most);
}

/* A step is a call or a page fault. */
static bool is_step(const struct report *report) {
    return report->kind == REPORT_CALL || report->kind == REPORT_ACCESS;
}

static const char *run_to_report(uint32_t pid, struct report *report) {
    struct engine *it = &kernel.engines[pid];
    it->next.steps = limits.turn || limits.after ? turn.steps - steps : UNCOUNTED;
    const char *why = engine_run(it, turn.until, report);
    steps += !why && is_step(report) && steps < turn.steps;
    return why ? why : on_report(pid, report);
}

/* Runs the tenant until its turn is over, or it has exited. Returns why it has to end, or NULL. An engine that obeys ends the
 * turn itself; for any other the clock does. */
static const char *run(uint32_t pid) {
    enum { LOOK_EACH = 256, MOST_RESTLESS = 50 };
    static struct report report;
    struct engine *it = &kernel.engines[pid];
    const char *why = engine_is_open(it) || open_engine(pid) ? NULL : "the host has no process for its engine";
    it->next.begins_turn = true;
    for (uint32_t i = 1; !why && !turn.is_over && tenants[pid].runs; i++) {
        why = run_to_report(pid, &report);
        turn.is_over |= (i % LOOK_EACH == 0 || it->was_slow) && nanoseconds(CLOCK_MONOTONIC) > turn.until;
    }
    it->restless = it->is_at_rest ? 0 : it->restless + 1;
    return why || it->restless < MOST_RESTLESS ? why : "the engine doesn't end its turn";
}

/* The family pays for its engines, and for what the kernel does for it. It pays as well for the time in which neither of both
 * processes worked, nor waited for a processor: its engine slept, and held the others up. */
static void pay(uint32_t pid) {
    static struct engine own;
    struct engine *it = &kernel.engines[pid];
    struct tenant *family = &tenants[tenants[pid].family];
    uint64_t passed = nanoseconds(CLOCK_MONOTONIC) - turn.clock, used = engine_time(it);
    uint64_t all = used + nanoseconds(CLOCK_PROCESS_CPUTIME_ID) - turn.worked;
    family->spent += all;
    if (passed > all + FREE_SLEEP) {
        own.process = getpid();
        all += engine_delay(it) + engine_delay(&own);
        family->spent += passed > all ? passed - all : 0;
    }
}

static void take_turn(uint32_t pid) {
    char line[MOST_WHY + 16];
    leave_queue(pid);
    begin_turn(pid);
    const char *why = run(pid);
    pay(pid);
    if (tenants[pid].runs && time_left(pid) == 0) {
        tenant_end(tenants[pid].family, "ended: its time is over");
    } else if (tenants[pid].runs && why) {
        snprintf(line, sizeof line, "ended: %s", why);
        tenant_end(pid, line);
    } else if (tenants[pid].runs) {
        enter_queue(pid);
    }
}

static void on_stop(int number) {
    (void)number;
    is_stopping = 1;
}

bool tenants_run(void) {
    struct sigaction action = {.sa_handler = on_stop, .sa_flags = SA_RESTART};
    engines_begin();
    need(sigaction(SIGINT, &action, NULL) == 0 && sigaction(SIGTERM, &action, NULL) == 0, "a signal's handler");
    while (queue.count && !is_stopping && (!limits.after || steps < limits.after)) {
        take_turn(queue.pids[0]);
    }
    return queue.count > 0;
}

/* One whose engine is in the middle of an access goes on until it isn't, or is ended. */
void tenants_park(void) {
    for (uint32_t pid = 0; pid < TOWER_PROCESSES; pid++) {
        while (engine_is_open(&kernel.engines[pid]) && !park(pid)) {
            take_turn(pid);
        }
    }
}

/* All processor time: of the kernel's process, and of the engines, which have ended. */
void print_counts(void) {
    struct rusage used;
    need(getrusage(RUSAGE_CHILDREN, &used) == 0, "the engines' time is known");
    double all = 1e-9 * (double)nanoseconds(CLOCK_PROCESS_CPUTIME_ID) + (double)(used.ru_utime.tv_sec + used.ru_stime.tv_sec) +
                 1e-6 * (double)(used.ru_utime.tv_usec + used.ru_stime.tv_usec);
    fprintf(stderr, "%.3f s; %llu turns, %llu calls, %llu page faults, %llu events, %llu engines, %llu steps counted\n", all,
            turns, calls, faults, (unsigned long long)kernel.events, engines, (unsigned long long)steps);
}
