#include "spaces.h"

#include "audit.h"
#include "pool.h"
#include "roots.h"
#include "wrong.h"

static struct spaces_counts counts;

struct spaces_counts spaces_counts(void) {
    return counts;
}

uint32_t forgets(void) {
    return counts.pages + counts.processes + root_counts().left;
}

/* ---- What an event ended */

static void count_forgotten(struct tower_ended ended) {
    counts.pages += ended.kind == TOWER_ENDS_PAGE ? 1 : ended.kind == TOWER_ENDS_PAGES ? 2 : 0;
    counts.processes += ended.kind == TOWER_ENDS_SPACE;
}

static void forget(struct tower_ended ended) {
    need(tower_shadow_forget(&shadow, &ended), "the shadow tables forget");
    count_forgotten(ended);
}

/* What a processor has to invalidate of it: nothing, a page, or all in place of two, which are rare. */
static struct order order_for(struct tower_ended ended) {
    uint32_t page = ended.kind == TOWER_ENDS_PAGE ? ended.first : ALL_PAGES;
    return (struct order){ended.kind == TOWER_ENDS_NOTHING ? 0 : invalidate_here, ended.pid, page};
}

/* ---- Events of pages */

/* The other processors that an event concerns. These are the ones that may cache what it ends. A fork copies pages that
 * others may write to, so at a fork these are all that run a thread. */
static set concerned(const struct tower_event *event, struct tower_ended will_end) {
    if (event->call == TOWER_FORK) {
        return WRONG_FORK ? 0 : runners();
    }
    return will_end.kind == TOWER_ENDS_NOTHING ? 0 : keepers_of(will_end.pid);
}

/* Whether the concerned processors may run on while the event is made, until they take their interrupt: it only takes
 * something away. At any other they stand still from before the event until they have invalidated. */
static bool only_takes(const struct tower_event *event) {
    return event->call == TOWER_UNMAP || event->call == TOWER_PROTECT;
}

/* Two wrong versions: others invalidate before an event that gives, and run on while it is made; and they invalidate
 * what was taken with the next event, so that the caller has its reply before. */
static set invalidate_early(set which, struct tower_ended will_end) {
    release_these(which, order_for(will_end));
    rest();
    return 0;
}

static void invalidate_late(set which, struct order order) {
    static set late;
    static struct order late_order;
    set here = late & 1u << this_processor();
    stop_these(late & ~here);
    release_these(late & ~here, late_order);
    if (here && late_order.forget) {
        late_order.forget(late_order.identifier, late_order.page);
    }
    late = which;
    late_order = order;
}

/* Has the concerned processors invalidate what an event ended, and continue. */
static void invalidate_there(const struct tower_event *event, set which, struct order order) {
    if (WRONG_LATE && only_takes(event)) {
        invalidate_late(which, order);
        return;
    }
    if (only_takes(event)) {
        stop_these(which);
    }
    release_these(which, WRONG_SHOOTDOWN ? (struct order){0} : order);
}

/* Stops the processors that an event concerns, unless they may run on. Returns the concerned ones. */
static set before_event(const struct tower_event *event, struct tower_ended will_end) {
    set which = concerned(event, will_end);
    if (!only_takes(event)) {
        stop_these(which);
        which = WRONG_EARLY && which ? invalidate_early(which, will_end) : which;
    }
    return which;
}

/* Invalidates what an event ended, here and on the concerned processors, which then continue. */
static void after_event(const struct tower_event *event, struct tower_ended ended, set which) {
    struct order order = order_for(ended);
    count_forgotten(ended);
    if (order.forget && !WRONG_HERE) {
        invalidate_here(order.identifier, order.page);
    }
    invalidate_there(event, which, order);
}

/* A wrong version: makes an event, and forgets the page after the one that it ended. */
static void step_and_forget_another(const struct tower_event *event, struct tower_reply *reply,
                                    struct tower_ended *ended) {
    need(tower_step_ending(&core, event, reply, ended), "a core answers");
    struct tower_ended another = *ended;
    another.first++;
    need(tower_shadow_forget(&shadow, &another), "the shadow tables forget");
}

/* Makes an event that ends translations of pages, or nothing. */
static struct tower_reply make_in_place(const struct tower_event *event, struct tower_ended will_end) {
    struct tower_reply reply = {0};
    struct tower_ended ended = {0};
    set which = before_event(event, will_end);
    if (WRONG_PAGE) {
        step_and_forget_another(event, &reply, &ended);
    } else {
        need(tower_shadow_step(&core, &shadow, event, &reply, &ended), "a core answers");
    }
    after_event(event, ended, which);
    return reply;
}

/* ---- Ends of processes */

/* Makes an Exit that completes. */
static struct tower_reply make_exit(const struct tower_event *event) {
    struct tower_reply reply = {0};
    struct tower_ended ended = {0};
    leave_everywhere(event->pid);
    if (WRONG_EXIT) {
        need(tower_step_ending(&core, event, &reply, &ended), "a core answers");
    } else {
        need(tower_shadow_step(&core, &shadow, event, &reply, &ended), "a core answers");
    }
    need(ended.kind == TOWER_ENDS_SPACE, "an exit ends what tower_ends said");
    count_forgotten(ended);
    return reply;
}

/* Which processes will exit is known only afterwards, so all processors leave the tables of any. */
struct tower_reply end_family(uint32_t pid, struct tower_processes *exited) {
    struct tower_reply told = {0};
    leave_everywhere(NOBODY);
    need(tower_end(&core, pid, exited, &told), "a core answers");
    for (uint32_t i = 0; told.kind == TOWER_DONE && i < exited->count; i++) {
        forget((struct tower_ended){.kind = TOWER_ENDS_SPACE, .pid = exited->pids[i]});
    }
    return told;
}

/* ---- Any event */

struct tower_reply make_event(struct tower_event event) {
    struct tower_ended will_end = {0};
    bool is_event = tower_ends(&core, &event, &will_end), is_exit = is_event && will_end.kind == TOWER_ENDS_SPACE;
    struct tower_reply reply = is_exit ? make_exit(&event) : make_in_place(&event, will_end);
    if (will_end.kind != TOWER_ENDS_NOTHING) {
        audit_process(will_end.pid);
    }
    return reply;
}

struct tower_reply load_bytes(uint32_t pid, uint32_t address, const uint8_t *bytes, size_t count, bool write) {
    struct tower_reply told = {0};
    need(!shadow_root(pid), "nothing is cached of a process that never ran");
    need(tower_load_bytes(&core, pid, address, bytes, count, write, &told), "a core answers");
    return told;
}

/* ---- Faults */

/* Other processors stop before a fault that gives a page its first frame: they may cache that it had none. */
static uint32_t try_fault(uint32_t pid, uint64_t address, bool write, struct tower_reply *reply) {
    struct tower_event event = {.call = write ? TOWER_STORE : TOWER_LOAD};
    struct tower_ended will_end = {0}, ended = {0};
    need(tower_touch_ends(&core, pid, address, write, &will_end), "an access is an event");
    set which = before_event(&event, will_end);
    uint32_t handled = tower_shadow_fault(&core, &shadow, pid, address, write, reply, &ended);
    after_event(&event, ended, which);
    return handled;
}

bool handle_fault(uint32_t pid, uint64_t address, bool write, struct tower_reply *reply) {
    uint32_t handled = try_fault(pid, address, write, reply);
    while (handled == TOWER_SHADOW_FULL) {
        make_space(pid);
        handled = try_fault(pid, address, write, reply);
    }
    need(handled == TOWER_SHADOW_FILLED || handled == TOWER_SHADOW_STOPPED, "a fault is handled");
    if (handled == TOWER_SHADOW_FILLED) {
        counts.fills++;
        need_root(pid);
        invalidate_here(pid, (uint32_t)(address >> 12)); /* what refused the access may be cached */
    }
    return handled == TOWER_SHADOW_FILLED;
}
