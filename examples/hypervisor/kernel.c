#include "kernel.h"

#include "wrong.h"

void open_kernel(struct kernel *it, struct tower *core, void (*forget_page)(uint32_t identifier, uint32_t page),
                 void (*forget_all)(void), uint32_t most_identifiers) {
    *it = (struct kernel){.core = core};
    memset(it->homes, NO_PROCESSOR, sizeof it->homes);
    for (uint32_t i = 0; i < MOST_PROCESSORS; i++) {
        it->books[i] = (struct translations){forget_page, forget_all, .most = most_identifiers};
    }
}

uint32_t bring_here(struct kernel *it, uint32_t pid) {
    uint32_t here = this_processor(), home = it->homes[pid];
    if (home != here && home != NO_PROCESSOR && wrong != WRONG_MOVE) {
        it->moves += give_up(&it->books[home], pid);
    }
    it->homes[pid] = (uint8_t)here;
    return identifier_of(&it->books[here], pid);
}

void leave_kernel(struct kernel *it) {
    struct translations *mine = &it->books[this_processor()];
    memset(mine->identifiers, 0, sizeof mine->identifiers);
    mine->last = 0;
    mine->forget_all();
}

/* Returns the other processor that may cache what an event will end, or NO_PROCESSOR. */
static uint32_t keeper_of_ended(struct kernel *it, const struct tower_event *event) {
    struct tower_ended ended;
    if (event->call != TOWER_ACCEPT || !tower_ends(it->core, event, &ended) || ended.kind == TOWER_ENDS_NOTHING) {
        return NO_PROCESSOR;
    }
    uint32_t home = it->homes[ended.pid];
    bool is_kept = home != NO_PROCESSOR && it->books[home].identifiers[ended.pid];
    return is_kept && home != this_processor() ? home : NO_PROCESSOR;
}

/* Returns what another processor is to do before it continues. */
static struct order order_for(struct kernel *it, struct tower_ended ended) {
    struct translations *book = &it->books[it->homes[ended.pid]];
    need(ended.kind == TOWER_ENDS_PAGE, "one page is what an event ends of another processor's");
    book->pages++;
    return (struct order){book->forget_page, book->identifiers[ended.pid], ended.first};
}

/* Invalidates what an event ended, on the processor that may cache it: this one, or one that stands still and then
 * continues. */
static void invalidate_at_home(struct kernel *it, struct tower_ended ended, uint32_t stopped) {
    uint32_t home = ended.kind == TOWER_ENDS_NOTHING ? NO_PROCESSOR : it->homes[ended.pid];
    bool is_elsewhere = home != NO_PROCESSOR && home != this_processor() && it->books[home].identifiers[ended.pid];
    need(!is_elsewhere || home == stopped, "a processor that keeps what was ended stands still");
    if (home == this_processor()) {
        invalidate(&it->books[home], ended);
    }
    if (stopped != NO_PROCESSOR) {
        go_on(stopped, is_elsewhere ? order_for(it, ended) : (struct order){0});
    }
}

/* A wrong version of it: pages that were ended are invalidated with the next event of the processor that caches them. A
 * processor that stood still continues. */
static void invalidate_late(struct kernel *it, struct tower_ended ended, uint32_t stopped) {
    enum { MOST_LATE = 16 };
    static struct {
        struct tower_ended ended[MOST_LATE];
        uint32_t count;
    } late[MOST_PROCESSORS];
    uint32_t here = this_processor(), home = ended.kind == TOWER_ENDS_NOTHING ? NO_PROCESSOR : it->homes[ended.pid];
    for (; late[here].count; late[here].count--) {
        invalidate(&it->books[here], late[here].ended[late[here].count - 1]);
    }
    if (ended.kind == TOWER_ENDS_SPACE && home == here) {
        invalidate(&it->books[here], ended);
    } else if (home != NO_PROCESSOR && late[home].count < MOST_LATE) {
        late[home].ended[late[home].count++] = ended;
    }
    if (stopped != NO_PROCESSOR) {
        go_on(stopped, (struct order){0});
    }
}

struct tower_reply make_event(struct kernel *it, uint32_t pid, struct tower_event event) {
    struct tower_reply reply = {0};
    struct tower_ended ended = {0};
    event.pid = (uint8_t)pid;
    bool is_copy = event.call == TOWER_FORK && wrong != WRONG_FORK;
    uint32_t keeper = keeper_of_ended(it, &event);
    if (is_copy) {
        stop_others();
    }
    if (keeper != NO_PROCESSOR) {
        stop_processor(keeper);
    }
    need(tower_step_ending(it->core, &event, &reply, &ended), "a core answers");
    (wrong == WRONG_EARLY ? invalidate_late : invalidate_at_home)(it, taken_for(&event, ended), keeper);
    if (ended.kind == TOWER_ENDS_SPACE) {
        it->homes[ended.pid] = NO_PROCESSOR;
    }
    if (is_copy) {
        others_go_on();
    }
    return reply;
}

struct tower_reply make_touch(struct kernel *it, uint32_t pid, uint32_t address, bool is_store) {
    struct tower_reply reply = {0};
    struct tower_ended ended = {0};
    struct tower_event event = {.call = is_store ? TOWER_STORE : TOWER_LOAD};
    need(tower_touch(it->core, pid, address, is_store, &reply, &ended), "a core answers");
    (wrong == WRONG_EARLY ? invalidate_late : invalidate_at_home)(it, taken_for(&event, ended), NO_PROCESSOR);
    return reply;
}

bool write_memory(struct kernel *it, uint32_t pid, uint32_t address, const uint8_t *bytes, uint32_t count) {
    uint32_t here = this_processor(), home = it->homes[pid];
    struct tower_reply stop = {0};
    size_t moved = 0;
    if (home != here && home != NO_PROCESSOR) {
        it->moves += give_up(&it->books[home], pid);
        it->homes[pid] = NO_PROCESSOR;
    }
    stop_others();
    need(tower_write(it->core, pid, address, bytes, count, &moved, &stop), "a core answers");
    others_go_on();
    invalidate_written(&it->books[here], pid, address, count);
    return stop.kind == TOWER_DONE;
}

struct invalidated invalidated_by(const struct kernel *it) {
    struct invalidated sum = {0};
    for (const struct translations *book = it->books; book < it->books + MOST_PROCESSORS; book++) {
        sum.pages += book->pages;
        sum.spaces += book->spaces;
        sum.all += book->all;
    }
    return sum;
}

void tell_invalidated(const struct kernel *it, uint32_t runs, uint32_t stops) {
    struct invalidated sum = invalidated_by(it);
    say("schedule: translations: %u pages invalidated, %u identifiers given up at exits and %u as a process came to "
        "another processor, %u flushes of all, %u interrupts that stopped a processor; at each run it would be %u "
        "flushes of all\n", sum.pages, sum.spaces, it->moves, sum.all, stops, runs);
}

void put_last(struct queue *it, uint32_t pid) {
    it->pids[it->count++] = (uint8_t)pid;
}

static uint32_t take_at(struct queue *it, uint32_t place) {
    uint32_t pid = it->pids[place];
    it->count--;
    memmove(it->pids + place, it->pids + place + 1, it->count - place);
    return pid;
}

bool take_first(struct queue *it, uint32_t *pid) {
    if (it->count == 0) {
        return false;
    }
    *pid = take_at(it, 0);
    return true;
}

static bool take_where(struct queue *it, const struct kernel *kernel, bool (*fits)(const struct kernel *, uint32_t home),
                       uint32_t *pid) {
    for (uint32_t place = 0; place < it->count; place++) {
        if (fits(kernel, kernel->homes[it->pids[place]])) {
            *pid = take_at(it, place);
            return true;
        }
    }
    return false;
}

static bool is_near(const struct kernel *kernel, uint32_t home) {
    (void)kernel;
    return home == NO_PROCESSOR || home == this_processor();
}

static bool is_busy(const struct kernel *kernel, uint32_t home) {
    return kernel->is_busy[home];
}

bool take_near(struct queue *it, struct kernel *kernel, uint32_t *pid) {
    bool *mine = &kernel->is_busy[this_processor()];
    *mine = false;
    *mine = take_where(it, kernel, is_near, pid) || take_where(it, kernel, is_busy, pid);
    return *mine;
}
