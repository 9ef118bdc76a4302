/* What a tenant's call does. */
#include "calls.h"

#include "kernel.h"
#include "need.h"
#include "output.h"
#include "tenants.h"

enum { MOST_PIECE = 4096 };
static const struct tower_reply no_event = {.kind = TOWER_NO_EVENT}, done = {.kind = TOWER_DONE};

static struct tower_reply write_text(uint32_t pid, uint32_t address, uint32_t count) {
    static uint8_t piece[MOST_PIECE];
    struct tower_reply stop = no_event;
    size_t moved = 0;
    if (count > MOST_PIECE) {
        return no_event;
    }
    need(tower_read(&kernel.core, pid, address, piece, count, &moved, &stop), "a core reads");
    return output_text(pid, (const char *)piece, moved) ? stop : no_event;
}

/* The first offer to the process, of givers and pages from these on. */
static struct tower_reply offered(uint32_t pid, uint32_t giver, uint32_t page) {
    for (; giver < TOWER_PROCESSES; giver++, page = 0) {
        struct tower_offer offer;
        for (uint32_t target = 0; tower_next_offer(&kernel.core, giver, page, target, &offer);) {
            if (offer.target == pid) {
                return (struct tower_reply){TOWER_CHILD, giver, offer.page, offer.write, false, false, false, false};
            }
            page = offer.page;
            target = offer.target + 1;
        }
    }
    return (struct tower_reply){.kind = TOWER_REFUSED, .first = TOWER_NO_OFFER};
}

/* Children that run nothing end with their parent: a spawn made them, and no program is in them. */
static void end_spawned(uint32_t pid) {
    for (uint32_t child = 1; child < TOWER_PROCESSES; child++) {
        if (kernel_parent(child) == (int)pid && !tenants[child].runs) {
            tenant_end(child, "");
        }
    }
}

static struct tower_reply end_child(uint32_t pid, uint32_t child) {
    if (kernel_parent(child) != (int)pid) {
        return (struct tower_reply){.kind = TOWER_REFUSED, .first = TOWER_NO_PROCESS};
    }
    tenant_end(child, "ended: its parent ended it");
    return done;
}

static struct tower_reply call_machine(const struct tower_event *event) {
    struct tower_reply reply = kernel_event(*event);
    if (reply.kind == TOWER_CHILD && event->call == TOWER_FORK) {
        tenant_fork(event->pid, reply.first);
    } else if (reply.kind == TOWER_DONE && event->call == TOWER_EXIT) {
        tenant_gone(event->pid);
    }
    return reply;
}

struct tower_reply tenant_call(uint32_t pid, const struct tower_event *event) {
    switch (event->call) {
    case CALL_YIELD: tenant_end_turn(); return done;
    case CALL_WRITE: return write_text(pid, event->first, event->second);
    case CALL_OFFERED: return offered(pid, event->first, event->second);
    case CALL_END: return end_child(pid, event->first);
    case CALL_TAKE_BACK: return kernel_take_back(pid, event->first);
    case TOWER_EXIT: end_spawned(pid); return call_machine(event);
    default: return call_machine(event);
    }
}
