#include "pool.h"

#include "core.h"
#include "place.h"
#include "roots.h"
#include "threads.h"
#include "tower_region_shadow.h"
#include "wrong.h"

/* The pool has fewer frames than all processes of the trial would fill: it becomes full at times. */
enum { POOL_FRAMES = WRONG_LEAST ? 4 * SHADOW_LEAST - 1 : POOL };

static _Alignas(FRAME) uint8_t block[TOWER_SHADOW_BLOCK_BYTES(POOL_FRAMES)];
static struct pool_counts counts;

struct pool_counts pool_counts(void) {
    return counts;
}

void open_pool(void) {
    need(POOL_FRAMES >= SHADOW_LEAST * processors_there(),
         "the pool of shadow tables has what an instruction can need, on each processor");
    struct tower_shadow_places places = {.pool = physical_of(block), .core = core_physical()};
    uint32_t status = tower_shadow_open_over(POOL_FRAMES, places, open_roots(), &shadow, block, sizeof block);
    need(status == TOWER_SHADOW_OPENED, "shadow tables are opened");
}

static uint32_t taken(uint32_t pid) {
    return tower_shadow_taken_frames(&shadow, pid);
}

/* Whether a process has more frames than the instructions that it runs can need. One that waits for its turn needs
 * none. */
static bool has_more(uint32_t pid) {
    return taken(pid) > SHADOW_LEAST * running_threads(pid);
}

/* The process that has taken most, of those that have more than they need; among equals the process itself is last.
 * If no other has more than it needs, it is the process itself. The pool then has all that its instruction needs. */
static uint32_t who_has_most(uint32_t pid) {
    uint32_t most = pid, frames = has_more(pid) ? taken(pid) : 0;
    for (uint32_t other = 0; other < TOWER_PROCESSES; other++) {
        if (other != pid && taken(other) && has_more(other) && taken(other) >= frames) {
            most = other;
            frames = taken(other);
        }
    }
    return most;
}

static void take_all_from(uint32_t pid, uint32_t for_pid) {
    need(pid == for_pid || has_more(pid), "a process that runs keeps what its instructions can need");
    if (!WRONG_FULL) {
        leave_everywhere(pid);
    }
    need_left(pid);
    need(tower_shadow_forget(&shadow, &(struct tower_ended){.kind = TOWER_ENDS_SPACE, .pid = pid}),
         "the shadow tables forget");
    counts.own += pid == for_pid;
    counts.others += pid != for_pid;
}

void make_space(uint32_t pid) {
    for (uint32_t other = 0; WRONG_MOST && other < TOWER_PROCESSES; other++) {
        if (taken(other)) {
            take_all_from(other, pid);
        }
    }
    uint32_t most = who_has_most(pid);
    need(WRONG_MOST || taken(most), "a full pool has tables to forget");
    take_all_from(most, pid);
}
