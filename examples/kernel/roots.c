#include "roots.h"

#include "audit.h"
#include "core.h"
#include "place.h"
#include "wrong.h"

enum { USER_HALF = 256, ENTRIES = 512 };

/* The tables of a processor that has no process's: the kernel's half of boot.S, and nothing in the other. */
static _Alignas(FRAME) uint64_t kernel_root[ENTRIES];

/* The process of which a processor may cache anything, NOBODY if there is none, and what is in its CR3: that process's
 * root if it has one, otherwise the kernel's. A processor that runs nothing keeps the last process's root, as that may
 * come back to it. */
static struct home {
    uint32_t pid;
    bool runs;
    uint64_t root;
} homes[MOST_PROCESSORS];

static struct root_counts counts;

struct root_counts root_counts(void) {
    return counts;
}

const uint64_t *open_roots(void) {
    extern uint64_t level4[]; /* of boot.S: its symbol is the physical address */
    memmove(kernel_root + USER_HALF, (uint64_t *)at_physical((uint64_t)level4) + USER_HALF, sizeof kernel_root / 2);
    for (uint32_t number = 0; number < MOST_PROCESSORS; number++) {
        homes[number].pid = NOBODY;
    }
    audit_kernel_half(physical_of(kernel_root));
    return kernel_root + USER_HALF;
}

/* ---- This processor */

/* Loads the root of a process, or the kernel's. No page is global: all that this processor cached is dropped. */
static void load_root(uint32_t pid) {
    uint64_t root = pid == NOBODY ? 0 : shadow_root(pid);
    struct home *home = &homes[this_processor()];
    home->pid = pid;
    home->root = root ? root : physical_of(kernel_root);
    __asm__ volatile("mov %0, %%cr3" : : "r"(home->root) : "memory");
}

void need_root(uint32_t pid) {
    const struct home *home = &homes[this_processor()];
    uint64_t root = shadow_root(pid);
    if (home->pid != pid || (root && home->root != root)) {
        load_root(pid);
    }
}

void bring_here(uint32_t pid) {
    need_root(pid);
    homes[this_processor()].runs = true;
}

void leave_process(void) {
    homes[this_processor()].runs = false;
}

void leave_all(void) {
    load_root(NOBODY);
    leave_process();
}

/* A processor that doesn't run the process drops its root, too, and needs no interrupt for it any more. */
void invalidate_here(uint32_t pid, uint32_t page) {
    const struct home *home = &homes[this_processor()];
    if (home->pid != pid) {
        return;
    }
    counts.invalidated++;
    if (!home->runs) {
        load_root(NOBODY);
    } else if (page == ALL_PAGES) {
        load_root(pid);
    } else {
        __asm__ volatile("invlpg (%0)" : : "r"((uint64_t)page << 12) : "memory");
    }
}

/* If this processor runs a process, that finds no page until its next fault is handled. */
static void drop_root_here(uint32_t pid, uint32_t page) {
    (void)pid;
    (void)page;
    counts.invalidated++;
    load_root(NOBODY);
}

/* ---- Other processors */

static bool keeps(uint32_t number, uint32_t pid) {
    uint32_t kept = homes[number].pid;
    return kept != NOBODY && (pid == NOBODY || kept == pid);
}

set keepers_of(uint32_t pid) {
    set found = 0;
    for (uint32_t number = 0; number < MOST_PROCESSORS; number++) {
        found |= number != this_processor() && keeps(number, pid) ? 1u << number : 0;
    }
    return found;
}

set runners(void) {
    set found = 0;
    for (uint32_t number = 0; number < MOST_PROCESSORS; number++) {
        found |= number != this_processor() && homes[number].runs ? 1u << number : 0;
    }
    return found;
}

void stop_these(set which) {
    for (uint32_t number = 0; number < MOST_PROCESSORS; number++) {
        if (which >> number & 1) {
            uint64_t since = moment();
            stop_processor(number);
            uint32_t took = (uint32_t)((moment() - since) / 1000);
            counts.longest = took > counts.longest ? took : counts.longest;
            counts.stopped++;
        }
    }
}

void release_these(set which, struct order order) {
    for (uint32_t number = 0; number < MOST_PROCESSORS; number++) {
        if (which >> number & 1) {
            go_on(number, order);
        }
    }
}

/* The others continue at once: they come back to a root only with the lock. */
void leave_everywhere(uint32_t pid) {
    set which = keepers_of(pid);
    counts.left++;
    stop_these(which);
    release_these(which, (struct order){drop_root_here, NOBODY, 0});
    if (!WRONG_ROOT && keeps(this_processor(), pid)) {
        drop_root_here(NOBODY, 0);
    }
    need_left(pid);
}

void need_left(uint32_t pid) {
    for (uint32_t number = 0; number < MOST_PROCESSORS; number++) {
        need(!keeps(number, pid), "no processor is in tables that are freed");
    }
}
