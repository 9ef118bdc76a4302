#include "audit.h"

#include "core.h"
#include "place.h"

enum { ENTRIES = 512, USER_HALF = 256, TOP = 3, PRESENT = 1, WRITABLE = 2, USER = 4, LARGE = 0x80 };
#define FRAME_BITS 0x000ffffffffff000u

static const uint64_t *table_of(uint64_t entry) {
    return at_physical(entry & FRAME_BITS);
}

static void audit_entry(uint32_t pid, uint64_t page, uint64_t entry) {
    struct tower_walk walk;
    struct tower_page found;
    uint32_t first;
    need(page >= TOWER_FIRST_PAGE && page <= TOWER_LAST_PAGE, "audit: a shadow entry is of a user page");
    uint32_t at = (uint32_t)page << 12;
    need(tower_walk(&core, pid, at, false, &walk), "audit: a process with a shadow entry is live");
    need(walk.kind == TOWER_WALK_FRAME, "audit: the walk finds the page of a shadow entry");
    need((entry & FRAME_BITS) == core_physical() + (uint64_t)walk.frame * FRAME,
         "audit: a shadow entry has the walk's frame");
    if (entry & WRITABLE) {
        need(tower_walk(&core, pid, at, true, &walk) && walk.kind == TOWER_WALK_FRAME,
             "audit: the walk allows a write if the shadow entry does");
        need(tower_next_page(&core, pid, (uint32_t)page, &first, &found) && first == page && found.dirty,
             "audit: a page that may be written to without a fault is dirty");
    }
}

/* Checks the entries below one table. `before` has the indices that lead to it. */
static uint32_t audit_table(uint32_t pid, const uint64_t *table, uint32_t entries, uint32_t level, uint64_t before) {
    uint32_t count = 0;
    for (uint32_t index = 0; index < entries; index++) {
        uint64_t entry = table[index], path = before * ENTRIES + index;
        if (!(entry & PRESENT)) {
            continue;
        }
        if (level == 0) {
            audit_entry(pid, path, entry);
            count++;
        } else {
            count += audit_table(pid, table_of(entry), ENTRIES, level - 1, path);
        }
    }
    return count;
}

uint32_t audit_process(uint32_t pid) {
    uint64_t root = shadow_root(pid);
    return root ? audit_table(pid, table_of(root), USER_HALF, TOP, 0) : 0;
}

/* Whether a process may use something below an entry: each entry on the way there has to allow it. */
static bool is_for_users(uint64_t entry, uint32_t level) {
    if (!(entry & PRESENT) || !(entry & USER)) {
        return false;
    }
    if (level == 0 || entry & LARGE) {
        return true;
    }
    for (uint32_t index = 0; index < ENTRIES; index++) {
        if (is_for_users(table_of(entry)[index], level - 1)) {
            return true;
        }
    }
    return false;
}

void audit_kernel_half(uint64_t root) {
    for (uint32_t index = USER_HALF; index < ENTRIES; index++) {
        need(!is_for_users(table_of(root)[index], TOP), "audit: no process may use the kernel's half");
    }
}

uint32_t audit_all(void) {
    uint32_t count = 0;
    for (uint32_t pid = 0; pid < TOWER_PROCESSES; pid++) {
        if (shadow_root(pid)) {
            audit_kernel_half(shadow_root(pid));
        }
        count += audit_process(pid);
    }
    return count;
}
