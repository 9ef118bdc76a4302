/* Reads all roles, containers and directories of a core in one call, and counts the library's blocks, for
 * against_library and damaged. */
#define HEAP_OF_LIBRARY
#include "heap.h"
#include "tower.h"

size_t look_blocks(void);

size_t look_blocks(void) {
    return heap_blocks;
}

static void look_at_roles(const struct tower *tower, uint32_t *roles) {
    for (uint32_t frame = 0; frame < tower_frames(tower); frame++) {
        struct tower_role role = {0, 0, 0, 0};
        *roles++ = tower_role(tower, frame, &role) ? role.kind : 99;
        *roles++ = role.pid;
        *roles++ = role.slot;
        *roles++ = role.count;
    }
}

static void look_at_containers(const struct tower *tower, uint32_t *containers) {
    for (uint32_t pid = 0; pid < TOWER_PROCESSES; pid++) {
        struct tower_container found = {0, 0, 0, 0, 0};
        *containers++ = tower_container(tower, pid, &found);
        *containers++ = found.parent;
        *containers++ = found.quota;
        *containers++ = found.used;
        *containers++ = found.given;
        *containers++ = found.children;
    }
}

/* Writes four numbers for each frame; six for each process: live, parent, quota, used, given, children; and a
 * directory for each process, UINT32_MAX if there is none. */
void look(const struct tower *tower, uint32_t *roles, uint32_t *containers, uint32_t *directories) {
    look_at_roles(tower, roles);
    look_at_containers(tower, containers);
    for (uint32_t pid = 0; pid < TOWER_PROCESSES; pid++) {
        uint32_t frame = 0;
        directories[pid] = tower_directory(tower, pid, &frame) ? frame : UINT32_MAX;
    }
}
