#include "compare.h"

#include "machine.h"
#include "walk.h"

bool same_replies(struct tower_reply a, struct tower_reply b) {
    return a.kind == b.kind && a.first == b.first && a.second == b.second && a.third == b.third && a.write == b.write &&
           a.may == b.may && a.accessed == b.accessed && a.dirty == b.dirty;
}

bool same_roles(struct tower_role a, struct tower_role b) {
    return a.kind == b.kind && a.pid == b.pid && a.slot == b.slot && a.count == b.count;
}

bool same_containers(struct tower_container a, struct tower_container b) {
    return a.parent == b.parent && a.quota == b.quota && a.used == b.used && a.given == b.given &&
           a.children == b.children;
}

static void compare_frame(uint32_t frame, const uint32_t *mine, const uint32_t *its, bool is_directory) {
    for (uint32_t i = 0; i < FRAME / 4; i++) {
        uint32_t free = is_directory ? ACCESSED : 0;
        if ((mine[i] | free) != (its[i] | free)) {
            say("frame %u, word %u: %x and %x\n", frame, i, mine[i], its[i]);
            fail("all of memory agrees with the second core's");
        }
    }
}

static void compare_frames(struct tower *one, struct tower *other) {
    const uint8_t *mine = memory_of(one), *its = memory_of(other);
    for (uint32_t frame = 0; frame < FRAMES; frame++) {
        struct tower_role a, b;
        need(tower_role(one, frame, &a) && tower_role(other, frame, &b), "a frame has a role");
        need(same_roles(a, b), "a frame's roles agree with the second core's");
        size_t at = (size_t)frame * FRAME;
        compare_frame(frame, (const uint32_t *)(mine + at), (const uint32_t *)(its + at),
                      a.kind == TOWER_FRAME_DIRECTORY);
    }
}

void compare_cores(struct tower *one, struct tower *other) {
    for (uint32_t pid = 0; pid < TOWER_PROCESSES; pid++) {
        struct tower_container a = {0}, b = {0};
        bool is_live = tower_container(one, pid, &a);
        need(tower_container(other, pid, &b) == is_live && same_containers(a, b),
             "a process's containers agree with the second core's");
    }
    compare_frames(one, other);
}
