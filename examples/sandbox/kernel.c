#define _GNU_SOURCE
#include "kernel.h"

#include <sys/mman.h>

#include "frames.h"
#include "need.h"
#include "tower_region.h"
#include "tower_region_images.h"

struct kernel kernel = {.core = TOWER_NONE};

/* ---- The block */

static void open_block(uint32_t frames, size_t bytes) {
    frames_begin(frames);
    kernel.bytes = bytes;
    kernel.memory = mmap(NULL, bytes, PROT_READ | PROT_WRITE, MAP_PRIVATE | MAP_ANONYMOUS, -1, 0);
    need(kernel.memory != MAP_FAILED, "there is memory for the core");
}

void kernel_boot(uint32_t frames) {
    open_block(frames, TOWER_BLOCK_BYTES(frames));
    need(tower_boot_over(frames, &kernel.core, kernel.memory, kernel.bytes) == TOWER_BOOTED, "a core boots");
}

uint32_t kernel_restore(const uint8_t *image, size_t count, struct tower_verdict *verdict) {
    open_block(TOWER_MAX_FRAMES, TOWER_RESTORE_WHOLE_BLOCK_BYTES(TOWER_MAX_FRAMES));
    return tower_restore_whole_over(image, count, &kernel.core, verdict, kernel.memory, kernel.bytes);
}

void kernel_close(void) {
    for (uint32_t pid = 0; pid < TOWER_PROCESSES; pid++) {
        engine_close(&kernel.engines[pid]);
    }
    engines_end();
    tower_free(&kernel.core);
    munmap(kernel.memory, kernel.bytes);
}

/* ---- What is taken from engines */

/* The frame of a page; 0, the frame of zeros, if it has none. */
static uint32_t frame_of(uint32_t pid, uint32_t page) {
    struct tower_walk walk;
    bool is_found = page <= TOWER_LAST_PAGE && tower_walk(&kernel.core, pid, page << 12, false, &walk);
    return is_found && walk.kind == TOWER_WALK_FRAME ? walk.frame : 0;
}

/* Of the pages that are on a frame of their own only an Unmap and a Protect end one: it was on that frame. */
static void invalidate(const struct tower_ended *ended, uint32_t frame) {
    if (ended->kind == TOWER_ENDS_SPACE) {
        engine_close(&kernel.engines[ended->pid]);
    } else if (ended->kind != TOWER_ENDS_NOTHING) {
        frames_revoke(ended->pid, ended->first, frame);
        if (ended->kind == TOWER_ENDS_PAGES) {
            frames_revoke(ended->pid, ended->second, frame);
        }
    }
}

/* ---- Events */

struct tower_reply kernel_event(struct tower_event event) {
    struct tower_reply reply = {0};
    struct tower_ended ended = {0};
    uint32_t frame = event.call == TOWER_UNMAP || event.call == TOWER_PROTECT ? frame_of(event.pid, event.first) : 0;
    need(tower_step_ending(&kernel.core, &event, &reply, &ended), "a core replies");
    kernel.events++;
    invalidate(&ended, frame);
    return reply;
}

/* A page of an access that the core has carried out. It may be written in the engine only if it is dirty. */
static void fill(uint32_t pid, uint32_t page) {
    struct tower_walk walk;
    struct tower_page found;
    uint32_t at = 0;
    bool is_found = tower_walk(&kernel.core, pid, page << 12, false, &walk) && walk.kind == TOWER_WALK_FRAME;
    need(is_found, "a walk finds the page of an access");
    need(tower_next_page(&kernel.core, pid, page, &at, &found) && at == page, "the page of an access is mapped");
    bool may = found.write && !found.lazy, write = may && found.dirty;
    frames_show(pid, page, walk.frame, may, write);
}

/* The page that it ends gets its new frame at once. */
struct tower_reply kernel_fault(uint32_t pid, uint32_t address, bool is_store) {
    struct tower_reply reply = {0};
    struct tower_ended ended = {0};
    need(tower_touch(&kernel.core, pid, address, is_store, &reply, &ended), "a core replies");
    kernel.events++;
    need(ended.kind == TOWER_ENDS_NOTHING || (ended.pid == pid && ended.first == address >> 12), "a fault ends its own page");
    if (tower_outcome_of(&reply) == TOWER_OUTCOME_DONE) {
        fill(pid, address >> 12);
    }
    return reply;
}

/* ---- A kernel's acts */

static bool descends(uint32_t pid, uint32_t from) {
    struct tower_container container;
    while (pid && pid != from && tower_container(&kernel.core, pid, &container)) {
        pid = container.parent;
    }
    return pid == from;
}

/* The engines end first: none of them may write to a frame that is free. */
struct tower_reply kernel_end(uint32_t pid, struct tower_processes *exited) {
    struct tower_reply told = {0};
    exited->count = 0;
    for (uint32_t other = 1; other < TOWER_PROCESSES; other++) {
        if (engine_is_open(&kernel.engines[other]) && descends(other, pid)) {
            engine_close(&kernel.engines[other]);
        }
    }
    need(tower_end(&kernel.core, pid, exited, &told), "a core ends processes");
    return told;
}

struct tower_reply kernel_take_back(uint32_t pid, uint32_t page) {
    enum { MOST = 64 };
    struct tower_holder lost[MOST];
    struct tower_reply told = {.kind = TOWER_REFUSED, .first = TOWER_RIGHTS};
    uint32_t frame = frame_of(pid, page), at;
    for (uint32_t other = 0; other < TOWER_PROCESSES; other++) {
        if (!descends(other, pid) && tower_next_holder(&kernel.core, pid, page, other, 0, &at)) {
            return told;
        }
    }
    for (size_t count = MOST; count == MOST;) {
        need(tower_take_back(&kernel.core, pid, page, lost, MOST, &count, &told), "a core takes a page back");
        for (size_t i = 0; i < count; i++) {
            frames_revoke(lost[i].pid, lost[i].page, frame);
        }
    }
    return told;
}

int kernel_parent(uint32_t pid) {
    struct tower_container container;
    return tower_container(&kernel.core, pid, &container) ? (int)container.parent : NO_PROCESS;
}
