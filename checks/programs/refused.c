/* Each allocation of each function of the C library that makes one is refused in turn. The function then returns that
 * there is no memory, leaves the handle and the number of blocks as they were, and answers at the next call as it does
 * with memory. Where no allocation is refused, it never returns that: checks and restores of damaged images name the
 * damage. Prints how many allocations each makes. The status is 1 at the first that does otherwise.
 * checks/programs/fail_alloc runs it. */
#include <stdio.h>
#include <string.h>

#define HEAP_OF_LIBRARY
#include "heap.h"
#include "tower_images.h"
#include "tower_threads.h"

enum { FRAMES = 32, LENGTH = TOWER_IMAGE_LENGTH(FRAMES), NONE = -1 };
/* The bytes of an image that are changed (docs/IMAGES.md): of its version, of process 0, of the page of its offer, and
 * the first of frame 0 in an image and in a snapshot. */
enum { VERSION = 4, ACCOUNT = 12 + 8, OFFERED = 1556 + 4, ZERO = 1548 + 16 * FRAMES, WHOLE_ZERO = 1556 + 16 + 20 };

/* What is changed of an image: its last byte is missing, the charge of process 0 or a byte of frame 0 is another, it is
 * of version 1, its offer is of a page that isn't mapped. */
enum damage { SOUND, CUT, PROCESS, FRAME, OLD, OFFER };

static uint8_t image[LENGTH], bytes[LENGTH], front[LENGTH];
/* a snapshot, with an offer */
static uint8_t whole[LENGTH];
static size_t whole_length;
/* what is checked and restored: one of these two, damaged or not */
static uint8_t given[LENGTH];
static size_t given_length;
static struct tower tower = TOWER_NONE;

static void need(bool holds, const char *name, const char *what) {
    if (!holds) {
        printf("%s: not so, with allocation %ld refused: %s\n", name, heap_refused, what);
        exit(1);
    }
}

static uint32_t boot(void) {
    return tower_boot(FRAMES, &tower);
}

static uint32_t boot_wide(void) {
    return tower_boot_wide(FRAMES, &tower);
}

static uint32_t write_image(void) {
    size_t size = 0;
    return tower_image(&tower, bytes, LENGTH, &size);
}

static uint32_t check(void) {
    struct tower_verdict verdict = {0};
    return tower_check(&tower, &verdict);
}

static uint32_t check_bytes(void) {
    struct tower_verdict verdict = {0};
    return tower_check_bytes(given, given_length, &verdict);
}

static uint32_t restore(void) {
    struct tower_verdict verdict = {0};
    return tower_restore(given, given_length, &tower, &verdict);
}

static uint32_t store_front(void) {
    size_t size = 0;
    return tower_store_front(&tower, front, LENGTH, &size);
}

static uint32_t check_whole(void) {
    struct tower_verdict verdict = {0};
    return tower_check_whole(given, given_length, &verdict);
}

static uint32_t restore_whole(void) {
    struct tower_verdict verdict = {0};
    return tower_restore_whole(given, given_length, &tower, &verdict);
}

/* Shares the core, and then takes it back and frees all that was shared. */
static uint32_t share(void) {
    struct tower_cpu cpus[8] = {{0}};
    struct tower_monitor monitors[8] = {{0}};
    uint32_t status = tower_share(&tower, cpus, 8, monitors, 8);
    if (status == TOWER_SHARED) {
        need(tower_cpu_take(&cpus[7], &tower) == TOWER_CPU_DONE, "tower_cpu_take", "the core");
        need(tower_cpu_close(&cpus[7]) == TOWER_CPU_DONE, "tower_cpu_close", "the core stays");
    }
    for (int at = 0; at < 8; at++) {
        need(cpus[at].live == (status == TOWER_SHARED), "tower_share", "all handles or none");
        tower_cpu_free(&cpus[at]);
        tower_monitor_free(&monitors[at]);
    }
    return status;
}

/* A function, what it returns where there is no memory, whether it makes a core, what it is given, and what it returns
 * with memory. */
static const struct trial {
    const char *name;
    uint32_t (*call)(void);
    uint32_t no_memory;
    bool makes_core, is_whole;
    enum damage damage;
    uint32_t status;
} trials[] = {
    {"tower_boot", boot, TOWER_NO_MEMORY, true, false, SOUND, TOWER_BOOTED},
    {"tower_boot_wide", boot_wide, TOWER_NO_MEMORY, true, false, SOUND, TOWER_BOOTED},
    {"tower_image", write_image, TOWER_IMAGE_NO_MEMORY, false, false, SOUND, TOWER_IMAGE_WRITTEN},
    {"tower_store_front", store_front, TOWER_STORE_NO_MEMORY, false, false, SOUND, TOWER_STORED},
    {"tower_check", check, TOWER_CHECK_NO_MEMORY, false, false, SOUND, TOWER_SOUND},
    {"tower_share", share, TOWER_SHARE_NO_MEMORY, false, false, SOUND, TOWER_SHARED},
    {"tower_check_bytes", check_bytes, TOWER_CHECK_NO_MEMORY, false, false, SOUND, TOWER_SOUND},
    {"tower_check_bytes, cut", check_bytes, TOWER_CHECK_NO_MEMORY, false, false, CUT, TOWER_NOT_IMAGE},
    {"tower_check_bytes, process", check_bytes, TOWER_CHECK_NO_MEMORY, false, false, PROCESS, TOWER_PROCESS_FAILS},
    {"tower_check_bytes, frame", check_bytes, TOWER_CHECK_NO_MEMORY, false, false, FRAME, TOWER_FRAME_FAILS},
    {"tower_restore", restore, TOWER_RESTORE_NO_MEMORY, true, false, SOUND, TOWER_RESTORED},
    {"tower_restore, cut", restore, TOWER_RESTORE_NO_MEMORY, true, false, CUT, TOWER_NOT_IMAGE},
    {"tower_restore, process", restore, TOWER_RESTORE_NO_MEMORY, true, false, PROCESS, TOWER_PROCESS_FAILS},
    {"tower_restore, frame", restore, TOWER_RESTORE_NO_MEMORY, true, false, FRAME, TOWER_FRAME_FAILS},
    {"tower_restore, old", restore, TOWER_RESTORE_NO_MEMORY, true, false, OLD, TOWER_RESTORE_OLD_WORDS},
    {"tower_check_whole", check_whole, TOWER_CHECK_NO_MEMORY, false, true, SOUND, TOWER_SOUND},
    {"tower_check_whole, cut", check_whole, TOWER_CHECK_NO_MEMORY, false, true, CUT, TOWER_NOT_IMAGE},
    {"tower_check_whole, process", check_whole, TOWER_CHECK_NO_MEMORY, false, true, PROCESS, TOWER_PROCESS_FAILS},
    {"tower_check_whole, frame", check_whole, TOWER_CHECK_NO_MEMORY, false, true, FRAME, TOWER_FRAME_FAILS},
    {"tower_check_whole, offer", check_whole, TOWER_CHECK_NO_MEMORY, false, true, OFFER, TOWER_OFFER_REFUSED},
    {"tower_restore_whole", restore_whole, TOWER_RESTORE_NO_MEMORY, true, true, SOUND, TOWER_RESTORED},
    {"tower_restore_whole, cut", restore_whole, TOWER_RESTORE_NO_MEMORY, true, true, CUT, TOWER_NOT_IMAGE},
    {"tower_restore_whole, process", restore_whole, TOWER_RESTORE_NO_MEMORY, true, true, PROCESS, TOWER_PROCESS_FAILS},
    {"tower_restore_whole, frame", restore_whole, TOWER_RESTORE_NO_MEMORY, true, true, FRAME, TOWER_FRAME_FAILS},
    {"tower_restore_whole, offer", restore_whole, TOWER_RESTORE_NO_MEMORY, true, true, OFFER, TOWER_OFFER_REFUSED},
};

/* Makes the image that a function is given. */
static void give(const struct trial *it) {
    memcpy(given, it->is_whole ? whole : image, LENGTH);
    given_length = it->is_whole ? whole_length : LENGTH;
    given_length -= it->damage == CUT;
    given[VERSION] = it->damage == OLD ? 1 : given[VERSION];
    given[ACCOUNT] ^= it->damage == PROCESS;
    given[it->is_whole ? WHOLE_ZERO : ZERO] ^= it->damage == FRAME;
    given[OFFERED] ^= it->damage == OFFER;
}

static bool is_done(struct tower_event event) {
    struct tower_reply reply;
    return tower_step(&tower, &event, &reply) && (reply.kind == TOWER_DONE || reply.kind == TOWER_CHILD);
}

/* Boots a core for the functions that want one, with a page that was stored to and is offered. */
static void open_core(void) {
    need(boot() == TOWER_BOOTED && is_done(tower_store(0, 0x40000000, 4, 7)), "tower_boot", "a core");
    need(is_done(tower_spawn(0, 3)) && is_done(tower_offer(0, 0x40000, 1, TOWER_READ_ONLY)), "tower_boot", "an offer");
}

/* Writes the core's snapshot. */
static void write_whole(void) {
    need(tower_store_front(&tower, whole, LENGTH, &whole_length) == TOWER_STORED, "tower_store_front", "a snapshot");
    for (uint32_t frame = 0; frame < FRAMES; frame++) {
        uint32_t status = tower_store_frame(&tower, frame, whole + whole_length, LENGTH - whole_length);
        whole_length += status == TOWER_STORED ? TOWER_RECORD_BYTES : 0;
        need(status == TOWER_STORED || status == TOWER_STORE_FREE_FRAME, "tower_store_frame", "a record");
    }
}

/* Calls it with one allocation refused, and returns whether it got that far. */
static bool refuses(const struct trial *it, long which) {
    size_t before = heap_blocks;
    bool was_live = tower.live;
    heap_refused = which;
    heap_requests = 0;
    uint32_t status = it->call();
    bool reached = heap_requests > which;
    if (reached) {
        need(status == it->no_memory, it->name, "it returns that there is no memory");
        need(heap_blocks == before, it->name, "it frees what it got");
        need(tower.live == was_live, it->name, "it leaves the handle");
        heap_refused = NONE;
        status = it->call();
    }
    heap_refused = NONE;
    need(status == it->status, it->name, "it answers with memory as it is to");
    need(tower.live == (was_live || (it->makes_core && status == 0)), it->name, "it makes a core if it is to");
    if (it->makes_core) {
        tower_free(&tower);
    }
    need(heap_blocks == before, it->name, "it keeps no block");
    return reached;
}

int main(void) {
    open_core();
    need(write_image() == TOWER_IMAGE_WRITTEN, "tower_image", "an image");
    memcpy(image, bytes, LENGTH);
    write_whole();
    tower_free(&tower);
    for (size_t at = 0; at < sizeof trials / sizeof *trials; at++) {
        long which = 0;
        give(&trials[at]);
        if (!trials[at].makes_core) {
            open_core();
        }
        while (refuses(&trials[at], which)) {
            which++;
        }
        printf("%s: %ld\n", trials[at].name, which);
        need(!memcmp(image, bytes, LENGTH), trials[at].name, "the core is as it was");
        tower_free(&tower);
    }
    need(heap_blocks == 0, "all", "no block is left");
    return 0;
}
