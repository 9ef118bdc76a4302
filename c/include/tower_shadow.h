/* Shadow page tables of a core, for a processor in long mode. The core's own tables have words of 32 bits. These have
 * four levels, and hold for each process some of the translations that the core's walks give now. They are a cache, as a
 * TLB is: a page fault fills them, an event that ends a translation forgets it, and a kernel may forget more at any time.
 * They are in libtower_c.a. docs/C-LIBRARY.md says what is proved of each function.
 *
 * What C owes, in addition to what tower.h says:
 *
 *  - The handle is a `struct tower_shadow`, all zeros (TOWER_SHADOW_NONE) at first. What tower.h says of its handle holds
 *    of this one. The tables are of one core: the one of the handle with which tower_shadow_fault and tower_shadow_step
 *    are called. Calls for the two handles come one at a time.
 *  - What any other function ended of that core's translations is forgotten before the next call with both handles. These
 *    are an event of tower_step_ending or tower_touch (pass its `ended` to tower_shadow_forget), the processes that
 *    tower_end listed, the pages that tower_take_back listed, that tower_load_bytes or tower_write wrote, or that
 *    tower_clean cleared. tower_step, tower_run and tower_run_until don't tell what they ended: ask tower_ends before
 *    each event, or call tower_shadow_forget_all afterwards. tower_free forgets nothing here: call that, too, before the
 *    handle has another core.
 *  - Before a call frees a root, no processor has it in CR3, the caller's own included. The root and all tables below it
 *    may be another process's after the next fill, and the kernel's half of the root is gone. Roots are freed by
 *    tower_shadow_forget of TOWER_ENDS_SPACE, tower_shadow_forget_all, tower_shadow_close, and tower_shadow_step of a
 *    TOWER_EXIT that completes (tower_ends returns that beforehand).
 *  - What a call ended is invalidated on all processors that may cache it, before anything else is done. After a fault
 *    that was filled, the processor also invalidates the page that faulted: it may have cached what refused the access.
 *  - The pool is memory that the processors walk: its frames lie in sequence from the physical address that was passed
 *    on, and the core's from the one that was passed for its frame 0. Both are multiples of 4,096. The frames of the pool
 *    and those of the core lie apart: then no process reaches the pool.
 *  - A processor writes no word of the pool: accessed is set in each, and dirty in each that allows writes. That takes
 *    CR0.WP. In CR4, LA57, PKE and CET are clear. Addresses in words are below the processor's MAXPHYADDR. Every page may
 *    be executed.
 *  - Other processors may walk the tables of a process while a page of it is filled or forgotten: each word that a walk
 *    can reach is written by one store of eight bytes, the one that leads to a new table last. That is tested, and not
 *    proved (examples/c/watched.c).
 */
#ifndef TOWER_SHADOW_H
#define TOWER_SHADOW_H

#include "tower.h"

#ifdef __cplusplus
extern "C" {
#endif

struct tower_shadow {
    bool live;
    void *tables;
};
#define TOWER_SHADOW_NONE TOWER_NONE

/* The fewest frames of a pool for each processor that walks it: with n of them, pass at least n times as many. One
 * instruction accesses three places at most: its own bytes, a source and a destination, each in at most two pages. Their
 * process needs five tables for all of its pages (a root, a table below it, and one for each GiB of the user range), and
 * one more for each of the six pages. With fewer an instruction may fault for ever. */
#define TOWER_SHADOW_LEAST 11
/* The most frames of a pool. */
#define TOWER_SHADOW_MOST 1048576
/* The bytes of the kernel's half of a root: 256 words of 8 bytes. */
#define TOWER_SHADOW_HALF_BYTES 2048

/* The statuses of an opening. All but the first leave the handle as it was. */
enum tower_shadow_status {
    TOWER_SHADOW_OPENED = 0,
    TOWER_SHADOW_BAD_PLACES = 1, /* the number of frames or an address is none of a pool, or the half none of a kernel */
    TOWER_SHADOW_NO_MEMORY = 2,
    TOWER_SHADOW_HAS_TABLES = 3, /* the handle has tables already */
};

/* The name of such a status; "" for a number that is none. */
static inline const char *tower_shadow_status_name(uint32_t status) {
    switch (status) {
    case TOWER_SHADOW_OPENED: return "Opened";
    case TOWER_SHADOW_BAD_PLACES: return "BadPlaces";
    case TOWER_SHADOW_NO_MEMORY: return "NoMemory";
    case TOWER_SHADOW_HAS_TABLES: return "HasTables";
    default: return "";
    }
}

/* Opens tables without a translation or a root, over a pool of TOWER_SHADOW_LEAST to TOWER_SHADOW_MOST frames, which the
 * library requests from rattle_alloc in one block, and writes zeros into. `pool` is the physical address of that block,
 * and `block` that of the core's frame 0. The upper half of each root will be `half`, 2,048 bytes, which are copied. Each
 * of its 256 words that is present has accessed (bit 5) set, and the user bit (bit 2) clear: otherwise
 * TOWER_SHADOW_BAD_PLACES. */
TOWER_NODISCARD uint32_t tower_shadow_open(uint32_t frames, uint64_t pool, uint64_t block, const uint8_t *half,
                                           size_t half_count, struct tower_shadow *shadow);

/* Frees the tables, if the handle has any. */
void tower_shadow_close(struct tower_shadow *shadow);

/* How a fault was handled. */
enum tower_shadow_handled {
    TOWER_SHADOW_FILLED = 0,  /* the processor completes the access */
    TOWER_SHADOW_FULL = 1,    /* the fill needs more frames of the pool than are free, and nothing changed */
    TOWER_SHADOW_STOPPED = 2, /* the core stopped the access, as `reply` says, and nothing changed */
    TOWER_SHADOW_NOTHING = 3, /* one of the handles has nothing, and nothing was written */
};

/* The name of how a fault was handled; "" for a number that is none. */
static inline const char *tower_shadow_handled_name(uint32_t handled) {
    switch (handled) {
    case TOWER_SHADOW_FILLED: return "Filled";
    case TOWER_SHADOW_FULL: return "Full";
    case TOWER_SHADOW_STOPPED: return "Stopped";
    case TOWER_SHADOW_NOTHING: return "Nothing";
    default: return "";
    }
}

/* Handles a page fault of process pid in user mode, whole. It makes the access of the byte as tower_touch does, forgets
 * what that ended, and fills the page's translation with what the core's walk gives. The translation allows writes if the
 * walk does and the page is dirty: dirty of the core is set before a processor may write. Other translations stay, and
 * other processes' roots. A fill takes one frame for each table that is missing on the way to the page, at most four.
 *
 * At TOWER_SHADOW_FULL the caller has all processors leave the roots that it frees, calls tower_shadow_forget_all (or
 * tower_shadow_forget for processes of its choice), and repeats the call; `ended` becomes TOWER_ENDS_NOTHING, and nothing
 * is promised of `reply`. At TOWER_SHADOW_STOPPED `reply` is the process's fault or the core's refusal, or TOWER_NO_EVENT
 * if pid is no process's number. At TOWER_SHADOW_FILLED it becomes TOWER_DONE. */
TOWER_NODISCARD uint32_t tower_shadow_fault(struct tower *tower, struct tower_shadow *shadow, uint32_t pid,
                                            uint64_t address, bool write, struct tower_reply *reply,
                                            struct tower_ended *ended);

/* Carries out one event, as tower_step_ending does, and forgets what it ended. A refusal or a fault changes nothing, nor
 * does what is no event. False if one of the handles has nothing; then nothing is written. */
TOWER_NODISCARD bool tower_shadow_step(struct tower *tower, struct tower_shadow *shadow,
                                       const struct tower_event *event, struct tower_reply *reply,
                                       struct tower_ended *ended);

/* Forgets what was ended: translations of pages, or all of a process, whose root and tables become free. False if the
 * handle has no tables, or the numbers don't say what was ended; then nothing changes. */
TOWER_NODISCARD bool tower_shadow_forget(struct tower_shadow *shadow, const struct tower_ended *ended);

/* Forgets all translations. All frames of the pool become free. False if the handle has no tables. */
TOWER_NODISCARD bool tower_shadow_forget_all(struct tower_shadow *shadow);

/* A page's translation: a frame of the core, and whether a processor lets writes through. */
struct tower_translation {
    uint32_t frame;
    bool write;
};

/* These change nothing, and write only if they return true. They return true exactly if there are tables, and the process
 * has a root (its physical address, for CR3) or the page a translation. */
TOWER_NODISCARD bool tower_shadow_root(const struct tower_shadow *shadow, uint32_t pid, uint64_t *root);
TOWER_NODISCARD bool tower_shadow_translation(const struct tower_shadow *shadow, uint32_t pid, uint32_t page,
                                              struct tower_translation *found);

/* How many frames of the pool are free, and how many a process's tables take; 0 without tables, or if pid is no process's
 * number. */
uint32_t tower_shadow_free_frames(const struct tower_shadow *shadow);
uint32_t tower_shadow_taken_frames(const struct tower_shadow *shadow, uint32_t pid);

/* Where the pool lies in the program, until the tables are freed. False if the handle has none. */
TOWER_NODISCARD bool tower_shadow_pool(const struct tower_shadow *shadow, struct tower_memory *memory);

/* The archive requires a pointer that is not null, as tower.h says of its functions that take a slice. */
TOWER_NODISCARD static inline uint32_t tower_shadow_open_inline(uint32_t frames, uint64_t pool, uint64_t block,
                                                                const uint8_t *half, size_t half_count,
                                                                struct tower_shadow *shadow) {
    const uint8_t byte = 0;
    return tower_shadow_open(frames, pool, block, half_count || half ? half : &byte, half_count, shadow);
}

/* A page of more than 32 bits has no translation: no process has the number 255. */
TOWER_NODISCARD static inline bool tower_shadow_translation_inline(const struct tower_shadow *shadow, uint32_t pid,
                                                                   uint64_t page, struct tower_translation *found) {
    return tower_shadow_translation(shadow, tower_pid_at(pid, page), (uint32_t)page, found);
}

#define tower_shadow_open tower_shadow_open_inline
#define tower_shadow_translation tower_shadow_translation_inline

#ifdef __cplusplus
}
#endif
#endif
