/* plain.c with faults: tower_touch, and shadow tables for a processor in long mode, written by hand in C. They have the
 * headers of the library, and the same replies. Nothing is proved of them. One pool at a time. */
#include "plain.c"

#include "tower_shadow.h"

#undef tower_shadow_open
#undef tower_shadow_translation

enum { ENTRIES = 512, LEVELS = 4 };
enum { LONG_WORD = 0x25, LONG_WRITE = 0x42 }; /* present, of user mode, accessed; writable and dirty */
static const uint64_t PLACE = 0x000ffffffffff000u;

static struct {
    uint64_t *memory; /* frames of 512 words */
    uint64_t pool, block;
    uint32_t frames, free, first_free;
    uint32_t *next; /* by frame: the next free one, or the one that its process took before */
    uint8_t half[TOWER_SHADOW_HALF_BYTES];
    struct tables {
        uint32_t root, last, count; /* there is a root if the count isn't 0 */
    } of[TOWER_PROCESSES];
} shadow;

/* ---- A fault of a core's process */

/* The word of a page that a fault finds, makes or fills; NULL at a reply that stops it. */
static uint32_t *touched(uint32_t pid, uint64_t address, bool write, struct tower_reply *to, struct tower_ended *ended) {
    uint32_t page = (uint32_t)(address >> 12);
    *ended = (struct tower_ended){.kind = TOWER_ENDS_NOTHING};
    if (pid >= TOWER_PROCESSES) {
        tell(to, kind(TOWER_NO_EVENT));
        return NULL;
    }
    struct process *of = &core.process[pid];
    if (!of->directory) {
        tell(to, refused(TOWER_NO_PROCESS));
        return NULL;
    }
    if (address > UINT32_MAX || !is_user(page)) {
        tell(to, fault(address > UINT32_MAX ? UINT32_MAX : (uint32_t)address, write ? 6 : 4));
        return NULL;
    }
    uint32_t *word = mapped(of, page);
    if (!word) {
        if (need(of, page) > room(of)) {
            tell(to, refused(TOWER_OVER_QUOTA));
            return NULL;
        }
        put_word(of, page, zeros(true));
        word = word_at(of, page);
    } else if (write && !(*word & ASKED)) {
        tell(to, fault((uint32_t)address, 7));
        return NULL;
    } else if (write && *word & LAZY) {
        *ended = (struct tower_ended){.kind = TOWER_ENDS_PAGE, .pid = pid, .first = page};
    }
    if (write && *word & LAZY) {
        fill(word);
    }
    *word |= ACCESSED | (write ? DIRTY : 0);
    return word;
}

bool tower_touch(struct tower *tower, uint32_t pid, uint64_t address, bool write, struct tower_reply *reply,
                 struct tower_ended *ended) {
    if (!tower->live) {
        return false;
    }
    uint32_t *word = touched(pid, address, write, reply, ended);
    return !word || tell(reply, write ? kind(TOWER_DONE) : valued(*byte_of(*word, (uint32_t)address)));
}

/* ---- Tables */

static uint64_t *table_at(uint32_t frame) {
    return shadow.memory + (size_t)frame * ENTRIES;
}

static uint32_t frame_of(uint64_t word) {
    return (uint32_t)(((word & PLACE) - shadow.pool) >> 12);
}

/* The index in the table of a level, of which the root's is 3. */
static uint32_t index_at(uint32_t level, uint32_t page) {
    return page >> 9 * level & (ENTRIES - 1);
}

static uint32_t take_table(struct tables *of) {
    uint32_t frame = shadow.first_free;
    shadow.first_free = shadow.next[frame];
    shadow.free--;
    shadow.next[frame] = of->last;
    of->last = frame;
    of->count++;
    memset(table_at(frame), 0, TOWER_FRAME_BYTES);
    return frame;
}

/* The lowest table for a page, as far as there is one: at level 0 it is the page's. LEVELS is no table. */
static uint64_t *lowest(const struct tables *of, uint32_t page, uint32_t *level) {
    *level = LEVELS;
    if (!of->count) {
        return NULL;
    }
    uint64_t *table = table_at(of->root);
    for (*level = LEVELS - 1; *level; --*level) {
        uint64_t word = table[index_at(*level, page)];
        if (!(word & PRESENT)) {
            break;
        }
        table = table_at(frame_of(word));
    }
    return table;
}

/* Makes the tables that are missing below that one. A word that a processor may walk is one store, and the last. */
static uint64_t *with_tables(struct tables *of, uint32_t page, uint64_t *table, uint32_t level) {
    if (level == LEVELS) {
        of->root = take_table(of);
        table = table_at(of->root);
        memcpy(table + ENTRIES / 2, shadow.half, sizeof shadow.half);
        level--;
    }
    for (; level; level--) {
        uint32_t below = take_table(of);
        *(volatile uint64_t *)&table[index_at(level, page)] =
            (shadow.pool + (uint64_t)below * TOWER_FRAME_BYTES) | LONG_WORD | LONG_WRITE;
        table = table_at(below);
    }
    return table;
}

static void put_long(uint64_t *table, uint32_t page, uint64_t word) {
    *(volatile uint64_t *)&table[index_at(0, page)] = word;
}

uint32_t tower_shadow_fault(struct tower *tower, struct tower_shadow *tables, uint32_t pid, uint64_t address, bool write,
                            struct tower_reply *reply, struct tower_ended *ended) {
    if (!tower->live || !tables->live) {
        return TOWER_SHADOW_NOTHING;
    }
    uint32_t level = 0, page = (uint32_t)(address >> 12);
    uint64_t *table = NULL;
    if (pid < TOWER_PROCESSES && address <= UINT32_MAX && is_user(page)) {
        table = lowest(&shadow.of[pid], page, &level);
        if (level > shadow.free) {
            *ended = (struct tower_ended){.kind = TOWER_ENDS_NOTHING};
            return TOWER_SHADOW_FULL;
        }
    }
    uint32_t *word = touched(pid, address, write, reply, ended);
    if (!word) {
        return TOWER_SHADOW_STOPPED;
    }
    if (level) {
        table = with_tables(&shadow.of[pid], page, table, level);
    }
    bool may = (*word & (WRITE | DIRTY)) == (WRITE | DIRTY);
    uint32_t frame = *word & LAZY ? 0 : *word >> 12;
    put_long(table, page, (shadow.block + (uint64_t)frame * TOWER_FRAME_BYTES) | LONG_WORD | (may ? LONG_WRITE : 0));
    tell(reply, kind(TOWER_DONE));
    return TOWER_SHADOW_FILLED;
}

static void forget_page(uint32_t pid, uint32_t page) {
    uint32_t level;
    uint64_t *table = is_user(page) ? lowest(&shadow.of[pid], page, &level) : NULL;
    if (table && !level) {
        put_long(table, page, 0);
    }
}

static void forget_process(uint32_t pid) {
    struct tables *of = &shadow.of[pid];
    if (of->count) {
        shadow.next[of->root] = shadow.first_free; /* the first that it took */
        shadow.first_free = of->last;
        shadow.free += of->count;
        of->count = 0;
    }
}

bool tower_shadow_forget(struct tower_shadow *tables, const struct tower_ended *ended) {
    if (!tables->live || ended->kind > TOWER_ENDS_SPACE || (ended->kind && ended->pid >= TOWER_PROCESSES)) {
        return false;
    }
    if (ended->kind == TOWER_ENDS_SPACE) {
        forget_process(ended->pid);
    } else if (ended->kind != TOWER_ENDS_NOTHING) {
        forget_page(ended->pid, ended->first);
        if (ended->kind == TOWER_ENDS_PAGES) {
            forget_page(ended->pid, ended->second);
        }
    }
    return true;
}

bool tower_shadow_forget_all(struct tower_shadow *tables) {
    for (uint32_t pid = 0; tables->live && pid < TOWER_PROCESSES; pid++) {
        forget_process(pid);
    }
    return tables->live;
}

bool tower_shadow_translation(const struct tower_shadow *tables, uint32_t pid, uint32_t page,
                              struct tower_translation *found) {
    uint32_t level = LEVELS;
    uint64_t *table = tables->live && pid < TOWER_PROCESSES && is_user(page) ? lowest(&shadow.of[pid], page, &level) : NULL;
    uint64_t word = table && !level ? table[index_at(0, page)] : 0;
    if (word & PRESENT) {
        *found = (struct tower_translation){(uint32_t)(((word & PLACE) - shadow.block) >> 12), (word & WRITE) != 0};
    }
    return word & PRESENT;
}

uint32_t tower_shadow_free_frames(const struct tower_shadow *tables) {
    return tables->live ? shadow.free : 0;
}

uint32_t tower_shadow_taken_frames(const struct tower_shadow *tables, uint32_t pid) {
    return tables->live && pid < TOWER_PROCESSES ? shadow.of[pid].count : 0;
}

uint32_t tower_shadow_open(uint32_t frames, uint64_t pool, uint64_t block, const uint8_t *half, size_t half_count,
                           struct tower_shadow *tables) {
    if (tables->live) {
        return TOWER_SHADOW_HAS_TABLES;
    }
    if (frames < TOWER_SHADOW_LEAST || frames > TOWER_SHADOW_MOST || half_count != sizeof shadow.half) {
        return TOWER_SHADOW_BAD_PLACES;
    }
    shadow.memory = calloc(frames, TOWER_FRAME_BYTES);
    shadow.next = calloc(frames, sizeof *shadow.next);
    if (!shadow.memory || !shadow.next) {
        return TOWER_SHADOW_NO_MEMORY;
    }
    memcpy(shadow.half, half, half_count);
    shadow.pool = pool;
    shadow.block = block;
    shadow.frames = shadow.free = frames;
    for (uint32_t frame = 0; frame + 1 < frames; frame++) {
        shadow.next[frame] = frame + 1;
    }
    shadow.first_free = 0;
    tables->live = true;
    tables->tables = &shadow;
    return TOWER_SHADOW_OPENED;
}
