/* A core written by hand in C, to compare the proved one with: the same header, the same replies, the same page words.
 * It has tower_boot, tower_boot_wide, tower_step and tower_free, and nothing is proved of it. One core at a time. */
#include <stdlib.h>
#include <string.h>

#include "tower.h"

enum { WORDS = 1024, PRESENT = 1, WRITE = 2, USER = 4, ACCESSED = 0x20, DIRTY = 0x40, MAY = 0x200, LAZY = 0x400 };
enum { ASKED = 0x800 }; /* the right to write, which a lazy page's word has instead of WRITE */
enum { LEADS = PRESENT | WRITE | USER };

/* A process. Its directory is a frame; it is live if that isn't 0. */
struct process {
    uint32_t directory, parent, quota, used, given, children, offers;
    struct offer {
        uint32_t page;
        uint8_t target, write;
    } offer[TOWER_OFFERS];
};

static struct {
    uint32_t frames, first_free, live;
    uint32_t *memory; /* frames of 1,024 words */
    uint32_t *count;  /* by frame: the slots that hold a page, the pages of a table, the next of a free one */
    struct process process[TOWER_PROCESSES];
} core;

static uint32_t *frame_at(uint32_t frame) {
    return core.memory + (size_t)frame * WORDS;
}

/* A frame from the list of the free ones. The quotas leave one. */
static uint32_t take(void) {
    uint32_t frame = core.first_free;
    core.first_free = core.count[frame];
    return frame;
}

static uint32_t take_zeros(void) {
    uint32_t frame = take();
    memset(frame_at(frame), 0, TOWER_FRAME_BYTES);
    core.count[frame] = 0;
    return frame;
}

static void put_back(uint32_t frame) {
    core.count[frame] = core.first_free;
    core.first_free = frame;
}

static bool is_user(uint32_t page) {
    return page >= TOWER_FIRST_PAGE && page <= TOWER_LAST_PAGE;
}

/* The directory's word for a page, and the page's own word, or NULL where it has no table. */
static uint32_t *directory_word(const struct process *of, uint32_t page) {
    return frame_at(of->directory) + (page >> 10);
}

static uint32_t *word_at(const struct process *of, uint32_t page) {
    uint32_t leads = *directory_word(of, page);
    return leads & PRESENT ? frame_at(leads >> 12) + (page & (WORDS - 1)) : NULL;
}

static uint32_t *mapped(const struct process *of, uint32_t page) {
    uint32_t *word = word_at(of, page);
    return word && *word & PRESENT ? word : NULL;
}

static uint32_t room(const struct process *of) {
    return of->quota - of->used - of->given;
}

/* ---- Replies */

static struct tower_reply kind(uint32_t it) {
    return (struct tower_reply){.kind = it};
}

static struct tower_reply valued(uint32_t value) {
    return (struct tower_reply){.kind = TOWER_VALUE, .first = value};
}

static struct tower_reply refused(uint32_t cause) {
    return (struct tower_reply){.kind = TOWER_REFUSED, .first = cause};
}

static struct tower_reply fault(uint32_t address, uint32_t code) {
    return (struct tower_reply){.kind = TOWER_FAULT, .first = address, .second = code};
}

static bool tell(struct tower_reply *to, struct tower_reply reply) {
    *to = reply;
    return true;
}

/* The word of a mapped page; NULL once the page is refused. */
static inline __attribute__((always_inline)) uint32_t *mapped_page(const struct process *of, uint32_t page,
                                                                   struct tower_reply *to) {
    uint32_t *word = is_user(page) ? mapped(of, page) : NULL;
    if (!word) {
        tell(to, refused(is_user(page) ? TOWER_NOT_MAPPED : TOWER_BAD_PAGE));
    }
    return word;
}

/* ---- Pages */

/* Puts a word into a table, which it makes if there is none. */
static void put_word(struct process *of, uint32_t page, uint32_t word) {
    uint32_t *leads = directory_word(of, page);
    if (!(*leads & PRESENT)) {
        *leads = take_zeros() << 12 | LEADS;
        of->used++;
    }
    core.count[*leads >> 12]++;
    frame_at(*leads >> 12)[page & (WORDS - 1)] = word;
    of->used++;
}

static uint32_t need(const struct process *of, uint32_t page) {
    uint32_t leads = *directory_word(of, page);
    return leads & PRESENT ? 1 : 2;
}

static uint32_t zeros(bool write) {
    return PRESENT | USER | MAY | LAZY | (write ? ASKED : 0);
}

/* Gives a lazy page a frame of its own. */
static void fill(uint32_t *word) {
    uint32_t frame = take_zeros();
    core.count[frame] = 1;
    *word = (*word & ~(uint32_t)LAZY) | frame << 12 | (*word & ASKED ? WRITE : 0);
}

static void let_go(uint32_t word) {
    if (!(word & LAZY) && --core.count[word >> 12] == 0) {
        put_back(word >> 12);
    }
}

static void drop_offers(struct process *of, uint32_t page) {
    for (uint32_t i = 0; i < of->offers;) {
        if (of->offer[i].page == page) {
            of->offer[i] = of->offer[--of->offers];
        } else {
            i++;
        }
    }
}

static void drop_offers_to(struct process *of, uint32_t target) {
    for (uint32_t i = 0; i < of->offers;) {
        if (of->offer[i].target == target) {
            of->offer[i] = of->offer[--of->offers];
        } else {
            i++;
        }
    }
}

static struct offer *offer_at(struct process *of, uint32_t page, uint32_t target) {
    for (uint32_t i = 0; i < of->offers; i++) {
        if (of->offer[i].page == page && of->offer[i].target == target) {
            return &of->offer[i];
        }
    }
    return NULL;
}

/* ---- Accesses */

static uint32_t bytes_at(const uint8_t *at, uint32_t size) {
    uint32_t value = 0;
    memcpy(&value, at, size == 4 ? 4 : size == 2 ? 2 : 1);
    return value;
}

static void put_bytes(uint8_t *at, uint32_t size, uint32_t value) {
    memcpy(at, &value, size == 4 ? 4 : size == 2 ? 2 : 1);
}

static uint8_t *byte_of(uint32_t word, uint32_t address) {
    return (uint8_t *)frame_at(word >> 12) + (address & 4095);
}


/* An access that isn't in one page that takes it as it is: it first maps and fills what it touches. */
static __attribute__((noinline)) bool access_any(struct process *of, const struct tower_event *it, bool store,
                                                 struct tower_reply *to) {
    uint32_t address = it->first, size = it->flag, last = address + (size - 1);
    uint32_t first_page = address >> 12, last_page = last >> 12, needs = 0;
    if (!is_user(first_page) || !is_user(last_page)) {
        return tell(to, fault(is_user(first_page) ? last & ~4095u : address, store ? 6 : 4));
    }
    uint32_t *one = mapped(of, first_page), *other = last_page == first_page ? one : mapped(of, last_page);
    if (store && one && !(*one & ASKED)) {
        return tell(to, fault(address, 7));
    }
    if (store && other && !(*other & ASKED)) {
        return tell(to, fault(last & ~4095u, 7));
    }
    needs += one ? 0 : need(of, first_page);
    if (last_page != first_page && !other) {
        bool is_opened = !one && first_page >> 10 == last_page >> 10;
        needs += is_opened ? 1 : need(of, last_page);
    }
    if (needs > room(of)) {
        return tell(to, refused(TOWER_OVER_QUOTA));
    }
    uint32_t value = 0;
    for (uint32_t page = first_page, from = 0; page <= last_page; page++) {
        uint32_t *word = mapped(of, page);
        if (!word) {
            put_word(of, page, zeros(true));
            word = word_at(of, page);
        }
        if (store && *word & LAZY) {
            fill(word);
        }
        *word |= ACCESSED | (store ? DIRTY : 0);
        uint32_t till = page < last_page ? 4096 - (address & 4095) : size;
        for (; from < till; from++) {
            uint8_t *byte = byte_of(*word, address + from);
            if (store) {
                *byte = (uint8_t)(it->second >> 8 * from);
            } else {
                value |= (uint32_t)*byte << 8 * from;
            }
        }
    }
    return tell(to, store ? kind(TOWER_DONE) : valued(value));
}

static bool load(struct process *of, const struct tower_event *it, struct tower_reply *to) {
    uint32_t address = it->first, size = it->flag, page = address >> 12;
    if (is_user(page) && (address & 4095) + size <= 4096) {
        uint32_t *word = mapped(of, page);
        if (word) {
            *word |= ACCESSED;
            return tell(to, valued(bytes_at(byte_of(*word, address), size)));
        }
    }
    return access_any(of, it, false, to);
}

static bool store(struct process *of, const struct tower_event *it, struct tower_reply *to) {
    uint32_t address = it->first, size = it->flag, page = address >> 12;
    if (is_user(page) && (address & 4095) + size <= 4096) {
        uint32_t *word = mapped(of, page);
        if (word && *word & WRITE) {
            *word |= ACCESSED | DIRTY;
            put_bytes(byte_of(*word, address), size, it->second);
            return tell(to, kind(TOWER_DONE));
        }
    }
    return access_any(of, it, true, to);
}

/* ---- Calls of pages */

static bool map(struct process *of, const struct tower_event *it, struct tower_reply *to) {
    uint32_t page = it->first;
    if (!is_user(page)) {
        return tell(to, refused(TOWER_BAD_PAGE));
    }
    if (mapped(of, page)) {
        return tell(to, refused(TOWER_MAPPED));
    }
    if (need(of, page) > room(of)) {
        return tell(to, refused(TOWER_OVER_QUOTA));
    }
    put_word(of, page, zeros(it->flag));
    return tell(to, kind(TOWER_DONE));
}

static bool unmap(struct process *of, const struct tower_event *it, struct tower_reply *to) {
    uint32_t page = it->first;
    uint32_t *word = mapped_page(of, page, to);
    if (!word) {
        return true;
    }
    let_go(*word);
    *word = 0;
    of->used--;
    uint32_t *leads = directory_word(of, page);
    if (--core.count[*leads >> 12] == 0) {
        put_back(*leads >> 12);
        *leads = 0;
        of->used--;
    }
    if (of->offers) {
        drop_offers(of, page);
    }
    return tell(to, kind(TOWER_DONE));
}

static bool protect(struct process *of, const struct tower_event *it, struct tower_reply *to) {
    uint32_t *word = mapped_page(of, it->first, to);
    if (!word) {
        return true;
    }
    if (it->flag && !(*word & MAY)) {
        return tell(to, refused(TOWER_RIGHTS));
    }
    *word &= ~(uint32_t)(WRITE | ASKED);
    *word |= !it->flag ? 0 : *word & LAZY ? ASKED : ASKED | WRITE;
    return tell(to, kind(TOWER_DONE));
}

static bool info(struct process *of, const struct tower_event *it, struct tower_reply *to) {
    uint32_t *word = mapped_page(of, it->first, to);
    if (!word) {
        return true;
    }
    *to = (struct tower_reply){.kind = TOWER_FLAGS, .first = *word & LAZY ? 1 : core.count[*word >> 12],
                               .write = (*word & ASKED) != 0, .may = (*word & MAY) != 0,
                               .accessed = (*word & ACCESSED) != 0, .dirty = (*word & DIRTY) != 0};
    return true;
}

/* ---- Offers */

static bool offer(struct process *of, const struct tower_event *it, struct tower_reply *to) {
    uint32_t *word = mapped_page(of, it->first, to);
    if (!word) {
        return true;
    }
    if (it->second == it->pid) {
        return tell(to, refused(TOWER_SELF_OFFER));
    }
    if (!core.process[it->second].directory) {
        return tell(to, refused(TOWER_NO_TARGET));
    }
    if (it->flag && !(*word & MAY)) {
        return tell(to, refused(TOWER_RIGHTS));
    }
    if (offer_at(of, it->first, it->second)) {
        return tell(to, refused(TOWER_OFFER_PENDING));
    }
    if (of->offers == TOWER_OFFERS) {
        return tell(to, refused(TOWER_TOO_MANY_OFFERS));
    }
    of->offer[of->offers++] = (struct offer){it->first, (uint8_t)it->second, it->flag};
    return tell(to, kind(TOWER_DONE));
}

static bool withdraw(struct process *of, const struct tower_event *it, struct tower_reply *to) {
    if (!is_user(it->first)) {
        return tell(to, refused(TOWER_BAD_PAGE));
    }
    struct offer *found = offer_at(of, it->first, it->second);
    if (!found) {
        return tell(to, refused(TOWER_NO_OFFER));
    }
    *found = of->offer[--of->offers];
    return tell(to, kind(TOWER_DONE));
}

static bool accept(struct process *of, const struct tower_event *it, struct tower_reply *to) {
    struct process *giver = &core.process[it->second];
    if (!is_user(it->third)) {
        return tell(to, refused(TOWER_BAD_PAGE));
    }
    struct offer *found = offer_at(giver, it->first, it->pid);
    if (!found) {
        return tell(to, refused(TOWER_NO_OFFER));
    }
    if (mapped(of, it->third)) {
        return tell(to, refused(TOWER_MAPPED));
    }
    if (need(of, it->third) > room(of)) {
        return tell(to, refused(TOWER_OVER_QUOTA));
    }
    bool write = found->write;
    *found = giver->offer[--giver->offers];
    uint32_t *word = mapped(giver, it->first);
    if (*word & LAZY) {
        fill(word);
    }
    core.count[*word >> 12]++;
    put_word(of, it->third, (*word & 0xfffff000) | PRESENT | USER | (write ? WRITE | ASKED | MAY : 0));
    return tell(to, kind(TOWER_DONE));
}

/* ---- Processes */

static uint32_t least_free(void) {
    uint32_t pid = 0;
    while (core.process[pid].directory) {
        pid++;
    }
    return pid;
}

static bool open_process(struct process *parent, uint32_t number, uint32_t quota, uint32_t least,
                         struct tower_reply *to) {
    if (quota == 0) {
        return tell(to, refused(TOWER_BAD_QUOTA));
    }
    if (core.live == TOWER_PROCESSES) {
        return tell(to, refused(TOWER_TABLE_FULL));
    }
    if (quota < least) {
        return tell(to, refused(TOWER_TOO_SMALL));
    }
    if (quota > room(parent)) {
        return tell(to, refused(TOWER_OVER_QUOTA));
    }
    uint32_t pid = least_free();
    struct process *child = &core.process[pid];
    child->directory = take_zeros();
    child->parent = number;
    child->quota = quota;
    child->used = 1;
    child->given = child->children = child->offers = 0;
    parent->given += quota;
    parent->children++;
    core.live++;
    return tell(to, (struct tower_reply){.kind = TOWER_CHILD, .first = pid});
}

/* Copies a table: a frame for each page that has one. */
static void copy_table(uint32_t table, struct process *child, uint32_t slot) {
    uint32_t copy = take_zeros(), *from = frame_at(table), *to = frame_at(copy);
    frame_at(child->directory)[slot] = copy << 12 | LEADS;
    core.count[copy] = core.count[table];
    child->used += 1 + core.count[table];
    for (uint32_t i = 0, left = core.count[table]; left; i++) {
        uint32_t word = from[i];
        if (!(word & PRESENT)) {
            continue;
        }
        left--;
        uint32_t flags = word & ~(uint32_t)(0xfffff000 | ACCESSED | DIRTY);
        if (!(word & LAZY)) {
            uint32_t frame = take();
            memcpy(frame_at(frame), frame_at(word >> 12), TOWER_FRAME_BYTES);
            core.count[frame] = 1;
            flags |= frame << 12;
        }
        to[i] = flags;
    }
}

static bool fork_process(struct process *of, const struct tower_event *it, struct tower_reply *to) {
    open_process(of, it->pid, it->first, of->used, to);
    if (to->kind == TOWER_CHILD) {
        struct process *child = &core.process[to->first];
        const uint32_t *words = frame_at(of->directory);
        for (uint32_t slot = TOWER_FIRST_PAGE >> 10, left = of->used - 1; left; slot++) {
            if (words[slot] & PRESENT) {
                copy_table(words[slot] >> 12, child, slot);
                left -= 1 + core.count[words[slot] >> 12];
            }
        }
    }
    return true;
}

static bool exit_process(struct process *of, const struct tower_event *it, struct tower_reply *to) {
    if (it->pid == 0) {
        return tell(to, refused(TOWER_ROOT_EXIT));
    }
    if (of->children) {
        return tell(to, refused(TOWER_HAS_CHILDREN));
    }
    const uint32_t *words = frame_at(of->directory);
    for (uint32_t slot = TOWER_FIRST_PAGE >> 10, left = of->used - 1; left; slot++) {
        if (!(words[slot] & PRESENT)) {
            continue;
        }
        uint32_t table = words[slot] >> 12, pages = core.count[table];
        const uint32_t *word = frame_at(table);
        left -= 1 + pages;
        for (; pages; word++) {
            if (*word & PRESENT) {
                let_go(*word);
                pages--;
            }
        }
        put_back(table);
    }
    put_back(of->directory);
    of->directory = of->offers = 0;
    core.live--;
    core.process[of->parent].given -= of->quota;
    core.process[of->parent].children--;
    for (uint32_t pid = 0, left = core.live; left; pid++) {
        if (core.process[pid].directory) {
            left--;
            drop_offers_to(&core.process[pid], it->pid);
        }
    }
    return tell(to, kind(TOWER_DONE));
}

static bool usage(const struct process *of, struct tower_reply *to) {
    return tell(to, (struct tower_reply){.kind = TOWER_USAGE, .first = of->quota, .second = of->used, .third = of->given});
}

/* ---- The header's functions */

/* Whether the numbers of an event are those of a call. */
static bool is_event(const struct tower_event *it) {
    switch (it->call) {
    case TOWER_LOAD:
    case TOWER_STORE:
        return it->flag == 1 || it->flag == 2 || it->flag == 4;
    case TOWER_MAP:
    case TOWER_PROTECT:
        return it->flag < 2;
    case TOWER_OFFER:
        return it->flag < 2 && it->second < TOWER_PROCESSES;
    case TOWER_WITHDRAW:
    case TOWER_ACCEPT:
        return it->second < TOWER_PROCESSES;
    default:
        return it->call <= TOWER_FORK;
    }
}

static bool answer(const struct tower_event *it, struct tower_reply *to) {
    if (it->pid >= TOWER_PROCESSES || !is_event(it)) {
        return tell(to, kind(TOWER_NO_EVENT));
    }
    struct process *of = &core.process[it->pid];
    if (!of->directory) {
        return tell(to, refused(TOWER_NO_PROCESS));
    }
    switch (it->call) {
    case TOWER_LOAD: return load(of, it, to);
    case TOWER_STORE: return store(of, it, to);
    case TOWER_MAP: return map(of, it, to);
    case TOWER_UNMAP: return unmap(of, it, to);
    case TOWER_PROTECT: return protect(of, it, to);
    case TOWER_INFO: return info(of, it, to);
    case TOWER_OFFER: return offer(of, it, to);
    case TOWER_WITHDRAW: return withdraw(of, it, to);
    case TOWER_ACCEPT: return accept(of, it, to);
    case TOWER_SPAWN: return open_process(of, it->pid, it->first, 0, to);
    case TOWER_EXIT: return exit_process(of, it, to);
    case TOWER_QUOTA: return usage(of, to);
    default: return fork_process(of, it, to);
    }
}

bool tower_step(struct tower *tower, const struct tower_event *event, struct tower_reply *reply) {
    return tower->live && answer(event, reply);
}

uint32_t tower_boot_wide(uint32_t frames, struct tower *tower) {
    if (tower->live) {
        return TOWER_HAS_CORE;
    }
    if (frames < TOWER_MIN_FRAMES || frames > TOWER_WIDE_FRAMES) {
        return TOWER_BAD_SIZE;
    }
    core.memory = calloc(frames, TOWER_FRAME_BYTES);
    core.count = calloc(frames, sizeof *core.count);
    if (!core.memory || !core.count) {
        free(core.memory);
        free(core.count);
        return TOWER_NO_MEMORY;
    }
    memset(core.process, 0, sizeof core.process);
    core.frames = frames;
    for (uint32_t frame = frames - 1; frame; frame--) {
        put_back(frame);
    }
    core.process[0].directory = take_zeros();
    core.process[0].quota = frames - 1;
    core.process[0].used = core.live = 1;
    tower->live = true;
    tower->core = &core;
    return TOWER_BOOTED;
}

uint32_t tower_boot(uint32_t frames, struct tower *tower) {
    return frames > TOWER_MAX_FRAMES && !tower->live ? (uint32_t)TOWER_BAD_SIZE : tower_boot_wide(frames, tower);
}

void tower_free(struct tower *tower) {
    if (tower->live) {
        free(core.memory);
        free(core.count);
        *tower = (struct tower)TOWER_NONE;
    }
}
