/* rows ROW TIMES FRAMES: makes the events of a row that many times, in a core of so many frames. `rows names` prints the
 * rows, each with how many events it has. `rows same SEED EVENTS FRAMES` prints a sum of the replies to events and faults
 * at random, and how many of each kind there were. It is linked with a core twice: with the proved one, and with shadow.c. */
#include <stdio.h>
#include <stdlib.h>
#include <string.h>

#include "tower_shadow.h"

static struct tower tower = TOWER_NONE;
static struct tower_shadow shadow = TOWER_SHADOW_NONE;

static struct tower_reply step(struct tower_event event) {
    struct tower_reply reply;
    if (!tower_step(&tower, &event, &reply)) {
        abort();
    }
    return reply;
}

static void need(struct tower_event event, uint32_t kind) {
    if (step(event).kind != kind) {
        fprintf(stderr, "rows: a call %u is not answered as the row wants\n", event.call);
        abort();
    }
}

enum { MOST = 4, PAGE = 0x40100, NEW = 0x50000, COPIED = 24, POOL = 24 };

/* Each row's events in turn. All of them have this process; of a child's number 1 there are two. */
static const struct row {
    const char *name;
    uint32_t kind; /* of each reply */
    uint32_t count;
    struct tower_event events[MOST];
    enum { NO_FAULT, TOUCH, SHADOW } fault; /* before the events, a store's at a page */
    uint32_t page;                          /* of the fault; afterwards its translation is forgotten */
} rows[] = {
    {"load", TOWER_VALUE, 1, {{0, 0, TOWER_LOAD, 4, PAGE << 12, 0, 0}}},
    {"store", TOWER_DONE, 1, {{0, 0, TOWER_STORE, 4, PAGE << 12, 7, 0}}},
    {"load over two pages", TOWER_VALUE, 1, {{0, 0, TOWER_LOAD, 4, (PAGE << 12) - 2, 0, 0}}},
    {"store over two pages", TOWER_DONE, 1, {{0, 0, TOWER_STORE, 4, (PAGE << 12) - 2, 7, 0}}},
    {"fault", TOWER_FAULT, 1, {{0, 0, TOWER_LOAD, 4, 0, 0, 0}}},
    {"info", TOWER_FLAGS, 1, {{0, 0, TOWER_INFO, 0, PAGE, 0, 0}}},
    {"quota", TOWER_USAGE, 1, {{0, 0, TOWER_QUOTA, 0, 0, 0, 0}}},
    {"map, unmap", TOWER_DONE, 2, {{0, 0, TOWER_MAP, 1, PAGE + 1, 0, 0}, {0, 0, TOWER_UNMAP, 0, PAGE + 1, 0, 0}}},
    {"protect, protect", TOWER_DONE, 2,
     {{0, 0, TOWER_PROTECT, 0, PAGE, 0, 0}, {0, 0, TOWER_PROTECT, 1, PAGE, 0, 0}}},
    {"offer, withdraw", TOWER_DONE, 2, {{0, 0, TOWER_OFFER, 1, PAGE, 1, 0}, {0, 0, TOWER_WITHDRAW, 0, PAGE, 1, 0}}},
    {"offer, accept, unmap", TOWER_DONE, 3,
     {{0, 0, TOWER_OFFER, 1, PAGE, 1, 0}, {0, 1, TOWER_ACCEPT, 0, PAGE, 0, PAGE}, {0, 1, TOWER_UNMAP, 0, PAGE, 0, 0}}},
    {"store to a new page, unmap", TOWER_DONE, 2,
     {{0, 0, TOWER_STORE, 4, NEW << 12, 7, 0}, {0, 0, TOWER_UNMAP, 0, NEW, 0, 0}}},
    {"spawn", TOWER_CHILD, 1, {{0, 0, TOWER_SPAWN, 0, 1, 0, 0}}},
    {"fork", TOWER_CHILD, 1, {{0, 0, TOWER_FORK, 0, COPIED + 8, 0, 0}}},
    {"touch", TOWER_DONE, 0, {{0}}, TOUCH, PAGE},
    {"touch of a new page, unmap", TOWER_DONE, 1, {{0, 0, TOWER_UNMAP, 0, NEW, 0, 0}}, TOUCH, NEW},
    {"shadow fault, forget", TOWER_DONE, 0, {{0}}, SHADOW, PAGE},
    {"shadow fault of a new page, unmap, forget", TOWER_DONE, 1, {{0, 0, TOWER_UNMAP, 0, NEW, 0, 0}}, SHADOW, NEW},
};
enum { ROWS = sizeof rows / sizeof *rows };

/* Shadow tables over a pool of few frames, which is full from time to time. */
static void open_shadow(void) {
    static const uint8_t half[TOWER_SHADOW_HALF_BYTES];
    if (tower_shadow_open(POOL, (uint64_t)1 << 40, (uint64_t)1 << 34, half, sizeof half, &shadow) != TOWER_SHADOW_OPENED) {
        abort();
    }
}

/* Opens a core: process 0 has COPIED pages that were stored to and PAGE is one of them; process 1 has a page beside. A
 * small core has less of all: a fork then copies what there is. */
static void open(uint32_t frames) {
    if (tower_boot_wide(frames, &tower) != TOWER_BOOTED) {
        abort();
    }
    open_shadow();
    uint32_t pages = frames < 2 * COPIED + 24 ? 2 : COPIED;
    for (uint32_t i = 0; i < pages; i++) {
        need(tower_store(0, (PAGE - i) << 12, 4, i), TOWER_DONE);
    }
    need(tower_spawn(0, 4), TOWER_CHILD);
    need(tower_store(1, (PAGE + 2) << 12, 4, 1), TOWER_DONE);
}

static void forget(uint32_t kind, uint32_t pid, uint32_t page) {
    const struct tower_ended ended = {kind, pid, page, 0};
    if (!tower_shadow_forget(&shadow, &ended)) {
        abort();
    }
}

/* A fault of a store, which has to be served. */
static void fault(const struct row *row) {
    struct tower_reply reply;
    struct tower_ended ended;
    uint64_t address = (uint64_t)row->page << 12;
    bool is_served = row->fault == TOUCH ? tower_touch(&tower, 0, address, true, &reply, &ended)
                                         : !tower_shadow_fault(&tower, &shadow, 0, address, true, &reply, &ended);
    if (!is_served || reply.kind != TOWER_DONE) {
        fprintf(stderr, "rows: %s: the fault is not served\n", row->name);
        exit(1);
    }
}

static inline __attribute__((always_inline)) void make(const struct row *row) {
    for (uint32_t i = 0; i < row->count; i++) {
        struct tower_reply reply;
        if (!tower_step(&tower, &row->events[i], &reply) || reply.kind != row->kind) {
            fprintf(stderr, "rows: %s: event %u is not answered as the row wants\n", row->name, i);
            exit(1);
        }
        if (reply.kind == TOWER_CHILD) {
            need(tower_exit(reply.first), TOWER_DONE);
        }
    }
}

/* The fault comes first, and its page's translation is forgotten last. */
static __attribute__((noinline)) void make_with_fault(const struct row *row) {
    fault(row);
    make(row);
    if (row->fault == SHADOW) {
        forget(TOWER_ENDS_PAGE, 0, row->page);
    }
}

/* ---- Events at random */

static uint32_t random(uint32_t limit) {
    static uint64_t seed = 88172645463325252u;
    seed ^= seed << 13;
    seed ^= seed >> 7;
    seed ^= seed << 17;
    return (uint32_t)((seed >> 32) % limit);
}

static uint32_t random_page(void) {
    static const uint32_t pages[] = {0x40000, 0x40001, 0x40002, 0x40400, 0x50000, 0xeffff, 0x3ffff, 0xf0000};
    return pages[random(random(8) ? 5 : 8)];
}

static struct tower_event random_event(void) {
    struct tower_event it = {0};
    it.pid = (uint8_t)random(random(16) ? 4 : 66);
    it.call = (uint8_t)(random(2) ? random(2) : random(64) ? random(13) : 13 + random(3));
    it.flag = (uint8_t)(it.call < 2 ? random(32) ? 1u << random(3) : random(6) : random(32) ? random(2) : 2);
    bool is_access = it.call < 2, is_child = it.call == TOWER_SPAWN || it.call == TOWER_FORK;
    it.first = is_access ? random_page() << 12 | (random(4) ? random(8) : 4092 + random(4))
               : is_child ? random(random(4) ? 12 : 40) : random_page();
    it.second = is_access ? random(0xffffffff) : random(random(16) ? 4 : 70);
    it.third = random_page();
    return it;
}

static uint64_t sum_with(uint64_t sum, const uint32_t *words, size_t count) {
    for (size_t i = 0; i < count; i++) {
        sum = (sum ^ words[i]) * 0x100000001b3u;
        sum ^= sum >> 29;
    }
    return sum;
}

static uint64_t sum_of_reply(uint64_t sum, const struct tower_reply *reply) {
    uint32_t flags = reply->write | reply->may << 1 | reply->accessed << 2 | reply->dirty << 3;
    uint32_t words[] = {reply->kind, reply->first, reply->second, reply->third, flags};
    return sum_with(sum, words, sizeof words / sizeof *words);
}

/* Forgets all that the event may have ended. */
static void forget_for(const struct tower_event *it, uint32_t last) {
    forget(TOWER_ENDS_PAGE, it->pid, it->call < 2 ? it->first >> 12 : it->first);
    forget(TOWER_ENDS_PAGE, it->pid, it->call < 2 ? last >> 12 : it->first);
    if (it->call == TOWER_ACCEPT) {
        forget(TOWER_ENDS_PAGE, it->second, it->first);
    } else if (it->call == TOWER_EXIT) {
        forget(TOWER_ENDS_SPACE, it->pid, 0);
    }
}

static uint32_t handled[TOWER_SHADOW_NOTHING];

/* A fault at random, by tower_touch or through the shadow tables; what it ended, and what these then have. */
static uint64_t random_fault(uint64_t sum) {
    uint32_t pid = random(random(16) ? 4 : 66), page = random_page(), status = 0;
    uint64_t address = random(64) ? (uint64_t)page << 12 | random(4096) : (uint64_t)page << 12 << random(16);
    bool write = random(2), is_told = true;
    struct tower_reply reply = {0};
    struct tower_ended ended = {0};
    struct tower_translation found = {0};
    if (random(2)) {
        is_told = tower_touch(&tower, pid, address, write, &reply, &ended);
        forget(ended.kind, ended.pid, ended.first);
    } else {
        status = tower_shadow_fault(&tower, &shadow, pid, address, write, &reply, &ended);
        handled[status]++;
        is_told = status != TOWER_SHADOW_FULL || tower_shadow_forget_all(&shadow);
    }
    bool is_found = tower_shadow_translation(&shadow, pid, page, &found); /* frames have other numbers in each core */
    uint32_t words[] = {is_told, status, ended.kind, ended.pid, ended.first, is_found, found.write,
                        tower_shadow_free_frames(&shadow), tower_shadow_taken_frames(&shadow, pid)};
    sum = sum_with(sum, words, sizeof words / sizeof *words);
    return status == TOWER_SHADOW_FULL ? sum : sum_of_reply(sum, &reply);
}

static int same(uint32_t seed, uint32_t events) {
    uint64_t sum = seed;
    uint32_t kinds[TOWER_NO_EVENT + 1] = {0};
    open_shadow();
    for (; seed; seed--) {
        random(2);
    }
    for (uint32_t i = 0; i < events; i++) {
        struct tower_event event = random_event();
        struct tower_reply reply = step(event);
        sum = sum_of_reply(sum, &reply);
        kinds[reply.kind]++;
        if (reply.kind != TOWER_NO_EVENT) {
            forget_for(&event, event.first + event.flag - 1);
        }
        sum = random(4) ? sum : random_fault(sum);
    }
    printf("%016llx", (unsigned long long)sum);
    for (uint32_t kind = 0; kind <= TOWER_NO_EVENT; kind++) {
        printf(" %s %u", tower_kind_name(kind), kinds[kind]);
    }
    for (uint32_t status = 0; status < TOWER_SHADOW_NOTHING; status++) {
        printf(" %s %u", tower_shadow_handled_name(status), handled[status]);
    }
    printf("\n");
    return 0;
}

int main(int count, char **words) {
    if (count == 2 && !strcmp(words[1], "names")) {
        for (uint32_t i = 0; i < ROWS; i++) {
            printf("%u %s\n", rows[i].kind == TOWER_CHILD ? 2 : rows[i].count, rows[i].name);
        }
        return 0;
    }
    if (count == 5 && !strcmp(words[1], "same")) {
        if (tower_boot_wide((uint32_t)atoi(words[4]), &tower) != TOWER_BOOTED) {
            return 1;
        }
        return same((uint32_t)atoi(words[2]), (uint32_t)atoi(words[3]));
    }
    if (count != 4) {
        return 2;
    }
    open((uint32_t)atoi(words[3]));
    for (uint32_t i = 0; i < ROWS; i++) {
        if (!strcmp(words[1], rows[i].name)) {
            int times = atoi(words[2]);
            for (; rows[i].fault && times > 0; times--) {
                make_with_fault(&rows[i]);
            }
            for (; times > 0; times--) {
                make(&rows[i]);
            }
            return 0;
        }
    }
    return 2;
}
