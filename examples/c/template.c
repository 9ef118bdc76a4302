/* Many tenants of one warmed-up process. A process is filled once and then makes no call: it is the template. A tenant
 * begins empty, and gets its copy of a page of the template at its first access to that page. So it starts in a spawn's
 * time, and is charged for what it touches; a fork copies all pages and is charged for all. The tenant gets the replies
 * of a fork to its loads and stores, which a second core shows. It ends with status 0 if all goes as expected
 * (expect.h). */
#include <stdio.h>

#include "expect.h"

enum { TEMPLATE = 1, TENANT = 2, FIRST = TOWER_FIRST_PAGE };
enum { PAGES = 500, TENANTS = 60, QUOTA = 30, ACCESSES = 20000 };
/* what the template is charged for: its directory, a table and its pages */
enum { COST = 2 + PAGES, FRAMES = 2 + COST + TENANTS * QUOTA };

static uint32_t seed = 1;

static uint32_t below(uint32_t most) {
    seed = seed * 1664525 + 1013904223;
    return (seed >> 8) % most;
}

/* Whether a process has mapped a page, and its state. */
static bool has(const struct tower *tower, uint32_t pid, uint32_t page, struct tower_page *state) {
    uint32_t found = 0;
    return tower_next_page(tower, pid, page, &found, state) && found == page;
}

/* Gives a tenant its copy of a page, with the bytes and the right to write of the template's, neither accessed nor
 * dirty. Returns the tenant's refusal, as TOWER_OVER_QUOTA; TOWER_DONE also if the template has no such page, or the
 * tenant has it. A kernel calls it at a fault, before the access, which would map a page of zeros. */
static struct tower_reply give(struct tower *tower, uint32_t tenant, uint32_t page) {
    static uint8_t bytes[TOWER_FRAME_BYTES];
    struct tower_page state;
    struct tower_reply told = {.kind = TOWER_DONE};
    size_t moved = 0;
    bool dirty;
    if (has(tower, tenant, page, &state) || !has(tower, TEMPLATE, page, &state)) return told;
    EXPECT(tower_peek(tower, TEMPLATE, page << 12, bytes, sizeof bytes, &moved) && moved == sizeof bytes);
    EXPECT(tower_load_bytes(tower, tenant, page << 12, bytes, sizeof bytes, state.write, &told));
    if (told.kind == TOWER_DONE) EXPECT(tower_clean(tower, tenant, page, &dirty));
    return told;
}

/* Makes a load or a store of a tenant, once it has the pages that this touches. */
static struct tower_reply access(struct tower *tower, struct tower_event event) {
    uint32_t first = event.first >> 12, last = (event.first + event.flag - 1) >> 12;
    struct tower_reply reply = give(tower, event.pid, first);
    if (reply.kind == TOWER_DONE && last != first) reply = give(tower, event.pid, last);
    if (reply.kind == TOWER_DONE) EXPECT(tower_step(tower, &event, &reply));
    return reply;
}

static uint32_t word_of(uint32_t page) {
    return page % 11 ? 0x77000000 | page : 0;
}

/* Makes the template: each tenth page is read-only, and each eleventh has zeros. */
static void warm(struct tower *tower, uint32_t quota) {
    EXPECT(answers(tower, tower_spawn(0, quota), TOWER_CHILD, TEMPLATE));
    for (uint32_t page = FIRST; page < FIRST + PAGES; page++) {
        struct tower_event map = tower_map(TEMPLATE, page, TOWER_READ_WRITE);
        struct tower_event store = tower_store(TEMPLATE, page << 12, 4, word_of(page));
        EXPECT(answers(tower, word_of(page) ? store : map, TOWER_DONE, 0));
        if (page % 10 == 0) EXPECT(answers(tower, tower_protect(TEMPLATE, page, TOWER_READ_ONLY), TOWER_DONE, 0));
    }
}

/* A tenant loads and stores in as many pages as its quota allows. It finds what the template has, whatever others
 * stored, and is refused one page more. */
static void serve(struct tower *tower, uint32_t tenant) {
    EXPECT(answers(tower, tower_spawn(0, QUOTA), TOWER_CHILD, tenant));
    for (uint32_t k = 0; k < QUOTA - 2; k++) {
        uint32_t page = FIRST + (tenant + 17 * k) % PAGES;
        struct tower_reply found = access(tower, tower_load(tenant, page << 12, 4));
        EXPECT(found.kind == TOWER_VALUE && found.first == word_of(page));
        found = access(tower, tower_store(tenant, page << 12, 4, tenant));
        EXPECT(found.kind == (page % 10 ? TOWER_DONE : TOWER_FAULT));
    }
    struct tower_reply more = access(tower, tower_load(tenant, (FIRST + (tenant + 16) % PAGES) << 12, 4));
    EXPECT(more.kind == TOWER_REFUSED && more.first == TOWER_OVER_QUOTA);
}

/* All tenants are served, in frames that hold few forks; the template stays as it was. */
static void serve_all(void) {
    struct tower tower = TOWER_NONE;
    EXPECT(tower_boot(FRAMES, &tower) == TOWER_BOOTED);
    warm(&tower, COST);
    for (uint32_t tenant = TENANT; tenant < TENANT + TENANTS; tenant++) {
        serve(&tower, tenant);
    }
    for (uint32_t page = FIRST; page < FIRST + PAGES; page++) {
        EXPECT(answers(&tower, tower_load(TEMPLATE, page << 12, 4), TOWER_VALUE, word_of(page)));
    }
    EXPECT(answers(&tower, tower_fork(TEMPLATE, QUOTA), TOWER_REFUSED, TOWER_TOO_SMALL));
    tower_free(&tower);
}

/* A random load or store of a tenant, of one page of the template or over two. */
static struct tower_event drawn(void) {
    uint32_t address = (FIRST + below(PAGES - 1)) << 12 | (below(2) ? below(4096) : 4093 + below(3));
    uint32_t size = 1u << below(3);
    return below(2) ? tower_load(TENANT, address, size) : tower_store(TENANT, address, size, below(1u << 20));
}

/* Each page that a tenant has is marked as that of a fork in another core. */
static void compare_marks(struct tower *forked, struct tower *given) {
    struct tower_page one, other;
    for (uint32_t page = FIRST; page < FIRST + PAGES; page++) {
        if (!has(given, TENANT, page, &one)) continue;
        EXPECT(has(forked, TENANT, page, &other) && one.holders == other.holders && one.write == other.write);
        EXPECT(one.may == other.may && one.accessed == other.accessed && one.dirty == other.dirty);
    }
}

/* The loads and stores of a tenant have the replies that a fork in another core gets, and leave the same marks. */
static void compare(void) {
    struct tower forked = TOWER_NONE, given = TOWER_NONE;
    EXPECT(tower_boot(3 * COST, &forked) == TOWER_BOOTED && tower_boot(3 * COST, &given) == TOWER_BOOTED);
    warm(&forked, 2 * COST);
    warm(&given, COST);
    EXPECT(answers(&forked, tower_fork(TEMPLATE, COST), TOWER_CHILD, TENANT));
    EXPECT(answers(&given, tower_spawn(0, COST), TOWER_CHILD, TENANT));
    for (int k = 0; k < ACCESSES; k++) {
        struct tower_event event = drawn();
        struct tower_reply wanted = {0}, found = access(&given, event);
        EXPECT(tower_step(&forked, &event, &wanted) && found.kind == wanted.kind);
        EXPECT(found.first == wanted.first && found.second == wanted.second);
    }
    compare_marks(&forked, &given);
    tower_free(&forked);
    tower_free(&given);
}

int main(void) {
    serve_all();
    compare();
    printf("template: %d tenants on %d frames, where each fork would take %d; %d accesses with a fork's replies\n",
           TENANTS, FRAMES, COST, ACCESSES);
    return 0;
}
