/* Boots a core, maps, stores, loads and shares, and reads memory where the page tables lead. The walk is the library's,
 * and the word is from a frame that was copied out. It ends with status 1 at the first answer that is not the expected
 * one. */
#include <stdio.h>
#include <string.h>

#include "expect.h"
#include "tower.h"

enum { PAGE = TOWER_FIRST_PAGE, ADDRESS = PAGE << 12, OTHER_PAGE = 0x50000, WORD = 0x11223344 };
#define FAR ((uint64_t)1 << 32 | ADDRESS) /* an address of 33 bits, whose low ones are those of ADDRESS */
#define FAR_PAGE ((uint64_t)1 << 32 | PAGE) /* and a page */

static struct tower tower = TOWER_NONE;

static void need(bool holds, const char *what) {
    if (!holds) {
        expect(false, what);
    }
}

static struct tower_reply call(struct tower_event event) {
    struct tower_reply reply = {0};
    need(tower_do(&tower, event, &reply) != TOWER_OUTCOME_NO_CORE, "a call is answered");
    return reply;
}

static bool is_done(struct tower_event event) {
    return tower_do(&tower, event, NULL) == TOWER_OUTCOME_DONE;
}

static bool is_refused(struct tower_event event, enum tower_cause cause) {
    struct tower_reply reply = {0};
    return tower_do(&tower, event, &reply) == TOWER_OUTCOME_REFUSED && reply.first == cause;
}

static bool faults(struct tower_event event, uint32_t code) {
    struct tower_reply reply = {0};
    return tower_do(&tower, event, &reply) == TOWER_OUTCOME_FAULT && reply.first == event.first && reply.second == code;
}

static bool loads(struct tower_event event, uint32_t value) {
    struct tower_reply reply = call(event);
    return reply.kind == TOWER_VALUE && reply.first == value;
}

/* Returns the word at an address of a process, found by the walk of its tables. */
static uint32_t walked(uint32_t pid, uint32_t address) {
    static uint8_t bytes[TOWER_FRAME_BYTES];
    struct tower_walk found = {0};
    uint32_t word;
    need(tower_walk(&tower, pid, address, false, &found) && found.kind == TOWER_WALK_FRAME, "the walk finds a frame");
    need(tower_copy_frame(&tower, found.frame, bytes, sizeof bytes), "a frame is copied");
    memcpy(&word, bytes + (address & 4095), sizeof word);
    return word;
}

static bool walk_faults(uint32_t pid, uint32_t address, bool write, uint32_t code) {
    struct tower_walk found = {0};
    need(tower_walk(&tower, pid, address, write, &found), "the process is live");
    return found.kind == TOWER_WALK_FAULT && found.code == code && found.frame == 0;
}

static void boots(void) {
    struct tower_event quota = tower_quota(0);
    struct tower_reply reply = {.kind = 99};
    expect(!tower_step(&tower, &quota, &reply) && reply.kind == 99, "no core, no reply");
    expect(tower_do(&tower, quota, &reply) == TOWER_OUTCOME_NO_CORE && reply.kind == 99, "and so it is told");
    expect(tower_boot(15, &tower) == TOWER_BAD_SIZE && !tower.live, "15 frames are too few");
    expect(tower_boot(64, &tower) == TOWER_BOOTED && tower_frames(&tower) == 64, "64 frames boot");
    expect(tower_boot(64, &tower) == TOWER_HAS_CORE, "a second core is refused");
}

static void maps_and_loads(void) {
    expect(is_done(tower_map(0, PAGE, TOWER_READ_WRITE)), "a page is mapped");
    expect(is_refused(tower_map(0, PAGE, TOWER_READ_WRITE), TOWER_MAPPED), "but once");
    expect(is_done(tower_store(0, ADDRESS + 8, 4, WORD)), "a word is stored");
    expect(loads(tower_load(0, ADDRESS + 8, 4), WORD), "and loaded");
    expect(loads(tower_load(0, ADDRESS + 9, 1), 0x33), "its second byte too");
    expect(faults(tower_load(0, 0x1000, 4), 4), "below the user range it faults");
    expect(loads(tower_load(0, ADDRESS + 9, 2), WORD >> 8 & 0xffff), "two bytes at an odd place");
    expect(loads(tower_load(0, ADDRESS + 4094, 4), 0), "and four over two pages");
}

static void shares(void) {
    struct tower_reply child = call(tower_spawn(0, 10));
    uint32_t pid = child.first;
    expect(child.kind == TOWER_CHILD && pid == 1, "process 1 is spawned");
    expect(is_done(tower_offer(0, PAGE, pid, TOWER_READ_ONLY)), "the page is offered");
    expect(is_done(tower_accept(pid, 0, PAGE, OTHER_PAGE)), "and accepted");
    expect(loads(tower_load(pid, (OTHER_PAGE << 12) + 8, 4), WORD), "process 1 reads the word");
    expect(faults(tower_store(pid, OTHER_PAGE << 12, 4, 0), 7), "and may not write");
    expect(walked(0, ADDRESS + 8) == WORD, "process 0's tables lead to it");
    expect(walked(pid, (OTHER_PAGE << 12) + 8) == WORD, "process 1's tables too");
    expect(walk_faults(pid, OTHER_PAGE << 12, true, 7), "by which it may not write");
    expect(walk_faults(pid, ADDRESS, false, 4), "and which lead to no other page");
}

static bool is_event(struct tower_event event, struct tower_event of) {
    return memcmp(&event, &of, sizeof event) == 0;
}

/* Each constructor has the numbers of its call. A number that no byte has becomes one that is no event. */
static void makes_events(void) {
    expect(is_event(tower_load(1, 2, 4), (struct tower_event){0, 1, TOWER_LOAD, 4, 2, 0, 0}) &&
               is_event(tower_store(1, 2, 4, 3), (struct tower_event){0, 1, TOWER_STORE, 4, 2, 3, 0}),
           "a load and a store are made of numbers");
    expect(is_event(tower_map(1, 2, TOWER_READ_WRITE), (struct tower_event){0, 1, TOWER_MAP, 1, 2, 0, 0}) &&
               is_event(tower_unmap(1, 2), (struct tower_event){0, 1, TOWER_UNMAP, 0, 2, 0, 0}) &&
               is_event(tower_protect(1, 2, TOWER_READ_WRITE), (struct tower_event){0, 1, TOWER_PROTECT, 1, 2, 0, 0}) &&
               is_event(tower_info(1, 2), (struct tower_event){0, 1, TOWER_INFO, 0, 2, 0, 0}), "calls of pages too");
    expect(is_event(tower_offer(1, 2, 3, TOWER_READ_WRITE), (struct tower_event){0, 1, TOWER_OFFER, 1, 2, 3, 0}) &&
               is_event(tower_withdraw(1, 2, 3), (struct tower_event){0, 1, TOWER_WITHDRAW, 0, 2, 3, 0}) &&
               is_event(tower_accept(1, 3, 2, 4), (struct tower_event){0, 1, TOWER_ACCEPT, 0, 2, 3, 4}),
           "and of offers");
    expect(is_event(tower_spawn(1, 2), (struct tower_event){0, 1, TOWER_SPAWN, 0, 2, 0, 0}) &&
               is_event(tower_fork(1, 2), (struct tower_event){0, 1, TOWER_FORK, 0, 2, 0, 0}) &&
               is_event(tower_exit(1), (struct tower_event){0, 1, TOWER_EXIT, 0, 0, 0, 0}) &&
               is_event(tower_on_cpu(7, tower_quota(1)), (struct tower_event){7, 1, TOWER_QUOTA, 0, 0, 0, 0}),
           "and of processes");
    expect(tower_do(&tower, tower_quota(256), NULL) == TOWER_OUTCOME_NO_EVENT &&
               tower_do(&tower, tower_load(0, ADDRESS, 260), NULL) == TOWER_OUTCOME_NO_EVENT &&
               tower_do(&tower, tower_map(0, PAGE, 256), NULL) == TOWER_OUTCOME_NO_EVENT &&
               tower_do(&tower, tower_offer(0, PAGE, 257, TOWER_READ_ONLY), NULL) == TOWER_OUTCOME_NO_EVENT,
           "and numbers that are too large are no event");
    expect(is_event(tower_load(1, UINT32_MAX, 4), (struct tower_event){0, 1, TOWER_LOAD, 4, UINT32_MAX, 0, 0}) &&
               is_event(tower_load(1, FAR, 4), (struct tower_event){0, 255, TOWER_LOAD, 4, ADDRESS, 0, 0}),
           "an address of 33 bits is no event's");
    const struct tower_event far_events[] = {
        tower_load(0, FAR, 1), tower_store(0, FAR, 1, 0), tower_map(0, FAR, 1), tower_unmap(0, FAR),
        tower_protect(0, FAR, 1), tower_info(0, FAR), tower_offer(0, FAR, 1, 1), tower_withdraw(0, FAR, 1),
        tower_accept(0, 1, FAR, PAGE), tower_accept(0, 1, PAGE, FAR)};
    /* Numbers of 33 bits, whose low ones are a process's, a size, a right or a quota. */
    const uint64_t bit = (uint64_t)1 << 32;
    const struct tower_event wide_events[] = {
        tower_quota(bit), tower_exit(bit | 1), tower_load(0, ADDRESS, bit | 4), tower_store(0, ADDRESS, bit | 4, 0),
        tower_map(0, OTHER_PAGE, bit | 1), tower_protect(0, PAGE, bit | 1), tower_offer(0, PAGE, bit | 1, 1),
        tower_offer(0, PAGE, 1, bit | 1), tower_withdraw(0, PAGE, bit | 1), tower_accept(1, bit, PAGE, OTHER_PAGE),
        tower_spawn(0, bit | 1), tower_fork(0, bit | 9), tower_event_of(0, bit | TOWER_QUOTA, 0, 0, 0, 0)};
    for (size_t i = 0; i < sizeof wide_events / sizeof *wide_events; i++) {
        expect(tower_do(&tower, wide_events[i], NULL) == TOWER_OUTCOME_NO_EVENT, "nor is a number of 33 bits cut off");
    }
    for (size_t i = 0; i < sizeof far_events / sizeof *far_events; i++) {
        expect(tower_do(&tower, far_events[i], NULL) == TOWER_OUTCOME_NO_EVENT, "in no call");
    }
}

/* A page that was loaded and never stored to has no frame yet. Its accept gives it one. That ends the giver's
 * translation, and none of the caller's. */
static void tells_what_ends(void) {
    enum { LAZY = PAGE + 1 };
    struct tower_event accept = tower_accept(1, 0, LAZY, OTHER_PAGE + 1);
    struct tower_reply reply = {0};
    struct tower_ended before = {0}, ended = {0};
    expect(is_done(tower_offer(0, LAZY, 1, TOWER_READ_ONLY)), "a page with no frame is offered");
    expect(tower_ends(&tower, &accept, &before) && before.kind == TOWER_ENDS_PAGE && before.pid == 0 && before.first == LAZY,
           "its accept will end the giver's translation");
    expect(tower_step_ending(&tower, &accept, &reply, &ended) && reply.kind == TOWER_DONE, "it is accepted");
    expect(memcmp(&ended, &before, sizeof ended) == 0, "and ends what was told");
    expect(tower_do_ending(&tower, accept, NULL, &ended) == TOWER_OUTCOME_REFUSED && ended.kind == TOWER_ENDS_NOTHING,
           "what is refused ends none");
}

static void asks(void) {
    struct tower_memory memory = {0};
    struct tower_container container = {0};
    struct tower_role role = {0};
    uint32_t directory = 0;
    uint8_t little[100];
    expect(tower_container(&tower, 1, &container) && container.quota == 10 && container.parent == 0, "its quota is 10");
    expect(!tower_container(&tower, 2, &container) && !tower_container(&tower, 64, &container), "no process 2 or 64");
    expect(tower_directory(&tower, 0, &directory) && tower_role(&tower, directory, &role), "a directory has a role");
    expect(role.kind == TOWER_FRAME_DIRECTORY && role.pid == 0, "and it is process 0's");
    expect(!tower_role(&tower, 64, &role) && !tower_directory(&tower, 64, &directory), "no frame or process 64");
    expect(!tower_copy_frame(&tower, 0, little, sizeof little), "100 bytes are no room for a frame");
    expect(tower_memory(&tower, &memory) && memory.length == 64 * TOWER_FRAME_BYTES, "its memory is that of 64 frames");
    expect(tower_version() == TOWER_VERSION, "header and library are of one version");
}

static bool is_named(const char *given, const char *name) {
    return strcmp(given, name) == 0;
}

static void names(void) {
    expect(is_named(tower_cause_name(TOWER_OVER_QUOTA), "Quota") && is_named(tower_cause_name(3), ""),
           "causes have names");
    expect(is_named(tower_call_name(TOWER_FORK), "Fork") && is_named(tower_call_name(13), ""), "calls too");
    expect(is_named(tower_kind_name(TOWER_FLAGS), "Info") && is_named(tower_kind_name(8), ""), "and kinds of replies");
    expect(is_named(tower_status_name(TOWER_HAS_CORE), "HasCore") &&
               is_named(tower_status_name(TOWER_BAD_BLOCK), "BadBlock") && is_named(tower_status_name(5), ""),
           "and statuses");
    expect(is_named(tower_end_name(TOWER_WALK_OUTSIDE), "Outside") && is_named(tower_end_name(3), ""),
           "and ends of a walk");
    expect(is_named(tower_service_name(TOWER_FRAME_PAGE), "Page") && is_named(tower_service_name(5), "") &&
               is_named(tower_ending_name(TOWER_ENDS_SPACE), "Space") && is_named(tower_ending_name(4), ""),
           "and roles, and what an event ends");
    expect(is_named(tower_outcome_name(TOWER_OUTCOME_NO_CORE), "NoCore") && is_named(tower_outcome_name(5), ""),
           "and outcomes");
}

static void runs(void) {
    struct tower_event events[3] = {tower_load(0, ADDRESS + 8, 4), {.call = 13}, tower_quota(64)};
    struct tower_reply replies[3] = {{0}};
    expect(!tower_run(&tower, events, 3, replies, 2), "three events want three replies");
    expect(tower_run(&tower, events, 3, replies, 3), "three events are run");
    expect(replies[0].kind == TOWER_VALUE && replies[0].first == WORD, "the first loads the word");
    expect(replies[1].kind == TOWER_NO_EVENT && replies[2].kind == TOWER_NO_EVENT, "the others are no events");
}

/* Stops at the second event, which is refused: the third is not made. */
static void runs_until(void) {
    struct tower_event map = tower_map(0, PAGE + 9, TOWER_READ_WRITE);
    struct tower_event events[3] = {map, map, tower_unmap(0, PAGE + 9)};
    struct tower_reply replies[3] = {{.kind = 99}, {.kind = 99}, {.kind = 99}};
    size_t carried = 99;
    expect(!tower_run_until(&tower, events, 3, replies, 2, &carried) && carried == 99, "no room for a reply, no run");
    expect(tower_run_until(&tower, events, 3, replies, 3, &carried) && carried == 1, "a run stops at a refusal");
    expect(replies[0].kind == TOWER_DONE && replies[1].first == TOWER_MAPPED && replies[2].kind == 99,
           "and tells which");
}

/* Copies over two pages, in and out again, and stops where the user range ends. */
static void copies(void) {
    static uint8_t wrote[6000], read[6000];
    struct tower_reply stop = {0};
    size_t moved = 0;
    for (size_t i = 0; i < sizeof wrote; i++) {
        wrote[i] = (uint8_t)(i * 7);
    }
    expect(tower_write(&tower, 0, ADDRESS + 100, wrote, sizeof wrote, &moved, &stop) && moved == sizeof wrote &&
               stop.kind == TOWER_DONE, "6,000 bytes are written");
    expect(tower_read(&tower, 0, ADDRESS + 100, read, sizeof read, &moved, &stop) && moved == sizeof read &&
               memcmp(read, wrote, sizeof read) == 0, "and read again");
    expect(loads(tower_load(0, ADDRESS + 107, 1), 49), "as a load reads them");
    expect(tower_write(&tower, 0, 0xeffffffe, wrote, 3, &moved, &stop) && moved == 2 && stop.kind == TOWER_FAULT &&
               stop.first == 0xf0000000, "a write stops at the first byte that faults");
    expect(tower_read(&tower, 64, ADDRESS, read, 1, &moved, &stop) && moved == 0 && stop.kind == TOWER_NO_EVENT,
           "process 64 is none");
    expect(tower_read(&tower, 0, FAR, read, 1, &moved, &stop) && moved == 0 && stop.kind == TOWER_NO_EVENT &&
               tower_write(&tower, 0, FAR, wrote, 1, &moved, &stop) && moved == 0 && stop.kind == TOWER_NO_EVENT &&
               tower_load_bytes(&tower, 0, FAR, wrote, 1, true, &stop) && stop.kind == TOWER_NO_EVENT &&
               tower_peek(&tower, 0, FAR, read, 1, &moved) && moved == 0, "and no byte is at an address of 33 bits");
    struct tower_walk walk;
    expect(tower_walk(&tower, 0, FAR, true, &walk) && walk.kind == TOWER_WALK_FAULT && walk.code == 6,
           "where a walk faults, as outside the user range");
}

static void goes_over_pages(void) {
    struct tower_page found = {0};
    uint32_t page = 0, count = 0, last = 0;
    for (uint32_t from = 0; tower_next_page(&tower, 0, from, &page, &found); from = page + 1) {
        count++;
        last = page;
    }
    expect(count == 4 && last == TOWER_LAST_PAGE && found.dirty && !found.lazy, "process 0 has four pages");
    expect(tower_next_page(&tower, 1, 0, &page, &found) && page == OTHER_PAGE && found.holders == 2,
           "process 1 shares one");
    expect(!tower_next_page(&tower, 2, 0, &page, &found) && !tower_next_page(&tower, 64, 0, &page, &found),
           "no process 2 or 64");
}

/* Page PAGE of process 0 is mapped, dirty, offered and shared. A page of 33 bits, whose low ones are those of PAGE, is
 * none of these. */
static void finds_no_far_page(void) {
    const uint64_t none = (uint64_t)1 << 32;
    struct tower_page found;
    struct tower_offer offer;
    struct tower_holder lost[2];
    struct tower_reply told = {0};
    uint32_t page = 0;
    size_t count = 99;
    bool dirty = false;
    expect(is_done(tower_store(0, ADDRESS, 4, WORD)) && is_done(tower_offer(0, PAGE, 1, TOWER_READ_WRITE)) &&
               is_done(tower_accept(1, 0, PAGE, OTHER_PAGE + 2)) && is_done(tower_offer(0, PAGE, 1, TOWER_READ_WRITE)),
           "a page is shared, and offered again");
    expect(tower_next_page(&tower, 0, 0, &page, &found) && page == PAGE && tower_next_dirty(&tower, 0, 0, &page) &&
               page == PAGE && tower_next_offer(&tower, 0, PAGE, 0, &offer) && offer.page == PAGE &&
               tower_next_holder(&tower, 0, PAGE, 1, 0, &page) && page == OTHER_PAGE,
           "the queries find it");
    page = 7;
    expect(!tower_next_page(&tower, 0, none, &page, &found) && !tower_next_dirty(&tower, 0, none, &page) &&
               !tower_next_offer(&tower, 0, none, 0, &offer) && !tower_next_holder(&tower, 0, PAGE, 1, none, &page) &&
               !tower_next_holder(&tower, 0, FAR_PAGE, 1, 0, &page) && page == 7, "but nothing from page 2 to the 32 on");
    expect(!tower_clean(&tower, 0, FAR_PAGE, &dirty) && tower_next_dirty(&tower, 0, 0, &page) && page == PAGE,
           "a page of 33 bits is not cleaned");
    expect(tower_take_back(&tower, 0, FAR_PAGE, lost, 2, &count, &told) && count == 0 && told.kind == TOWER_NO_EVENT &&
               tower_next_holder(&tower, 0, PAGE, 1, 0, &page), "or taken back");
}

int main(void) {
    boots();
    maps_and_loads();
    shares();
    makes_events();
    tells_what_ends();
    asks();
    names();
    runs();
    runs_until();
    copies();
    goes_over_pages();
    finds_no_far_page();
    tower_free(&tower);
    tower_free(&tower);
    expect(!tower.live && tower_frames(&tower) == 0, "freed");
    expect(tower_boot(16, &tower) == TOWER_BOOTED, "and booted again");
    tower_free(&tower);
    return 0;
}
