/* What a kernel does for its processes. It ends a tenant that misbehaves, with its children, while four threads run other
 * tenants, whose replies and bytes are those of a run without it. It takes a page back, and the walk of its former holder
 * faults. It copies what changed of a tenant's memory by its dirty pages, and the copy is the whole. It loads a program into
 * a tenant, or nothing of it. It keeps sums by frames, and drops those of the frames that an event may write, so that none
 * is stale. It lists children and offers. It ends with status 0 if all goes as expected, and otherwise prints the line of
 * what does not. */
#include <pthread.h>
#include <stdio.h>
#include <stdlib.h>
#include <string.h>

#include "expect.h"
#include "tower.h"

enum { FRAMES = 2048, TENANTS = 4, QUOTA = 64, ROUNDS = 4000, PAGES = 12 };

#define PAGE(number) (TOWER_FIRST_PAGE + (uint32_t)(number))
#define ADDRESS(number) (PAGE(number) << 12)

static void does(struct tower *tower, struct tower_event event) {
    struct tower_reply reply;
    EXPECT(tower_do(tower, event, &reply) == TOWER_OUTCOME_DONE);
}

/* Makes a child, and returns its number. */
static uint32_t child_of(struct tower *tower, struct tower_event event) {
    struct tower_reply reply;
    EXPECT(tower_do(tower, event, &reply) == TOWER_OUTCOME_DONE && reply.kind == TOWER_CHILD);
    return reply.first;
}

/* ---- Tenants in threads */

struct tenant {
    struct tower *tower;
    pthread_mutex_t *lock;
    uint32_t pid;
    uint32_t replies; /* a sum of all replies */
};

static uint32_t mixed(uint32_t sum, uint32_t number) {
    return (sum ^ number) * 16777619u;
}

/* Stores, loads, maps and unmaps, and sums up the replies. */
static void *run_tenant(void *given) {
    struct tenant *tenant = given;
    uint32_t draw = tenant->pid;
    for (int round = 0; round < ROUNDS; round++) {
        draw = draw * 1103515245u + 12345u;
        const uint32_t number = draw >> 16 & 15, address = ADDRESS(number) + (draw >> 20);
        const struct tower_event event = draw >> 30 == 0   ? tower_load(tenant->pid, address, 4)
                                         : draw >> 30 == 1 ? tower_unmap(tenant->pid, PAGE(number))
                                                           : tower_store(tenant->pid, address, 4, draw);
        struct tower_reply reply = {0};
        pthread_mutex_lock(tenant->lock);
        EXPECT(tower_step(tenant->tower, &event, &reply));
        pthread_mutex_unlock(tenant->lock);
        tenant->replies = mixed(mixed(mixed(tenant->replies, reply.kind), reply.first), reply.second);
    }
    return NULL;
}

/* A sum of all bytes that a process has mapped, with their pages. */
static uint32_t sum_of(struct tower *tower, uint32_t pid) {
    static uint8_t bytes[TOWER_FRAME_BYTES];
    struct tower_page state;
    uint32_t sum = 0;
    size_t moved;
    for (uint32_t page = 0; tower_next_page(tower, pid, page, &page, &state); page++) {
        EXPECT(tower_peek(tower, pid, page << 12, bytes, sizeof bytes, &moved) && moved == sizeof bytes);
        sum = mixed(sum, page);
        for (size_t at = 0; at < sizeof bytes; at++) sum = mixed(sum, bytes[at]);
    }
    return sum;
}

/* A tenant that fills its quota with children and pages, until it is ended. */
static void misbehave(struct tower *tower, uint32_t pid) {
    struct tower_reply reply;
    const uint32_t child = child_of(tower, tower_fork(pid, QUOTA / 2));
    for (uint32_t number = 0; number < QUOTA; number++) {
        EXPECT(tower_do(tower, tower_store(pid, ADDRESS(number), 4, number), &reply) != TOWER_OUTCOME_NO_CORE);
        EXPECT(tower_do(tower, tower_fork(child, 2), &reply) != TOWER_OUTCOME_NO_CORE);
    }
}

/* Runs the tenants in threads, next to one that misbehaves and is ended if `beside`. */
static void run_all(bool beside, uint32_t replies[TENANTS], uint32_t sums[TENANTS]) {
    struct tower tower = TOWER_NONE;
    pthread_mutex_t lock = PTHREAD_MUTEX_INITIALIZER;
    struct tenant tenants[TENANTS];
    pthread_t threads[TENANTS];
    EXPECT(tower_boot(FRAMES, &tower) == TOWER_BOOTED);
    for (int i = 0; i < TENANTS; i++)
        tenants[i] = (struct tenant){&tower, &lock, child_of(&tower, tower_spawn(0, QUOTA)), 0};
    const uint32_t bad = child_of(&tower, tower_spawn(0, QUOTA));
    for (int i = 0; i < TENANTS; i++) EXPECT(pthread_create(&threads[i], NULL, run_tenant, &tenants[i]) == 0);
    if (beside) {
        struct tower_processes exited, family;
        struct tower_reply told;
        pthread_mutex_lock(&lock);
        misbehave(&tower, bad);
        pthread_mutex_unlock(&lock);
        pthread_mutex_lock(&lock);
        EXPECT(tower_children(&tower, bad, &family) && family.count == 1);
        EXPECT(tower_end(&tower, bad, &exited, &told) && told.kind == TOWER_DONE);
        EXPECT(exited.count > 2 && exited.pids[exited.count - 1] == bad && exited.pids[exited.count - 2] == family.pids[0]);
        EXPECT(tower_end(&tower, bad, &exited, &told) && told.kind == TOWER_REFUSED && told.first == TOWER_NO_PROCESS);
        pthread_mutex_unlock(&lock);
    }
    for (int i = 0; i < TENANTS; i++) EXPECT(pthread_join(threads[i], NULL) == 0);
    for (int i = 0; i < TENANTS; i++) {
        replies[i] = tenants[i].replies;
        sums[i] = sum_of(&tower, tenants[i].pid);
    }
    struct tower_container root;
    EXPECT(tower_container(&tower, 0, &root) && root.given == (uint32_t)(QUOTA * (TENANTS + !beside)));
    tower_free(&tower);
}

static void end_a_family(void) {
    uint32_t alone[TENANTS], others[TENANTS], sums[TENANTS], other_sums[TENANTS];
    run_all(false, alone, sums);
    run_all(true, others, other_sums);
    EXPECT(memcmp(alone, others, sizeof alone) == 0 && memcmp(sums, other_sums, sizeof sums) == 0);
}

/* ---- A page taken back */

static void take_a_page_back(struct tower *tower) {
    const uint32_t giver = child_of(tower, tower_spawn(0, QUOTA)), taker = child_of(tower, tower_spawn(0, QUOTA));
    struct tower_holder lost[2];
    struct tower_reply told;
    struct tower_walk walk;
    struct tower_offer offer;
    uint32_t found;
    size_t count;
    does(tower, tower_store(giver, ADDRESS(0), 4, 77));
    for (uint32_t number = 0; number < 3; number++) {
        does(tower, tower_offer(giver, PAGE(0), taker, TOWER_READ_WRITE));
        EXPECT(tower_next_offer(tower, giver, 0, 0, &offer) && offer.page == PAGE(0) && offer.target == taker && offer.write);
        EXPECT(!tower_next_offer(tower, giver, offer.page, offer.target + 1, &offer));
        does(tower, tower_accept(taker, giver, PAGE(0), PAGE(5 + number)));
    }
    EXPECT(tower_next_holder(tower, giver, PAGE(0), taker, 0, &found) && found == PAGE(5));
    EXPECT(tower_walk(tower, taker, ADDRESS(7), true, &walk) && walk.kind == TOWER_WALK_FRAME);
    EXPECT(tower_take_back(tower, giver, PAGE(0), lost, 2, &count, &told) && told.kind == TOWER_DONE && count == 2);
    EXPECT(lost[0].pid == taker && lost[0].page == PAGE(5) && lost[1].page == PAGE(6));
    EXPECT(tower_take_back(tower, giver, PAGE(0), lost, 2, &count, &told) && count == 1 && lost[0].page == PAGE(7));
    EXPECT(lost[1].page == PAGE(6));
    EXPECT(tower_walk(tower, taker, ADDRESS(7), false, &walk) && walk.kind == TOWER_WALK_FAULT);
    EXPECT(!tower_next_holder(tower, giver, PAGE(0), taker, 0, &found));
    EXPECT(tower_do(tower, tower_load(giver, ADDRESS(0), 4), &told) == TOWER_OUTCOME_DONE && told.first == 77);
    EXPECT(tower_take_back(tower, giver, PAGE(1), lost, 2, &count, &told) && told.first == TOWER_NOT_MAPPED && count == 0);
    EXPECT(tower_take_back(tower, 64, PAGE(0), lost, 2, &count, &told) && told.kind == TOWER_NO_EVENT && count == 0);
}

/* ---- What changed since the last copy */

static void copy_what_changed(struct tower *tower) {
    static uint8_t copy[PAGES * TOWER_FRAME_BYTES], whole[PAGES * TOWER_FRAME_BYTES];
    const uint32_t pid = child_of(tower, tower_spawn(0, QUOTA));
    struct tower_reply reply;
    uint32_t page;
    size_t moved, changed = 0;
    bool dirty;
    for (uint32_t number = 0; number < PAGES; number++) does(tower, tower_store(pid, ADDRESS(number) + 8, 4, number));
    EXPECT(tower_peek(tower, pid, ADDRESS(0), copy, sizeof copy, &moved) && moved == sizeof copy);
    for (uint32_t number = 0; number < PAGES; number++) EXPECT(tower_clean(tower, pid, PAGE(number), &dirty) && dirty);
    EXPECT(!tower_next_dirty(tower, pid, 0, &page) && !tower_clean(tower, pid, PAGE(PAGES), &dirty));
    does(tower, tower_store(pid, ADDRESS(3) + 100, 4, 0xabcd));
    does(tower, tower_store(pid, ADDRESS(9) - 2, 4, 0x01020304));
    EXPECT(tower_do(tower, tower_load(pid, ADDRESS(1), 4), &reply) == TOWER_OUTCOME_DONE);
    for (page = 0; tower_next_dirty(tower, pid, page, &page); page++, changed++) {
        uint8_t *to = copy + (page - PAGE(0)) * TOWER_FRAME_BYTES;
        EXPECT(tower_peek(tower, pid, page << 12, to, TOWER_FRAME_BYTES, &moved) && moved == TOWER_FRAME_BYTES);
    }
    EXPECT(tower_peek(tower, pid, ADDRESS(0), whole, sizeof whole, &moved) && moved == sizeof whole);
    EXPECT(changed == 3 && memcmp(copy, whole, sizeof whole) == 0);
    EXPECT(tower_peek(tower, pid, ADDRESS(PAGES) - 4, whole, sizeof whole, &moved) && moved == 4);
}

/* ---- A program that is loaded */

static void load_a_program(struct tower *tower) {
    static uint8_t program[2 * TOWER_FRAME_BYTES + 100], found[sizeof program];
    enum { FRAMES_OF_THREE = 5 }; /* the directory, a table and three pages */
    const uint32_t pid = child_of(tower, tower_spawn(0, FRAMES_OF_THREE - 1)), start = ADDRESS(0) + 50;
    struct tower_container container;
    struct tower_reply told;
    size_t moved;
    for (size_t at = 0; at < sizeof program; at++) program[at] = (uint8_t)(at * 7 + 1);
    EXPECT(tower_load_bytes(tower, pid, start, program, sizeof program, false, &told));
    EXPECT(told.kind == TOWER_REFUSED && told.first == TOWER_OVER_QUOTA);
    EXPECT(tower_container(tower, pid, &container) && container.used == 1);
    const uint32_t other = child_of(tower, tower_spawn(0, FRAMES_OF_THREE));
    does(tower, tower_map(other, PAGE(1), TOWER_READ_ONLY));
    EXPECT(tower_load_bytes(tower, other, start, program, sizeof program, false, &told) && told.kind == TOWER_DONE);
    EXPECT(tower_peek(tower, other, start, found, sizeof found, &moved) && moved == sizeof found);
    EXPECT(memcmp(program, found, sizeof found) == 0);
    EXPECT(tower_do(tower, tower_store(other, start, 1, 0), &told) == TOWER_OUTCOME_FAULT);
    EXPECT(tower_load_bytes(tower, other, start, program, 10, true, &told) && told.kind == TOWER_DONE);
    does(tower, tower_store(other, start, 1, 0));
    EXPECT(tower_load_bytes(tower, other, 0xeffffff0, program, 17, true, &told) && told.first == TOWER_BAD_PAGE);
    EXPECT(tower_load_bytes(tower, 63, start, program, 1, true, &told) && told.first == TOWER_NO_PROCESS);
    EXPECT(tower_load_bytes(tower, 64, start, program, 1, true, &told) && told.kind == TOWER_NO_EVENT);
    EXPECT(tower_load_bytes(tower, other, start, NULL, 0, true, &told) && told.kind == TOWER_DONE);
}

/* ---- What is kept by frames */

enum { SUMMED = 64 };

struct sums {
    bool kept[SUMMED];
    uint32_t of[SUMMED];
};

static uint32_t sum_of_frame(struct tower *tower, uint32_t frame) {
    static uint8_t bytes[TOWER_FRAME_BYTES];
    uint32_t sum = 0;
    EXPECT(tower_copy_frame(tower, frame, bytes, sizeof bytes));
    for (size_t at = 0; at < sizeof bytes; at++) sum = mixed(sum, bytes[at]);
    return sum;
}

/* Drops the sums of the frames that an event may write, and carries it out. Each sum that is kept is still right. Returns
 * how many are. Then all frames are summed again. */
static unsigned step_with_sums(struct tower *tower, struct sums *sums, struct tower_event event) {
    unsigned left = 0;
    bool may;
    for (uint32_t frame = 0; frame < SUMMED; frame++)
        if (sums->kept[frame]) {
            EXPECT(tower_may_write(tower, &event, frame, &may));
            sums->kept[frame] = !may;
        }
    does(tower, event);
    for (uint32_t frame = 0; frame < SUMMED; frame++) {
        if (sums->kept[frame]) {
            EXPECT(sums->of[frame] == sum_of_frame(tower, frame));
            left++;
        }
        sums->kept[frame] = true;
        sums->of[frame] = sum_of_frame(tower, frame);
    }
    return left;
}

static void keep_by_frames(void) {
    struct tower tower = TOWER_NONE;
    static struct sums sums;
    bool may;
    EXPECT(tower_boot(SUMMED, &tower) == TOWER_BOOTED);
    const uint32_t giver = child_of(&tower, tower_spawn(0, 20)), taker = child_of(&tower, tower_spawn(0, 20));
    does(&tower, tower_store(giver, ADDRESS(0), 4, 77));
    does(&tower, tower_map(giver, PAGE(1), TOWER_READ_WRITE));
    does(&tower, tower_offer(giver, PAGE(0), taker, TOWER_READ_WRITE));
    does(&tower, tower_offer(giver, PAGE(1), taker, TOWER_READ_WRITE));
    step_with_sums(&tower, &sums, tower_quota(0));
    /* Frame 0, the directory of the root, and the directory, the table and the page of the giver. */
    EXPECT(step_with_sums(&tower, &sums, tower_store(taker, ADDRESS(9), 4, 1)) == 5);
    /* The page with a frame stays the giver's. */
    EXPECT(step_with_sums(&tower, &sums, tower_accept(taker, giver, PAGE(0), PAGE(4))) == 5);
    /* The giver's directory and table lead to the lazy page, which gets its frame. */
    EXPECT(step_with_sums(&tower, &sums, tower_accept(taker, giver, PAGE(1), PAGE(5))) == 2);
    /* Both pages are also the taker's now. What is left is frame 0, the root's directory, and what leads to the pages. */
    EXPECT(step_with_sums(&tower, &sums, tower_exit(taker)) == 4);
    const struct tower_event event = tower_quota(0);
    EXPECT(!tower_may_write(&tower, &event, SUMMED, &may));
    tower_free(&tower);
}

/* ---- Without a core */

static void ask_none(struct tower *tower) {
    struct tower_processes processes;
    struct tower_holder holder;
    struct tower_offer offer;
    struct tower_reply told;
    uint32_t number;
    uint8_t byte;
    size_t count;
    bool dirty;
    EXPECT(!tower_children(tower, 0, &processes) && !tower_end(tower, 1, &processes, &told));
    EXPECT(!tower_next_offer(tower, 0, 0, 0, &offer) && !tower_next_holder(tower, 0, PAGE(0), 1, 0, &number));
    EXPECT(!tower_take_back(tower, 0, PAGE(0), &holder, 1, &count, &told) && !tower_clean(tower, 0, PAGE(0), &dirty));
    EXPECT(!tower_next_dirty(tower, 0, 0, &number) && !tower_peek(tower, 0, ADDRESS(0), &byte, 1, &count));
    const struct tower_event event = tower_quota(0);
    byte = 0;
    EXPECT(!tower_load_bytes(tower, 0, ADDRESS(0), &byte, 1, true, &told) && !tower_may_write(tower, &event, 0, &dirty));
}

int main(void) {
    struct tower tower = TOWER_NONE;
    ask_none(&tower);
    end_a_family();
    EXPECT(tower_boot(FRAMES, &tower) == TOWER_BOOTED);
    take_a_page_back(&tower);
    copy_what_changed(&tower);
    load_a_program(&tower);
    keep_by_frames();
    tower_free(&tower);
    printf("acts: %d tenants in threads, one ended next to them; a page taken back; a copy by dirty pages; a program loaded; "
           "sums by frames\n", TENANTS);
    return 0;
}
