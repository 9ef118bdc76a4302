/* Eight threads that share one core over a block, and two that read reports meanwhile, without any lock of the program's
 * own. Each thread compares each reply with what it did itself. Then one keeps the core, and its image becomes a core that
 * is shared anew. It ends with status 0 if all goes as expected (expect.h).
 *
 *     handover [SEED] [ROUNDS]
 */
#define _DEFAULT_SOURCE

#include <pthread.h>
#include <sched.h>
#include <stdatomic.h>
#include <stdio.h>
#include <stdlib.h>
#include <string.h>

#include "expect.h"
#include "heap.h"
#include "tower_images.h"
#include "tower_threads.h"

enum { FRAMES = 512, CPUS = 8, MONITORS = 2, PAGES = 12, QUOTA = 40 };

/* What all threads count up, in a page of process 0: a lost turn would lose a count. */
#define COUNTER 0x40000000u
#define FIRST_PAGE 0x50000u

static _Alignas(TOWER_FRAME_BYTES) uint8_t block[TOWER_BLOCK_BYTES(FRAMES)];
static uint8_t image[2 * FRAMES * TOWER_FRAME_BYTES];
static struct tower_cpu cpus[CPUS];
static struct tower_monitor monitors[MONITORS];
static int rounds = 20000;
static unsigned seed = 1;

/* How often the core was given back in all, and up to the last give that was published. */
static atomic_ulong gives, published;
static atomic_bool stop;
/* How many threads have the core: 0 or 1. Only a take and a give are between. */
static atomic_int holders;

static uint32_t drawn(uint32_t *state, uint32_t below) {
    *state ^= *state << 13;
    *state ^= *state >> 17;
    *state ^= *state << 5;
    return *state % below;
}

static void take(struct tower_cpu *cpu, struct tower *tower) {
    uint32_t status;
    for (int tries = 0; (status = tower_cpu_take(cpu, tower)) == TOWER_CPU_BUSY; tries++) {
        if (tries % 64 == 63) {
            sched_yield();
        }
    }
    EXPECT(status == TOWER_CPU_DONE && tower->live);
    EXPECT(atomic_fetch_add(&holders, 1) == 0);
}

static void give(struct tower_cpu *cpu, struct tower *tower, bool publish) {
    const uint64_t before = tower_cpu_count(cpu);
    EXPECT(before == atomic_load(&gives));
    atomic_fetch_add(&gives, 1);
    EXPECT(atomic_fetch_sub(&holders, 1) == 1);
    EXPECT(tower_cpu_give(cpu, tower, publish) == TOWER_CPU_DONE && !tower->live);
    EXPECT(tower_cpu_count(cpu) == before + 1);
    if (publish) {
        /* (another thread may have published more meanwhile: the largest number stays) */
        unsigned long most = atomic_load(&published);
        while (most < before + 1 && !atomic_compare_exchange_weak(&published, &most, before + 1)) {
        }
    }
}

static struct tower_reply made(struct tower *tower, struct tower_event event) {
    struct tower_reply reply = {0};
    struct tower_ended ended;
    EXPECT(tower_step_ending(tower, &event, &reply, &ended));
    return reply;
}

/* What a thread did to its process's pages: whether each is mapped, and its first word. */
struct own {
    bool mapped[PAGES], may_write[PAGES];
    uint32_t word[PAGES];
};

/* One call of a thread's own process, compared with what the thread did before. */
static void one_call(struct tower *tower, uint32_t pid, struct own *own, uint32_t *state) {
    const uint32_t k = drawn(state, PAGES), page = FIRST_PAGE + k, address = page << 12;
    struct tower_reply reply;
    switch (drawn(state, 6)) {
    case 0:
        reply = made(tower, tower_map(pid, page, TOWER_READ_WRITE));
        EXPECT(own->mapped[k] ? reply.kind == TOWER_REFUSED && reply.first == TOWER_MAPPED : reply.kind == TOWER_DONE);
        if (!own->mapped[k]) {
            own->mapped[k] = own->may_write[k] = true;
            own->word[k] = 0;
        }
        break;
    case 1:
        reply = made(tower, tower_unmap(pid, page));
        EXPECT(own->mapped[k] ? reply.kind == TOWER_DONE
                              : reply.kind == TOWER_REFUSED && reply.first == TOWER_NOT_MAPPED);
        own->mapped[k] = false;
        break;
    case 2:
        if (own->mapped[k]) {
            own->may_write[k] = drawn(state, 2);
            reply = made(tower, tower_protect(pid, page, own->may_write[k]));
            EXPECT(reply.kind == TOWER_DONE);
        }
        break;
    case 3:
        if (own->mapped[k]) {
            const uint32_t word = drawn(state, 1u << 30);
            reply = made(tower, tower_store(pid, address, 4, word));
            if (own->may_write[k]) {
                EXPECT(reply.kind == TOWER_DONE);
                own->word[k] = word;
            } else {
                EXPECT(reply.kind == TOWER_FAULT && reply.first == address);
            }
        }
        break;
    default:
        if (own->mapped[k]) {
            reply = made(tower, tower_load(pid, address, 4));
            EXPECT(reply.kind == TOWER_VALUE && reply.first == own->word[k]);
        }
    }
}

static void *work(void *cpu) {
    struct tower_cpu *mine = cpu;
    const uint32_t number = (uint32_t)(mine - cpus), pid = number + 1;
    uint32_t state = seed * 2654435761u + number * 40503u + 1;
    struct own own = {0};
    struct tower tower = TOWER_NONE;
    for (int round = 0; round < rounds; round++) {
        take(mine, &tower);
        /* while it has the core it can take no second one, nor can the other CPU that has none */
        if (round % 64 == 0) {
            struct tower second = TOWER_NONE;
            EXPECT(tower_cpu_take(mine, &second) == TOWER_CPU_MISPLACED && !second.live);
        }
        /* its memory stays where it is: a processor's CR3 stays right */
        struct tower_memory memory;
        EXPECT(tower_memory(&tower, &memory) && memory.begins == block);
        const uint32_t count = made(&tower, tower_load(0, COUNTER, 4)).first;
        for (uint32_t calls = drawn(&state, 4); calls > 0; calls--) {
            one_call(&tower, pid, &own, &state);
        }
        EXPECT(made(&tower, tower_store(0, COUNTER, 4, count + 1)).kind == TOWER_DONE);
        give(mine, &tower, drawn(&state, 4) == 0);
        /* without the core no call can be made */
        struct tower_reply none = {0};
        struct tower_event load = tower_load(0, COUNTER, 4);
        EXPECT(!tower_step(&tower, &load, &none));
        EXPECT(tower_cpu_give(mine, &tower, false) == TOWER_CPU_MISPLACED);
    }
    return NULL;
}

static void *watch(void *monitor) {
    struct tower_row rows[TOWER_PROCESSES];
    uint64_t last = 0;
    while (!atomic_load(&stop)) {
        const unsigned long known = atomic_load(&published);
        uint64_t count;
        const uint32_t status = tower_monitor_read(monitor, &count, rows, TOWER_PROCESSES);
        EXPECT(status == TOWER_CPU_DONE || status == TOWER_CPU_BUSY);
        EXPECT(count >= last && count <= atomic_load(&gives));
        EXPECT(status == TOWER_CPU_BUSY || count >= known);
        last = count;
        EXPECT(rows[0].live && rows[0].quota == FRAMES - 1 && rows[0].given == CPUS * QUOTA);
        for (uint32_t pid = 1; pid < TOWER_PROCESSES; pid++) {
            EXPECT(rows[pid].live == (pid <= CPUS));
            EXPECT(!rows[pid].live || (rows[pid].parent == 0 && rows[pid].quota == QUOTA && rows[pid].used <= QUOTA));
        }
    }
    return NULL;
}

/* Before anything is shared: what is refused changes nothing. */
static void refusals(struct tower *tower) {
    struct tower empty = TOWER_NONE;
    struct tower_cpu nine[9] = {{0}};
    EXPECT(tower_share(&empty, cpus, CPUS, monitors, MONITORS) == TOWER_SHARE_MISPLACED);
    EXPECT(tower_share(tower, nine, 9, monitors, 0) == TOWER_SHARE_BAD_COUNT && tower->live);
    EXPECT(tower_share(tower, cpus, 0, monitors, 0) == TOWER_SHARE_BAD_COUNT && tower->live);
    EXPECT(tower_cpu_take(&cpus[0], &empty) == TOWER_CPU_NONE);
    EXPECT(tower_cpu_give(&cpus[0], tower, true) == TOWER_CPU_NONE && tower->live);
    /* each request of memory refused once */
    const size_t blocks = heap_blocks;
    for (long refused = 0;; refused++) {
        heap_requests = 0;
        heap_refused = refused;
        const uint32_t status = tower_share(tower, cpus, CPUS, monitors, MONITORS);
        heap_refused = -1;
        if (status == TOWER_SHARED) {
            break;
        }
        EXPECT(status == TOWER_SHARE_NO_MEMORY && tower->live && !cpus[0].live && !monitors[0].live);
        EXPECT(heap_blocks == blocks);
    }
    EXPECT(!tower->live);
}

/* The core's image, restored as another core and shared anew, is in the same state. */
static void shared_anew(const struct tower *tower) {
    struct tower again = TOWER_NONE;
    struct tower_cpu cpu = {0};
    struct tower_verdict verdict;
    size_t size;
    EXPECT(tower_image(tower, image, sizeof image, &size) == TOWER_IMAGE_WRITTEN);
    EXPECT(tower_restore(image, size, &again, &verdict) == TOWER_RESTORED);
    EXPECT(tower_share(&again, &cpu, 1, NULL, 0) == TOWER_SHARED && !again.live);
    EXPECT(tower_cpu_take(&cpu, &again) == TOWER_CPU_DONE && tower_cpu_count(&cpu) == 0);
    EXPECT(made(&again, tower_load(0, COUNTER, 4)).first == (uint32_t)rounds * CPUS);
    EXPECT(tower_cpu_give(&cpu, &again, true) == TOWER_CPU_DONE && tower_cpu_count(&cpu) == 1);
    /* the last handle frees the core, which was given back */
    tower_cpu_free(&cpu);
    EXPECT(tower_cpu_take(&cpu, &again) == TOWER_CPU_NONE);
}

int main(int count, char **words) {
    seed = count > 1 ? (unsigned)strtoul(words[1], NULL, 10) : 1;
    rounds = count > 2 ? atoi(words[2]) : rounds;
    tower_set_other_heap(&counting_heap);
    struct tower tower = TOWER_NONE;
    EXPECT(tower_boot_over(FRAMES, &tower, block, sizeof block) == TOWER_BOOTED);
    EXPECT(made(&tower, tower_store(0, COUNTER, 4, 0)).kind == TOWER_DONE);
    for (uint32_t pid = 1; pid <= CPUS; pid++) {
        EXPECT(answers(&tower, tower_spawn(0, QUOTA), TOWER_CHILD, pid));
    }
    refusals(&tower);

    pthread_t threads[CPUS], watchers[MONITORS];
    for (int k = 0; k < MONITORS; k++) {
        pthread_create(&watchers[k], NULL, watch, &monitors[k]);
    }
    for (int k = 0; k < CPUS; k++) {
        pthread_create(&threads[k], NULL, work, &cpus[k]);
    }
    for (int k = 0; k < CPUS; k++) {
        pthread_join(threads[k], NULL);
    }
    atomic_store(&stop, true);
    for (int k = 0; k < MONITORS; k++) {
        pthread_join(watchers[k], NULL);
    }

    /* no count was lost, and one CPU keeps the core: the others find it closed */
    EXPECT(tower_cpu_take(&cpus[3], &tower) == TOWER_CPU_DONE);
    EXPECT(tower_cpu_count(&cpus[3]) == (uint64_t)rounds * CPUS);
    EXPECT(made(&tower, tower_load(0, COUNTER, 4)).first == (uint32_t)rounds * CPUS);
    EXPECT(tower_cpu_close(&cpus[3]) == TOWER_CPU_DONE);
    struct tower none = TOWER_NONE;
    for (int k = 0; k < CPUS; k++) {
        EXPECT(tower_cpu_take(&cpus[k], &none) == TOWER_CPU_CLOSED);
        tower_cpu_free(&cpus[k]);
    }
    for (int k = 0; k < MONITORS; k++) {
        tower_monitor_free(&monitors[k]);
    }
    shared_anew(&tower);
    tower_free(&tower);
    EXPECT(heap_blocks == 0 && !tower_holds(block));
    printf("handover %u: as expected, %lu gives\n", seed, atomic_load(&gives));
    return 0;
}
