/* Cores booted and freed by two threads, over a block and over another heap. One lock is held over each boot and each
 * tower_free, as tower_region.h requires. It is linked with --wrap=tower_boot_wide, so that a boot over a block can be
 * stopped before the library requests anything. It ends with status 0 if all goes as expected (expect.h). */
#define _DEFAULT_SOURCE

#include <pthread.h>
#include <semaphore.h>
#include <stdio.h>
#include <stdlib.h>
#include <string.h>

#include "expect.h"
#include "heap.h"

enum { FRAMES = 64, BLOCKS = 5, ROUNDS = 2000 };

static _Alignas(TOWER_FRAME_BYTES) uint8_t block[TOWER_BLOCK_BYTES(FRAMES)];
static pthread_mutex_t lock = PTHREAD_MUTEX_INITIALIZER;
static sem_t stopped, released;

uint32_t __real_tower_boot_wide(uint32_t frames, struct tower *tower);
uint32_t __wrap_tower_boot_wide(uint32_t frames, struct tower *tower);

/* What a boot over a block calls. The first one stops here, until the other thread has tried the lock. */
uint32_t __wrap_tower_boot_wide(uint32_t frames, struct tower *tower) {
    static bool was_stopped;
    if (!was_stopped) {
        was_stopped = true;
        sem_post(&stopped);
        sem_wait(&released);
    }
    return __real_tower_boot_wide(frames, tower);
}

static uint32_t boot_over(struct tower *tower) {
    pthread_mutex_lock(&lock);
    uint32_t status = tower_boot_over(FRAMES, tower, block, sizeof block);
    pthread_mutex_unlock(&lock);
    return status;
}

static uint32_t boot_other(struct tower *tower) {
    pthread_mutex_lock(&lock);
    uint32_t status = tower_boot(TOWER_MIN_FRAMES, tower);
    pthread_mutex_unlock(&lock);
    return status;
}

static void free_core(struct tower *tower) {
    pthread_mutex_lock(&lock);
    tower_free(tower);
    pthread_mutex_unlock(&lock);
}

static void *boots_over(void *tower) {
    EXPECT(boot_over(tower) == TOWER_BOOTED);
    return NULL;
}

/* While one thread boots over the block, another wants to boot: the lock keeps it out, and its frames are its own. */
static void two_boots(void) {
    struct tower one = TOWER_NONE, two = TOWER_NONE;
    struct tower_memory memory;
    pthread_t thread;
    pthread_create(&thread, NULL, boots_over, &one);
    sem_wait(&stopped);
    EXPECT(pthread_mutex_trylock(&lock) != 0);
    sem_post(&released);
    EXPECT(boot_other(&two) == TOWER_BOOTED);
    pthread_join(thread, NULL);
    EXPECT(heap_blocks == BLOCKS);
    EXPECT(tower_memory(&two, &memory) && !tower_holds(memory.begins));
    EXPECT(tower_memory(&one, &memory) && memory.begins == block);
    free_core(&one);
    EXPECT(!tower_holds(block));
    free_core(&two);
    EXPECT(heap_blocks == 0);
}

static void *frees_others(void *none) {
    struct tower tower = TOWER_NONE;
    for (int round = 0; round < ROUNDS; round++) {
        EXPECT(boot_other(&tower) == TOWER_BOOTED);
        free_core(&tower);
    }
    return none;
}

/* One thread frees cores of the other heap while another frees cores over the block, and then writes over the block. */
static void frees_meet(void) {
    struct tower tower = TOWER_NONE;
    pthread_t thread;
    pthread_create(&thread, NULL, frees_others, NULL);
    for (int round = 0; round < ROUNDS; round++) {
        EXPECT(boot_over(&tower) == TOWER_BOOTED);
        free_core(&tower);
        memset(block, 0x5a, sizeof block);
    }
    pthread_join(thread, NULL);
    EXPECT(heap_blocks == 0 && !tower_holds(block));
}

int main(void) {
    tower_set_other_heap(&counting_heap);
    sem_init(&stopped, 0, 0);
    sem_init(&released, 0, 0);
    two_boots();
    frees_meet();
    puts("threads: as expected");
    return 0;
}
