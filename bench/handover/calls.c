/* Calls a second of threads that share one core: a store into a page that is mapped, of each thread's own. It is linked
 * once for each WAY: HANDOVER (tower_threads.h), QUEUED (the same inside a pthread mutex, so that who waits sleeps), MUTEX
 * (tower.h under one pthread mutex), SPIN (the same under a spin lock of two atomic steps), and PLAIN (an array under one
 * pthread mutex: what any memory costs).
 *
 *     calls THREADS MONITORS CALLS     prints for each call of all threads: nanoseconds, nanoseconds of all processors; then reports a second
 */
#define _DEFAULT_SOURCE
#include <pthread.h>
#include <sched.h>
#include <stdatomic.h>
#include <stdio.h>
#include <stdlib.h>
#include <string.h>
#include <time.h>

#include "tower_threads.h"

#define HANDOVER 1
#define MUTEX 2
#define PLAIN 3
#define SPIN 4
#define QUEUED 5

enum { FRAMES = 512, MOST = 8, QUOTA = 16, EVERY = 64 };

static struct tower core;
static struct tower_cpu cpus[MOST];
static struct tower_monitor monitors[MOST];
static pthread_mutex_t lock = PTHREAD_MUTEX_INITIALIZER;
static uint32_t plain[MOST][1024];
static atomic_int spin;
static long calls;
static atomic_bool go, stop;
static atomic_ulong reports;
static bool watched;

static double seconds(clockid_t clock) {
    struct timespec now;
    clock_gettime(clock, &now);
    return (double)now.tv_sec + 1e-9 * (double)now.tv_nsec;
}

static void *work(void *at) {
    const uint32_t number = (uint32_t)(size_t)at;
    struct tower_reply reply;
    struct tower_ended ended;
    (void)reply, (void)ended;
    while (!atomic_load(&go)) {
    }
    for (long call = 0; call < calls; call++) {
        const uint32_t place = (uint32_t)(call & 1023);
#if WAY == PLAIN
        pthread_mutex_lock(&lock);
        plain[number][place] = (uint32_t)call;
        pthread_mutex_unlock(&lock);
#else
        const struct tower_event event = tower_store(number + 1, 0x40000000u + 4 * place, 4, (uint32_t)call);
#if WAY == MUTEX
        pthread_mutex_lock(&lock);
        const bool done = tower_step_ending(&core, &event, &reply, &ended);
        pthread_mutex_unlock(&lock);
        if (!done) abort();
#elif WAY == SPIN
        for (int tries = 0, none = 0; atomic_load(&spin) || !atomic_compare_exchange_strong(&spin, &none, 1); none = 0) {
            if (++tries % 128 == 127) sched_yield();
            else __builtin_ia32_pause();
        }
        const bool done = tower_step_ending(&core, &event, &reply, &ended);
        atomic_store(&spin, 0);
        if (!done) abort();
#else
#if WAY == QUEUED
        pthread_mutex_lock(&lock);
#endif
        struct tower tower = TOWER_NONE;
        uint32_t status;
        for (int tries = 0; (status = tower_cpu_take(&cpus[number], &tower)) == TOWER_CPU_BUSY; tries++) {
            if (tries % 128 == 127) sched_yield();
            else __builtin_ia32_pause();
        }
        if (status) abort();
        if (!tower_step_ending(&tower, &event, &reply, &ended)) abort();
        if (tower_cpu_give(&cpus[number], &tower, watched && call % EVERY == 0)) abort();
#if WAY == QUEUED
        pthread_mutex_unlock(&lock);
#endif
#endif
        if (reply.kind != TOWER_DONE) abort();
#endif
    }
    return NULL;
}

static void *watch(void *at) {
    struct tower_row rows[TOWER_PROCESSES];
    uint64_t count;
    (void)at, (void)rows, (void)count;
    unsigned long mine = 0;
    while (!atomic_load(&stop)) {
#if WAY == HANDOVER || WAY == QUEUED
        if (tower_monitor_read(&monitors[(size_t)at], &count, rows, TOWER_PROCESSES) == TOWER_CPU_NONE) abort();
#elif WAY == MUTEX
        /* the same report by its queries, under the lock */
        struct tower_container container;
        int found = 0;
        for (uint32_t pid = 0; pid < TOWER_PROCESSES; pid++) {
            pthread_mutex_lock(&lock);
            found += tower_container(&core, pid, &container);
            pthread_mutex_unlock(&lock);
        }
#endif
        mine++;
    }
    atomic_fetch_add(&reports, mine);
    return NULL;
}

int main(int count, char **words) {
    if (count != 4) return 2;
    const int threads = atoi(words[1]), watchers = atoi(words[2]);
    calls = atol(words[3]) / threads;
    watched = watchers > 0;
    if (tower_boot(FRAMES, &core) != TOWER_BOOTED) return 1;
    for (uint32_t pid = 1; pid <= MOST; pid++) {
        struct tower_reply reply;
        struct tower_event spawn = tower_spawn(0, QUOTA), store = tower_store(pid, 0x40000000u, 4, 1);
        if (!tower_step(&core, &spawn, &reply) || !tower_step(&core, &store, &reply)) return 1;
    }
#if WAY == HANDOVER || WAY == QUEUED
    if (tower_share(&core, cpus, (size_t)threads, monitors, (size_t)watchers) != TOWER_SHARED) return 1;
#endif
    pthread_t them[MOST], those[MOST];
    for (int k = 0; k < watchers; k++) pthread_create(&those[k], NULL, watch, (void *)(size_t)k);
    for (int k = 0; k < threads; k++) pthread_create(&them[k], NULL, work, (void *)(size_t)k);
    const double began = seconds(CLOCK_MONOTONIC), used = seconds(CLOCK_PROCESS_CPUTIME_ID);
    atomic_store(&go, true);
    for (int k = 0; k < threads; k++) pthread_join(them[k], NULL);
    const double took = seconds(CLOCK_MONOTONIC) - began, spent = seconds(CLOCK_PROCESS_CPUTIME_ID) - used;
    atomic_store(&stop, true);
    for (int k = 0; k < watchers; k++) pthread_join(those[k], NULL);
    const double all = (double)(calls * threads);
    printf("%.1f %.1f %.0f\n", 1e9 * took / all, 1e9 * spent / all, (double)atomic_load(&reports) / took);
    return 0;
}
