/* bench/calls/floor.c: what two monitors that poll without a pause cost any caller, whatever is published and how.
 *
 * One thread makes calls: it takes a lock, changes a few words, appends an entry, sets a count, and releases the lock.
 * Lock, count, words and entries are in cache lines of their own. Two threads only read the count, with a number of the
 * processor's pauses between two polls. A monitor that must see each call that has returned has to read at least that
 * much.
 *
 *     cc -O2 -pthread bench/calls/floor.c -o floor && ./floor
 *
 * It prints the best of fifteen runs of 400,000 calls each. The gate does not run it.
 */
#include <pthread.h>
#include <stdalign.h>
#include <stdatomic.h>
#include <stdint.h>
#include <stdio.h>
#include <stdlib.h>
#include <time.h>

enum { CALLS = 400000, RUNS = 15, MONITORS = 2, WORDS = 4096, LINE = 128 };

struct entry {
    uint64_t words[8];
};

static alignas(LINE) _Atomic int held;
static alignas(LINE) _Atomic uint64_t count;
static alignas(LINE) _Atomic int done;
static alignas(LINE) _Atomic uint64_t looks;
static alignas(LINE) uint64_t state[WORDS];
static alignas(LINE) struct entry entries[CALLS];

static uint64_t nanoseconds(void)
{
    struct timespec now;
    clock_gettime(CLOCK_MONOTONIC, &now);
    return (uint64_t)now.tv_sec * 1000000000 + (uint64_t)now.tv_nsec;
}

static void *watch(void *pauses)
{
    uint64_t most = 0, made = 0;
    while (!atomic_load(&done)) {
        uint64_t seen = atomic_load_explicit(&count, memory_order_acquire);
        most = seen > most ? seen : most;
        made++;
        for (int left = *(int *)pauses; left > 0; left--)
            __builtin_ia32_pause();
    }
    atomic_fetch_add(&looks, made);
    return most > CALLS ? watch : NULL;
}

static void call(uint64_t number)
{
    int is_free = 0;
    while (!atomic_compare_exchange_weak(&held, &is_free, 1))
        is_free = 0;
    for (uint64_t word = 0; word < 12; word++)
        state[(number * 7 + word * 64) % WORDS] += number;
    entries[number].words[0] = number;
    entries[number].words[1] = number * 3;
    atomic_store_explicit(&count, number + 1, memory_order_release);
    atomic_exchange(&held, 0);
}

/* Returns the time of all calls. Counts the polls of all monitors. */
static uint64_t timed(int monitors, int pauses)
{
    pthread_t threads[MONITORS];
    atomic_store(&done, 0);
    atomic_store(&count, 0);
    atomic_store(&looks, 0);
    for (int i = 0; i < monitors; i++)
        if (pthread_create(&threads[i], NULL, watch, &pauses))
            exit(1);
    uint64_t start = nanoseconds();
    for (uint64_t number = 0; number < CALLS; number++)
        call(number);
    uint64_t took = nanoseconds() - start;
    atomic_store(&done, 1);
    for (int i = 0; i < monitors; i++)
        pthread_join(threads[i], NULL);
    return took;
}

static void row(int monitors, int pauses)
{
    uint64_t best = UINT64_MAX;
    double apart = 0;
    for (int run = 0; run < RUNS; run++) {
        uint64_t took = timed(monitors, pauses);
        if (took < best) {
            best = took;
            apart = (double)took * monitors / (double)(atomic_load(&looks) + 1);
        }
    }
    printf("%d monitors, %3d pauses: %5.1f nanoseconds a call", monitors, pauses, (double)best / CALLS);
    printf(monitors ? ", a look each %.0f\n" : "\n", apart);
}

int main(void)
{
    static const int pauses[] = { 0, 10, 30, 100, 300 };
    row(0, 0);
    for (unsigned i = 0; i < sizeof pauses / sizeof *pauses; i++)
        row(MONITORS, pauses[i]);
    return 0;
}
