#include "threads.h"

#include <stdatomic.h>

/* One for each process, the others, and those that are dying on a processor. */
enum { THREADS = TOWER_PROCESSES + MOST_MORE + MOST_PROCESSORS };

static struct thread threads[THREADS];

static struct {
    struct thread *at[THREADS];
    _Atomic uint32_t count;
} queue;

static bool is_alive(const struct thread *it) {
    return it->state != FREE && it->state != DYING;
}

static uint32_t count_alive(void) {
    uint32_t count = 0;
    for (const struct thread *it = threads; it < threads + THREADS; it++) {
        count += is_alive(it);
    }
    return count;
}

uint32_t threads_of(uint32_t pid) {
    uint32_t count = 0;
    for (const struct thread *it = threads; it < threads + THREADS; it++) {
        count += is_alive(it) && it->pid == pid;
    }
    return count;
}

uint32_t running_threads(uint32_t pid) {
    uint32_t count = 0;
    for (const struct thread *it = threads; it < threads + THREADS; it++) {
        count += it->state == RUNNING && it->pid == pid;
    }
    return count;
}

struct thread *first_thread(uint32_t pid, const struct registers *cpu) {
    for (struct thread *it = threads; it < threads + THREADS; it++) {
        if (it->state == FREE) {
            *it = (struct thread){.state = RUNNING, .pid = pid, .cpu = *cpu};
            return it;
        }
    }
    fail("a process has its first thread");
}

/* Each process that is alive has one thread at least: the others are at most as many as this leaves. */
struct thread *another_thread(uint32_t pid, const struct registers *cpu) {
    return count_alive() < MOST_MORE ? first_thread(pid, cpu) : 0;
}

struct thread *waiting_thread(uint32_t pid) {
    for (struct thread *it = threads; it < threads + THREADS; it++) {
        if (it->state == WAITING && it->pid == pid) {
            return it;
        }
    }
    return 0;
}

static void take_out_of_queue(const struct thread *it) {
    uint32_t place = 0;
    while (queue.at[place] != it) {
        place++;
    }
    queue.count--;
    memmove(queue.at + place, queue.at + place + 1, (queue.count - place) * sizeof *queue.at);
}

void end_threads(uint32_t pid) {
    for (struct thread *it = threads; it < threads + THREADS; it++) {
        if (!is_alive(it) || it->pid != pid) {
            continue;
        }
        if (it->state == QUEUED) {
            take_out_of_queue(it);
        }
        it->state = it->state == RUNNING ? DYING : FREE;
    }
}

void put_last(struct thread *it) {
    it->state = QUEUED;
    it->queued = moment();
    queue.at[queue.count++] = it;
}

struct thread *take_first(void) {
    if (queue.count == 0) {
        return 0;
    }
    struct thread *first = queue.at[0];
    take_out_of_queue(first);
    first->state = RUNNING;
    return first;
}

bool is_one_queued(void) {
    return queue.count != 0;
}

void give_reply(struct thread *it, struct tower_reply reply) {
    it->cpu.rax = reply.kind;
    it->cpu.rsi = reply.first;
    it->cpu.rdx = reply.second;
    it->cpu.r10 = reply.third;
    it->cpu.rdi = (uint32_t)reply.write | (uint32_t)reply.may << 1 | (uint32_t)reply.accessed << 2 |
                  (uint32_t)reply.dirty << 3;
}
