/* Threads: each runs the program of a process, on one processor at a time; the threads of a process may run on several.
 * All functions are called with the lock. */
#ifndef THREADS_H
#define THREADS_H

#include "calls.h"
#include "core.h"
#include "traps.h"

enum thread_state {
    FREE,    /* there is no such thread */
    QUEUED,  /* it waits for a processor */
    RUNNING, /* on a processor, or in the kernel for a trap there */
    WAITING, /* for the end of a child */
    DYING,   /* its process is gone; the processor that runs it frees it at its next trap */
};

/* What a page fault was, at which instruction, and how often anything had been forgotten in the shadow tables then. */
struct fault {
    bool is_one; /* there was one */
    bool write;
    uint64_t address, rip;
    uint32_t forgets;
};

struct thread {
    enum thread_state state;
    uint32_t pid;
    struct fault last; /* its last page fault, if nothing came in between */
    uint64_t queued;   /* the moment since which it waits for a processor */
    struct registers cpu;
};

/* Returns a thread of a process that isn't queued yet, with these registers. The first one of a process is never
 * refused; of the others there are at most MOST_MORE in all, and then the result is null. */
enum { MOST_MORE = 64 };
struct thread *first_thread(uint32_t pid, const struct registers *cpu);
struct thread *another_thread(uint32_t pid, const struct registers *cpu);

/* How many threads of a process there are. */
uint32_t threads_of(uint32_t pid);
/* How many of them run, or are in the kernel for a trap. */
uint32_t running_threads(uint32_t pid);
/* A thread of a process that waits for a child, or null. */
struct thread *waiting_thread(uint32_t pid);
/* Ends all threads of a process. Those that run become DYING. */
void end_threads(uint32_t pid);

/* The queue of threads: first come, first served. A thread that is taken is RUNNING. */
void put_last(struct thread *it);
struct thread *take_first(void);
/* Whether there is one. This function is called without the lock, too. */
bool is_one_queued(void);

/* Puts a reply into the registers of a thread, as its call's. */
void give_reply(struct thread *it, struct tower_reply reply);

#endif
