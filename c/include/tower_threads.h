/* A core that threads share: it passes from one to the other, and only one has it at a time. With libtower_threads.a.
 *
 *  - tower_share takes the core out of a `struct tower` and gives each thread a `struct tower_cpu`.
 *  - A thread takes the core (tower_cpu_take) into a `struct tower` of its own, calls any functions of tower.h with that,
 *    and gives the core back (tower_cpu_give). While it has the core, each other take is TOWER_CPU_BUSY. A thread that
 *    forgets to take has an empty handle, with which each call fails: it can't reach the core.
 *  - What was given back is one history. The core that a CPU takes is the last one in it, whoever gave it.
 *  - A reader with a `struct tower_monitor` reads the report on a core that was given back and published. It takes
 *    nothing and waits for nothing, and what it reads never goes back.
 *
 * No function waits, sleeps or yields, and none needs a lock of the system's: a kernel may use them before it has one. A
 * take that finds no core says so. How long to wait then, and what to do meanwhile, is the caller's:
 * tower_cpu_take_spinning, below, just tries again.
 *
 * What the caller owes, in addition to what docs/C-LIBRARY.md says:
 *
 *  - The handles are in storage of the caller's own, filled with zeros at first. Write none of their fields, and make no
 *    copy.
 *  - One call at a time for each handle, a `struct tower` too. A handle passes from one thread to another by a lock, a
 *    thread's start or join, or a sequentially consistent atomic.
 *  - Calls that allocate or free come one at a time if the allocator wants that: tower_share, tower_cpu_free and
 *    tower_monitor_free. No other function of this header does.
 *  - A kernel whose interrupts take the core has to mask them between a take and its give, or to give up where the take is
 *    TOWER_CPU_BUSY: the CPU that has the core can't give it back while its own interrupt waits for it.
 *  - What a call ended has to be invalidated before the core is given back, as far as docs/INTO-A-KERNEL.md says so: no
 *    other CPU can make a call before the give.
 */
#ifndef TOWER_THREADS_H
#define TOWER_THREADS_H

#include "tower.h"

#ifdef __cplusplus
extern "C" {
#endif

/* The most CPUs, and the most monitors, of one core. */
#define TOWER_MOST_CPUS 8
#define TOWER_MOST_MONITORS 8

struct tower_cpu {
    bool live;
    void *cpu;
};

struct tower_monitor {
    bool live;
    void *monitor;
};

/* The statuses of tower_share. All but the first leave all handles as they were. */
enum tower_share_status {
    TOWER_SHARED = 0,
    TOWER_SHARE_BAD_COUNT = 1, /* not 1 to 8 CPUs, or more than 8 monitors */
    TOWER_SHARE_NO_MEMORY = 2,
    TOWER_SHARE_MISPLACED = 4, /* the first handle has no core, or one of the others is in use */
};

/* The statuses of the functions of a CPU and a monitor. */
enum tower_cpu_status {
    TOWER_CPU_DONE = 0,
    TOWER_CPU_BUSY = 1,      /* another CPU has the core. Of a monitor: others came between, the report is the one before */
    TOWER_CPU_CLOSED = 2,    /* a CPU keeps the core for good */
    TOWER_CPU_NO_TURN = 3,   /* the history has more than this CPU can know. No run gets here; no clause says so */
    TOWER_CPU_MISPLACED = 4, /* this CPU has the core already, or has not, or the other handle is the wrong one */
    TOWER_CPU_NONE = 5,      /* there is no CPU, or no monitor, in the handle */
};

/* What a report says of one process. If it isn't live, the other numbers are 0. */
struct tower_row {
    bool live;
    uint8_t parent;
    uint32_t quota;
    uint32_t used;
    uint32_t given;
};

/* Shares the core of a handle among these CPUs and monitors, whose handles are empty. The handle has no core then. It
 * allocates: a room, and for each CPU and monitor a handle; for monitors also pages of about 1.4 KB, three more than
 * there are monitors. */
TOWER_NODISCARD uint32_t tower_share(struct tower *tower, struct tower_cpu *cpus, size_t cpu_count,
                                     struct tower_monitor *monitors, size_t monitor_count);

/* Takes the core into a handle that has none. All statuses but TOWER_CPU_DONE leave both as they were. */
TOWER_NODISCARD uint32_t tower_cpu_take(struct tower_cpu *cpu, struct tower *tower);

/* Gives the core back. All statuses but TOWER_CPU_DONE leave it in its handle. If `publish`, monitors read the report on
 * it from then on. That costs as much again as two calls, and nothing if there are no monitors. */
TOWER_NODISCARD uint32_t tower_cpu_give(struct tower_cpu *cpu, struct tower *tower, bool publish);

/* How often the core was given back, as far as this CPU knows: up to when it last took or gave it. */
uint64_t tower_cpu_count(const struct tower_cpu *cpu);

/* Keeps the core that this CPU has taken for good: no CPU can take it afterwards. Then it can be stored
 * (tower_images.h), shared anew, or freed. */
TOWER_NODISCARD uint32_t tower_cpu_close(struct tower_cpu *cpu);

/* Frees a CPU; one that has the core closes first. The last handle frees what all share, with the core if it was given
 * back. */
void tower_cpu_free(struct tower_cpu *cpu);

/* Reads the newest report: how often the core was given back before it, and the rows of the processes from 0 on, as many
 * as there is room for, up to TOWER_PROCESSES. */
TOWER_NODISCARD uint32_t tower_monitor_read(struct tower_monitor *monitor, uint64_t *count, struct tower_row *rows,
                                            size_t row_count);

void tower_monitor_free(struct tower_monitor *monitor);

/* Takes the core, and tries again while another CPU has it. */
TOWER_NODISCARD static inline uint32_t tower_cpu_take_spinning(struct tower_cpu *cpu, struct tower *tower) {
    uint32_t status;
    while ((status = tower_cpu_take(cpu, tower)) == TOWER_CPU_BUSY) {
#if defined(__x86_64__) || defined(__i386__)
        __builtin_ia32_pause();
#elif defined(__aarch64__)
        __asm__ volatile("yield");
#endif
    }
    return status;
}

/* One call: takes the core, carries the event out and gives the core back. What it ended may be invalidated after that
 * only if the event may be late (an unmap, an exit, a protect to read-only): see docs/INTO-A-KERNEL.md. */
TOWER_NODISCARD static inline uint32_t tower_cpu_step(struct tower_cpu *cpu, const struct tower_event *event,
                                                      struct tower_reply *reply, struct tower_ended *ended,
                                                      bool publish) {
    struct tower tower = TOWER_NONE;
    const uint32_t status = tower_cpu_take_spinning(cpu, &tower);
    if (status != TOWER_CPU_DONE) return status;
    (void)tower_step_ending(&tower, event, reply, ended);
    return tower_cpu_give(cpu, &tower, publish);
}

/* As in tower.h: a program calls these without `_inline`. In place of NULL with a count of 0 they pass the address of an
 * empty handle or row, since a slice's pointer isn't null. */
TOWER_NODISCARD static inline uint32_t tower_share_inline(struct tower *tower, struct tower_cpu *cpus, size_t cpu_count,
                                                          struct tower_monitor *monitors, size_t monitor_count) {
    struct tower_cpu cpu = TOWER_NONE;
    struct tower_monitor monitor = TOWER_NONE;
    return tower_share(tower, cpu_count || cpus ? cpus : &cpu, cpu_count,
                       monitor_count || monitors ? monitors : &monitor, monitor_count);
}

TOWER_NODISCARD static inline uint32_t tower_monitor_read_inline(struct tower_monitor *monitor, uint64_t *count,
                                                                 struct tower_row *rows, size_t row_count) {
    struct tower_row row = {false, 0, 0, 0, 0};
    return tower_monitor_read(monitor, count, row_count || rows ? rows : &row, row_count);
}

#define tower_share tower_share_inline
#define tower_monitor_read tower_monitor_read_inline

#ifdef __cplusplus
}
#endif
#endif
