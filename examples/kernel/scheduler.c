#include "scheduler.h"

#include "answers.h"
#include "faults.h"
#include "processes.h"
#include "roots.h"

static struct turns turns;

struct turns turns_given(void) {
    return turns;
}

/* Notes a time in thousands of ticks if it is the longest. */
static void note_time(uint64_t since, uint32_t *longest) {
    uint32_t took = (uint32_t)((moment() - since) / 1000);
    *longest = took > *longest ? took : *longest;
}

static bool is_interrupt(uint64_t vector) {
    return vector >= EXCEPTIONS && vector != VECTOR_CALL;
}

/* An exception ends the process, unless it is a page fault that is explained. */
static void exception_of(const struct thread *it) {
    say("[%s] ended: exception %u\n", process_of(it->pid)->name, (uint32_t)it->cpu.vector);
    end_process(it->pid, ENDED_EXCEPTION, (uint32_t)it->cpu.vector);
}

/* Handles what a thread came back for, with the lock. Returns whether its turn is over. If its process is gone, what it
 * came for is no matter. */
static bool handle_trap(struct thread *it) {
    if (it->state == DYING) {
        return true;
    }
    if (it->cpu.vector == VECTOR_PAGE_FAULT && page_fault(it)) {
        return it->state != RUNNING;
    }
    it->last = (struct fault){0};
    if (it->cpu.vector == VECTOR_CALL) {
        return answer_call(it);
    }
    exception_of(it);
    return true;
}

/* Wakes the processors that rest, if there is a thread for them. */
static void share_queue(void) {
    if (is_one_queued()) {
        wake_others();
    }
}

/* Runs a thread until its turn is over, and returns with the lock. An interrupt that came during a trap is taken as the
 * thread continues; another processor may so stop this one between any two traps. */
static void run(struct thread *it) {
    start_slice();
    for (bool over = false; !over;) {
        run_thread(&it->cpu);
        if (is_interrupt(it->cpu.vector)) {
            interrupted((uint32_t)it->cpu.vector);
            answer_stop();
            over = is_slice_over();
            if (over) {
                take_lock();
            }
        } else {
            take_lock();
            over = handle_trap(it) || is_slice_over();
            if (!over) {
                let_go();
                share_queue();
            }
        }
    }
}

/* Ends a turn, with the lock: a thread that may continue is put last in the queue. */
static void end_turn(struct thread *it) {
    leave_process();
    turns.all++;
    turns.preempted += is_slice_over();
    it->last = (struct fault){0};
    if (it->state == DYING) {
        it->state = FREE;
    } else if (it->state == RUNNING && !is_shut_down()) {
        put_last(it);
    }
}

static bool is_work(const void *of) {
    (void)of;
    return is_shut_down() || is_one_queued();
}

void serve(void) {
    take_lock();
    arrive();
    while (!is_shut_down()) {
        struct thread *it = take_first();
        uint64_t since = moment();
        if (it) {
            note_time(it->queued, &turns.longest_wait);
            bring_here(it->pid);
        }
        let_go();
        share_queue();
        if (it) {
            run(it);
            note_time(since, &turns.longest);
            end_turn(it);
        } else {
            (void)comes_in_time(is_work, 0);
            take_lock();
        }
    }
    leave_all();
    depart();
    let_go();
    wake_others();
}
