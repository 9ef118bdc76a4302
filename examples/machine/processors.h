/* The machine's processors: how they start, what each has of its own, the lock of events, and how one processor stops
 * another. Each wait has a bound. At the bound the run fails with a text that says what did not come. */
#ifndef PROCESSORS_H
#define PROCESSORS_H

#include "machine.h"

enum { MOST_PROCESSORS = 8, NO_PROCESSOR = 255 };
/* The vectors of interrupts. */
enum { VECTOR_TIMER = 0x40, VECTOR_STOP = 0x41, VECTOR_SPURIOUS = 0xff };

/* Sets this processor up as number 0, the one that began the program. Call it before anything else. */
void begin_first_processor(void);
/* Starts all others, by INIT and SIPI. Each does `first`, and then waits for work. */
void start_processors(void (*first)(void));
uint32_t processors(void);
/* How many the machine has, as QEMU reports it: before they start, too. */
uint32_t processors_there(void);
uint32_t this_processor(void);
/* Runs `work` on each processor, this one among them. Returns when all have finished. */
void on_all(void (*work)(void));

/* Sets up a processor's gates. An example has this function of its own, and its handlers. A handler of an interrupt
 * that came in the program itself acknowledges it at the processor's APIC. That of the timer notes it, as a 1 in the
 * four bytes at GS:12. */
void begin_gates(uint32_t number);
/* Does both for an interrupt that came while a process or a guest ran. */
void interrupted(uint32_t vector);

/* The processor's ticks since it began. */
uint64_t moment(void);
/* The timer interrupts 10 ms from now, and not before. The interrupt ends a guest's run, also if this processor waits
 * or rests meanwhile. A stop that came is answered. */
void start_slice(void);
/* Returns whether the slice is over. */
bool is_slice_over(void);
/* Takes the interrupts that are pending. */
void take_interrupts(void);
/* Waits until the timer's interrupt is pending. */
void let_slice_pass(void);

/* The lock of events, in the order of requests. A processor that waits for it may be stopped. */
void take_lock(void);
void let_go(void);

/* Joins and leaves the processors that work together, with the lock. stop_others stops no others. */
void arrive(void);
void depart(void);

/* What a stopped processor does before it continues: forgets a page's translation, or nothing. */
struct order {
    void (*forget)(uint32_t identifier, uint32_t page);
    uint32_t identifier, page;
};

/* Stops another processor with an interrupt, with the lock. When this returns, that processor runs no guest, and has
 * called `before_stop`. */
void stop_processor(uint32_t number);
/* Lets a stopped processor continue. When this returns, that processor has carried out the order. */
void go_on(uint32_t number, struct order order);
/* Stops all others that work; and lets them continue, with no order. */
void stop_others(void);
void others_go_on(void);
/* Interrupts all others that work, with the lock, and goes on. Each calls `on_call` when it takes the interrupt. */
void call_others(void);
extern void (*on_call)(void);
/* Returns when all of them have called it. */
void wait_for_called(void);
/* Takes the interrupts that have come: waits here if another processor has stopped this one. */
void answer_stop(void);
extern void (*before_stop)(void);
/* How many interrupts were sent to stop a processor. */
uint32_t stops(void);

/* Waits until something holds. It polls for a while, and then rests between polls, so that a processor in QEMU leaves
 * the host's to others. It answers stops meanwhile. */
void wait_until(bool (*holds)(const void *of), const void *of, const char *what);
/* Waits likewise, and returns false at the bound. */
bool comes_in_time(bool (*holds)(const void *of), const void *of);
/* Makes each processor that rests poll again. Call it after a change that one may wait for. */
void wake_others(void);
/* Rests for a tenth of a millisecond, or until an interrupt. */
void rest(void);

#endif
