/* The machine's processors, by their local APICs. */
#include "processors.h"

#include <stdatomic.h>

#include "place.h"
#include "wrong_machine.h"

enum { APIC_ID = 0x20, APIC_EOI = 0xb0, APIC_SPURIOUS = 0xf0, APIC_COMMAND = 0x300, APIC_TARGET = 0x310 };
enum { APIC_TIMER = 0x320, APIC_LINT0 = 0x350, APIC_FIRST = 0x380, APIC_NOW = 0x390, APIC_DIVIDE = 0x3e0 };
enum { ASSERT = 0x4000, TO_OTHERS = 0xc0000, INIT = 0x500, STARTUP = 0x600, MASKED = 0x10000, DIVIDE_BY_16 = 3 };
/* Of the timer, which counts a billion in a second before it divides: 10 ms, and 0.1 ms. */
enum { SLICE_COUNT = 625000, REST_COUNT = 6250 };
/* Where the other processors begin, below 1 MiB; the number of its page is the vector of SIPI. */
enum { TRAMPOLINE_AT = 0x8000, MSR_GS_BASE = 0xc0000101 };

/* Ticks of a wait, about ten seconds; and of polling before a rest, about a tenth of a millisecond. A poll has no
 * PAUSE: QEMU leaves its loop at each. */
#define WAIT_BOUND 30000000000u
#define LOOKS_BOUND 200000u

/* A processor's own data; GS points to it. The assembly of each example has the places of the first three fields. */
static struct processor {
    struct processor *self;
    uint32_t number;
    volatile uint32_t slice_over;
    uint32_t apic;
    bool works;
    struct order order;
    struct processor *asker;
    _Atomic uint32_t asked, answered, released, done; /* the last stop by number: each follows the one before it */
    _Atomic uint32_t called, taken;                   /* the last call by number, and the last one that was taken */
    _Atomic uint32_t ticket, rests;
} all[MOST_PROCESSORS];

static _Atomic uint32_t next_ticket, served;
static _Atomic uint32_t begun = 1, jobs, busy;
static void (*job)(void), (*first_job)(void);
static uint32_t stop_count;

void (*before_stop)(void);
void (*on_call)(void);

extern const uint8_t trampoline[], trampoline_end[]; /* at their physical places */

static struct processor *me(void) {
    struct processor *it;
    __asm__("mov %%gs:0, %0" : "=r"(it));
    return it;
}

uint32_t this_processor(void) {
    return me()->number;
}

uint32_t processors(void) {
    return atomic_load(&begun);
}

static volatile uint32_t *apic(uint32_t at) {
    return at_physical(0xfee00000u + at);
}

uint64_t moment(void) {
    uint32_t low, high;
    __asm__ volatile("rdtsc" : "=a"(low), "=d"(high) : : "memory");
    return low | (uint64_t)high << 32;
}

static void pass(uint64_t ticks) {
    for (uint64_t since = moment(); moment() - since < ticks;) {
    }
}

static void interrupt(const struct processor *it) {
    *apic(APIC_TARGET) = it->apic << 24;
    *apic(APIC_COMMAND) = ASSERT | VECTOR_STOP;
}

/* ---- Waits */

/* Rests until an interrupt, or that count. A slice that is not over ends when it would without the rest: its count goes
 * on. If its interrupt is pending already, that is taken here and noted. */
static void rest_for(uint32_t count) {
    uint32_t left = WRONG_REST ? 0 : *apic(APIC_NOW);
    *apic(APIC_FIRST) = left && left < count ? left : count;
    __asm__ volatile("sti; hlt; cli" : : : "memory");
}

/* Wakes a processor that rests. The caller first changes what the processor waits for, and then calls this. */
static void wake(const struct processor *it) {
    if (atomic_load(&it->rests)) {
        interrupt(it);
    }
}

void wake_others(void) {
    for (const struct processor *it = all; it < all + MOST_PROCESSORS; it++) {
        wake(it);
    }
}

void rest(void) {
    rest_for(REST_COUNT);
}

bool comes_in_time(bool (*holds)(const void *of), const void *of) {
    struct processor *it = me();
    uint64_t since = moment();
    while (!holds(of)) {
        answer_stop();
        if (moment() - since < LOOKS_BOUND) {
            continue;
        }
        if (moment() - since > WAIT_BOUND) {
            return false;
        }
        atomic_store(&it->rests, 1);
        if (!holds(of) && atomic_load(&it->asked) == atomic_load(&it->answered) &&
            atomic_load(&it->called) == atomic_load(&it->taken)) {
            rest_for(SLICE_COUNT);
        }
        atomic_store(&it->rests, 0);
    }
    return true;
}

void wait_until(bool (*holds)(const void *of), const void *of, const char *what) {
    if (!comes_in_time(holds, of)) {
        fail(what);
    }
}

/* ---- Interrupts. In the program itself none is taken except in take_interrupts, and while a processor rests. */

void take_interrupts(void) {
    __asm__ volatile("sti; nop; nop; cli" : : : "memory");
}

void interrupted(uint32_t vector) {
    if (vector == VECTOR_TIMER) {
        me()->slice_over = 1;
    }
    if (vector != VECTOR_SPURIOUS) {
        *apic(APIC_EOI) = 0;
    }
}

/* As if the host paused this processor where it takes interrupts. */
static void pass_with_interrupts(uint64_t ticks) {
    __asm__ volatile("sti" : : : "memory");
    pass(ticks);
    __asm__ volatile("cli" : : : "memory");
}

/* An interrupt of an earlier countdown is taken once the new one counts, so that none is left. The host may pause
 * this processor meanwhile, and then the new one's only interrupt is taken, too: a count of 0 shows that. A stop that
 * is taken here comes with no other interrupt, and is answered here. */
void start_slice(void) {
    do {
        *apic(APIC_FIRST) = SLICE_COUNT;
        take_interrupts();
        if (WRONG_SWALLOW) {
            pass_with_interrupts(3000000);
        } else {
            answer_stop();
        }
        me()->slice_over = 0;
    } while (*apic(APIC_NOW) == 0 && !WRONG_SLICE);
}

bool is_slice_over(void) {
    return me()->slice_over;
}

void let_slice_pass(void) {
    start_slice();
    for (uint64_t since = moment(); *apic(APIC_NOW);) {
        need(moment() - since < WAIT_BOUND, "the timer ends a slice");
    }
}

/* ---- Starting */

static void begin_processor(uint32_t number) {
    struct processor *it = &all[number];
    it->self = it;
    it->number = number;
    write_msr(MSR_GS_BASE, (uint64_t)it);
    begin_gates(number);
    it->apic = *apic(APIC_ID) >> 24;
    *apic(APIC_SPURIOUS) = 0x100 | VECTOR_SPURIOUS;
    *apic(APIC_LINT0) = MASKED;
    *apic(APIC_DIVIDE) = DIVIDE_BY_16;
    *apic(APIC_TIMER) = VECTOR_TIMER;
}

/* The legacy interrupt controllers are not used: all of their lines are masked. */
void begin_first_processor(void) {
    out8(0x21, 0xff);
    out8(0xa1, 0xff);
    begin_processor(0);
}

/* Runs another processor; the assembly gives it its number. */
_Noreturn void begin_other(uint32_t number) {
    begin_processor(number);
    first_job();
    atomic_fetch_add(&begun, 1);
    for (uint32_t seen = 0;; seen++) {
        while (atomic_load(&jobs) == seen) {
            __asm__ volatile("sti; hlt; cli" : : : "memory");
        }
        job();
        atomic_fetch_sub(&busy, 1);
        wake(&all[0]);
    }
}

uint32_t processors_there(void) {
    enum { SELECTOR = 0x510, DATA = 0x511, PROCESSORS = 5 };
    out16(SELECTOR, PROCESSORS);
    uint32_t low = in8(DATA);
    return low | (uint32_t)in8(DATA) << 8;
}

void start_processors(void (*first)(void)) {
    uint32_t there = processors_there();
    need(there >= 1 && there <= MOST_PROCESSORS, "there are one to eight processors");
    first_job = first;
    memmove(at_physical(TRAMPOLINE_AT), at_physical((uint64_t)trampoline), (size_t)(trampoline_end - trampoline));
    *apic(APIC_COMMAND) = TO_OTHERS | ASSERT | INIT;
    pass(50000000);
    for (uint32_t i = 0; i < 2; i++) {
        *apic(APIC_COMMAND) = TO_OTHERS | ASSERT | STARTUP | TRAMPOLINE_AT / FRAME;
        pass(2000000);
    }
    for (uint64_t since = moment(); processors() != there;) {
        need(moment() - since < WAIT_BOUND, "all processors start");
    }
}

static bool is_idle(const void *of) {
    (void)of;
    return atomic_load(&busy) == 0;
}

void on_all(void (*work)(void)) {
    job = work;
    atomic_store(&busy, processors() - 1);
    atomic_fetch_add(&jobs, 1);
    *apic(APIC_COMMAND) = TO_OTHERS | ASSERT | VECTOR_STOP;
    work();
    wait_until(is_idle, 0, "all processors end their work");
}

/* ---- The lock */

static bool is_served(const void *of) {
    return atomic_load(&served) == atomic_load(&((const struct processor *)of)->ticket);
}

void take_lock(void) {
    atomic_store(&me()->ticket, atomic_fetch_add(&next_ticket, 1));
    wait_until(is_served, me(), "the lock comes round");
}

void let_go(void) {
    atomic_fetch_add(&served, 1);
    for (const struct processor *it = all; it < all + MOST_PROCESSORS; it++) {
        if (is_served(it)) {
            wake(it);
        }
    }
}

/* ---- Stops */

void arrive(void) {
    me()->works = true;
}

void depart(void) {
    me()->works = false;
}

static void ask(struct processor *it) {
    it->asker = me();
    atomic_fetch_add(&it->asked, 1);
    interrupt(it);
    stop_count++;
}

static bool has_answered(const void *of) {
    const struct processor *it = of;
    return atomic_load(&it->answered) == atomic_load(&it->asked);
}

static bool is_released(const void *of) {
    const struct processor *it = of;
    return atomic_load(&it->released) == atomic_load(&it->asked);
}

static bool is_done(const void *of) {
    const struct processor *it = of;
    return atomic_load(&it->done) == atomic_load(&it->asked);
}

void stop_processor(uint32_t number) {
    ask(&all[number]);
    wait_until(has_answered, &all[number], "a processor stops");
}

void go_on(uint32_t number, struct order order) {
    struct processor *it = &all[number];
    it->order = order;
    atomic_store(&it->released, atomic_load(&it->asked));
    wake(it);
    wait_until(is_done, it, "a processor goes on");
}

/* Takes the call that has come, if one has. */
static void take_call(void) {
    struct processor *it = me();
    uint32_t called = atomic_load(&it->called);
    if (called != atomic_load(&it->taken)) {
        on_call();
        atomic_store(&it->taken, called);
        wake(it->asker);
    }
}

static bool has_taken(const void *of) {
    const struct processor *it = of;
    return atomic_load(&it->called) == atomic_load(&it->taken);
}

void call_others(void) {
    for (struct processor *it = all; it < all + MOST_PROCESSORS; it++) {
        if (it->works && it != me()) {
            it->asker = me();
            atomic_fetch_add(&it->called, 1);
            interrupt(it);
        }
    }
}

void wait_for_called(void) {
    for (struct processor *it = all; it < all + MOST_PROCESSORS; it++) {
        wait_until(has_taken, it, "a processor takes its interrupt");
    }
}

void answer_stop(void) {
    struct processor *it = me();
    take_call();
    uint32_t asked = atomic_load(&it->asked);
    if (asked == atomic_load(&it->answered)) {
        return;
    }
    if (before_stop) {
        before_stop();
    }
    atomic_store(&it->answered, asked);
    wake(it->asker);
    wait_until(is_released, it, "a processor that was stopped may go on");
    if (it->order.forget) {
        it->order.forget(it->order.identifier, it->order.page);
    }
    atomic_store(&it->done, asked);
    wake(it->asker);
}

void stop_others(void) {
    for (struct processor *it = all; it < all + MOST_PROCESSORS; it++) {
        if (it->works && it != me()) {
            ask(it);
        }
    }
    for (struct processor *it = all; it < all + MOST_PROCESSORS; it++) {
        if (it->works && it != me()) {
            wait_until(has_answered, it, "all others stop");
        }
    }
}

void others_go_on(void) {
    for (uint32_t number = 0; number < MOST_PROCESSORS; number++) {
        if (all[number].works && &all[number] != me()) {
            go_on(number, (struct order){0});
        }
    }
}

uint32_t stops(void) {
    return stop_count;
}
