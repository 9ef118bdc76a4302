/* The processors' gates: interrupts that start.S handles, and exceptions, of which the program makes none. */
#include "processors.h"

enum { EXCEPTIONS = 32, VECTORS = 256 };

extern const uint8_t on_exception[], on_timer[], on_stop[], on_spurious[];

static struct gate {
    uint16_t low, selector, kind, middle;
    uint32_t high, zero;
} gates[VECTORS];

static void set_gate(uint32_t vector, const uint8_t *handler) {
    enum { CODE = 8, INTERRUPT = 0x8e00 };
    uint64_t at = (uint64_t)handler;
    gates[vector] = (struct gate){(uint16_t)at, CODE, INTERRUPT, (uint16_t)(at >> 16), (uint32_t)(at >> 32), 0};
}

static void set_gates(void) {
    enum { HANDLER_BYTES = 16 };
    for (uint32_t vector = 0; vector < EXCEPTIONS; vector++) {
        set_gate(vector, on_exception + vector * HANDLER_BYTES);
    }
    set_gate(VECTOR_TIMER, on_timer);
    set_gate(VECTOR_STOP, on_stop);
    set_gate(VECTOR_SPURIOUS, on_spurious);
}

/* The first processor sets the gates, which all share. */
void begin_gates(uint32_t number) {
    struct __attribute__((packed)) {
        uint16_t limit;
        uint64_t begins;
    } table = {sizeof gates - 1, (uint64_t)gates};
    if (number == 0) {
        set_gates();
    }
    __asm__ volatile("lidt %0" : : "m"(table));
}

/* Ends the run at an exception of the program's own; start.S passes the number and what the processor pushed. */
_Noreturn void exception(uint64_t number, const uint64_t *pushed) {
    say("exception %u of processor %u: %x %x\n", (uint32_t)number, this_processor(), (uint32_t)pushed[0],
        (uint32_t)pushed[1]);
    fail("the program makes no exception");
}
