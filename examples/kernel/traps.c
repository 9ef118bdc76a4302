#include "traps.h"

#include <stdatomic.h>

#include "wrong.h"

enum { VECTORS = 256, HANDLER_BYTES = 16 };
enum { KERNEL_CODE = 8, USER_DATA = 0x23, USER_CODE = 0x2b, FIRST_TSS = 48, TSS_BYTES = 104 };
enum { CR4_UMIP = 1 << 11, CR4_SMEP = 1 << 20, CR4_SMAP = 1 << 21 };
enum { HAS_SMEP = 1 << 7, HAS_SMAP = 1 << 20, HAS_UMIP = 1 << 2 }; /* CPUID, leaf 7: EBX, and UMIP in ECX */
enum { INTERRUPTS_ON = 0x202 };

extern const uint8_t handlers[];
void enter_process(struct registers *it);

/* ---- Segments: those of boot.S, those of processes, and a TSS for each processor, which has two places. */

static uint64_t segments[FIRST_TSS / 8 + 2 * MOST_PROCESSORS] = {
    0, 0x00af9b000000ffff, 0x00cf93000000ffff, 0x00cf9b000000ffff, 0x00cff3000000ffff, 0x00affb000000ffff,
};

/* A TSS: only the stack pointer for traps out of ring 3 is used, and the port map lies outside. */
static struct __attribute__((packed)) task {
    uint32_t zero;
    uint64_t stack;
    uint8_t unused[TSS_BYTES - 14];
    uint16_t port_map;
} tasks[MOST_PROCESSORS];

static void set_task(uint32_t number) {
    enum { AVAILABLE = 0x89 };
    uint64_t at = (uint64_t)&tasks[number], *place = &segments[FIRST_TSS / 8 + 2 * number];
    tasks[number].port_map = TSS_BYTES;
    place[0] = (TSS_BYTES - 1) | (at & 0xffffff) << 16 | (uint64_t)AVAILABLE << 40 | (at >> 24 & 0xff) << 56;
    place[1] = at >> 32;
}

/* ---- Gates */

static struct gate {
    uint16_t low, selector, kind, middle;
    uint32_t high, zero;
} gates[VECTORS];

/* A process may make INT 0x80 only; all else is the processor's to raise. */
static void set_gates(void) {
    enum { INTERRUPT = 0x8e00, FOR_PROCESSES = 0x6000 };
    for (uint32_t vector = 0; vector < VECTORS; vector++) {
        uint64_t at = (uint64_t)(handlers + vector * HANDLER_BYTES);
        uint16_t kind = INTERRUPT | (vector == VECTOR_CALL ? FOR_PROCESSES : 0);
        gates[vector] = (struct gate){(uint16_t)at, KERNEL_CODE, kind, (uint16_t)(at >> 16), (uint32_t)(at >> 32), 0};
    }
}

struct __attribute__((packed)) pointer {
    uint16_t limit;
    uint64_t begins;
};

/* The kernel neither runs nor reads a process's memory by the process's addresses. The processor stops it if it would,
 * where it has the means. */
static void keep_out_of_processes(void) {
    uint32_t leaf = 7, ebx, ecx = 0, edx;
    uint64_t cr4;
    __asm__ volatile("cpuid" : "+a"(leaf), "=b"(ebx), "+c"(ecx), "=d"(edx));
    __asm__ volatile("mov %%cr4, %0" : "=r"(cr4));
    cr4 |= (ebx & HAS_SMEP ? CR4_SMEP : 0) | (ebx & HAS_SMAP ? CR4_SMAP : 0) | (ecx & HAS_UMIP ? CR4_UMIP : 0);
    __asm__ volatile("mov %0, %%cr4" : : "r"(cr4));
}

/* The first processor sets the tables that all share. */
void begin_gates(uint32_t number) {
    struct pointer for_segments = {sizeof segments - 1, (uint64_t)segments};
    struct pointer for_gates = {sizeof gates - 1, (uint64_t)gates};
    if (number == 0) {
        set_gates();
    }
    set_task(number);
    __asm__ volatile("lgdt %0" : : "m"(for_segments));
    __asm__ volatile("lidt %0" : : "m"(for_gates));
    __asm__ volatile("ltr %w0" : : "r"(FIRST_TSS + 16 * number));
    if (!WRONG_HALF) {
        keep_out_of_processes();
    }
}

/* ---- Runs */

void open_registers(struct registers *it, uint64_t function, uint64_t stack_top, uint64_t argument) {
    enum { RETURN_PLACE = 8 }; /* a function finds its stack as a call leaves it */
    *it = (struct registers){.rdi = argument, .rip = function, .cs = USER_CODE, .flags = INTERRUPTS_ON,
                             .rsp = stack_top - RETURN_PLACE, .ss = USER_DATA};
    it->vectors[0] = 0x7f; /* the x87 control word 0x37f, and at byte 24 MXCSR 0x1f80: no exception */
    it->vectors[1] = 0x03;
    it->vectors[24] = 0x80;
    it->vectors[25] = 0x1f;
}

void run_thread(struct registers *it) {
    tasks[this_processor()].stack = (uint64_t)&it->kernel_stack;
    enter_process(it);
}

uint64_t fault_address(void) {
    uint64_t address;
    __asm__ volatile("mov %%cr2, %0" : "=r"(address));
    return address;
}

/* Ends the run at an exception of the kernel's own. `pushed` are the vector, the code and the instruction. Only the
 * first is told, as the text may raise the next. */
_Noreturn void exception(const uint64_t *pushed) {
    static atomic_flag is_one_told = ATOMIC_FLAG_INIT;
    if (atomic_flag_test_and_set(&is_one_told)) {
        leave(1);
    }
    say("exception %u of processor %u: code %x at %x%x, address %x%x\n", (uint32_t)pushed[0], this_processor(),
        (uint32_t)pushed[1], (uint32_t)(pushed[2] >> 32), (uint32_t)pushed[2], (uint32_t)(fault_address() >> 32),
        (uint32_t)fault_address());
    fail("the kernel makes no exception");
}
