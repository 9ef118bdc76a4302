/* Traps: how a processor runs a process, and what comes back. The kernel runs with interrupts off, so it is entered
 * only from a process, or takes an interrupt as it rests. */
#ifndef TRAPS_H
#define TRAPS_H

#include "processors.h"

enum { VECTOR_PAGE_FAULT = 14, EXCEPTIONS = 32, VECTOR_CALL = 0x80 };
/* The bits of a page fault's code. */
enum { CODE_PRESENT = 1, CODE_WRITE = 2, CODE_USER = 4 };

/* A thread's registers between two runs. The processor pushes the last ones directly here, since its TSS names the end
 * of `ss`. entry.S has the same layout. */
struct registers {
    uint8_t vectors[512];
    uint64_t r15, r14, r13, r12, r11, r10, r9, r8, rbp, rdi, rsi, rdx, rcx, rbx, rax;
    uint64_t vector, code; /* of the last trap */
    uint64_t rip, cs, flags, rsp, ss;
    uint64_t kernel_stack; /* while the thread runs */
    uint64_t unused;
} __attribute__((aligned(16)));

/* Registers of a function that begins with a stack and an argument. All others are zero. */
void open_registers(struct registers *it, uint64_t function, uint64_t stack_top, uint64_t argument);

/* Runs a thread of the process whose tables are in CR3, until its next trap. `vector` and `code` have which it was. */
void run_thread(struct registers *it);

/* The address of this processor's last page fault. */
uint64_t fault_address(void);

#endif
