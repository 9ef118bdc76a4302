/* Makes an instruction that needs as many shadow tables as one can: PUSH of a word in memory, with its code, its
 * operand and its stack each across the end of a region of 2 MiB, in all GiBs of the user range. It completes only if
 * all six pages have entries. */
#include "program.h"

enum { TIMES = 20 };
static const uint64_t code = 0x80000000 - 1, operand = 0xc0000000 - 4, stack = 0x60000000 + 4;

/* PUSH [RSI], and a jump back to where RBX says. */
static void put_code(void) {
    static const uint8_t bytes[] = {0xff, 0x36, 0xff, 0xe3};
    for (uint32_t i = 0; i < sizeof bytes; i++) {
        ((volatile uint8_t *)code)[i] = bytes[i];
    }
}

static void push_from_there(void) {
    __asm__ volatile("lea 1f(%%rip), %%rbx; mov %%rsp, %%r12; mov %2, %%rsp; jmp *%0; 1: mov %%r12, %%rsp"
                     : : "r"(code), "S"(operand), "r"(stack) : "rbx", "r12", "memory");
}

uint32_t program(uint32_t number) {
    put_code();
    for (uint32_t i = 0; i < TIMES; i++) {
        uint64_t word = (uint64_t)number << 32 | i;
        *(volatile uint64_t *)operand = word;
        push_from_there();
        need(*(volatile uint64_t *)(stack - 8) == word, "a word is pushed");
        yield();
    }
    tell("a wide instruction completed # times", TIMES);
    return 0;
}
