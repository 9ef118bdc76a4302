/* A program's side: 64-bit code in ring 3, with no memory except its process's pages. */
#ifndef PROGRAM_H
#define PROGRAM_H

#include "../calls.h"
#include "tower.h"

/* The program. Its parent chose the number. What it returns is its status: 0 if all was as it should be. */
uint32_t program(uint32_t number);

struct answer {
    uint32_t kind, first, second, third, bools;
};
enum { WRITE = 1, MAY = 2, ACCESSED = 4, DIRTY = 8 }; /* in `bools`, of an Info */

static inline struct answer ask(uint64_t call, uint64_t flag, uint64_t first, uint64_t second, uint64_t third) {
    register uint64_t last __asm__("r10") = third;
    uint64_t kind = call, bools = flag;
    __asm__ volatile("int $0x80" : "+a"(kind), "+D"(bools), "+S"(first), "+d"(second), "+r"(last) : : "memory");
    return (struct answer){(uint32_t)kind, (uint32_t)first, (uint32_t)second, (uint32_t)last, (uint32_t)bools};
}

/* Writes a line: the text, with the next number in place of each # in decimal, and of each $ in hexadecimal. */
void tell(const char *text, ...);
/* Writes a line: the text, and the reply by its names. */
void tell_reply(const char *text, struct answer reply);

/* Begins a program in a new child with that quota. Returns the child, or 0 if it could not be. */
uint32_t begin(uint32_t program, uint32_t quota, uint32_t number);
/* Continues in a new child, too, with that quota. The parent gets its number, the child 0. */
#define NO_CHILD 0xffffffffu
uint32_t fork(uint32_t quota);
/* Exits, once it has no child that runs. */
_Noreturn void leave(uint32_t status);
/* Ends the program with a line, and status 1. */
_Noreturn void fail(const char *what);
void need(bool holds, const char *what);

static inline uint32_t self(void) {
    return ask(CALL_SELF, 0, 0, 0, 0).first;
}

static inline uint32_t parent(void) {
    return ask(CALL_SELF, 0, 0, 0, 0).second;
}

static inline void yield(void) {
    ask(CALL_YIELD, 0, 0, 0, 0);
}

static inline struct answer wait(void) {
    return ask(CALL_WAIT, 0, 0, 0, 0);
}

/* The word at an address, and the first one of a page. */
static inline volatile uint32_t *at(uint64_t address) {
    return (volatile uint32_t *)address;
}

static inline volatile uint32_t *words(uint32_t page) {
    return at((uint64_t)page << 12);
}

/* The processor's ticks since it began. */
uint64_t moment(void);

/* Makes a call that succeeds once others have done their part. */
void insist(uint32_t call, uint32_t flag, uint32_t first, uint32_t second, uint32_t third);
/* Polls a word until it has that number; lets others run after some polls. Fails if it waits in vain. */
void wait_for(volatile uint32_t *word, uint32_t number);

#endif
