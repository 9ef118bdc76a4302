/* What a tenant's program is written with: 32-bit code in user mode, whose memory is its process's pages. start.c has
 * what isn't inline here. A program has one function, `tenant`, and ends when that returns. */
#ifndef TENANT_H
#define TENANT_H

#include <stdbool.h>
#include <stddef.h>
#include <stdint.h>

#include "../calls.h"
#include "tower.h"

/* The program. `self` is its process, `argument` what follows the colon on the command line, or 0. */
void tenant(uint32_t self, uint32_t argument);

/* Writes a line: the text, with the number in place of each # in decimal, and of each $ in hexadecimal. */
void tell(const char *text, uint32_t number);

/* ---- Calls. The reply is that of docs/MACHINE.md: kind TOWER_REFUSED has its cause in `first`. */
struct answer {
    uint32_t kind, bools, first, second, third;
};
enum { WRITE = 1, MAY = 2, ACCESSED = 4, DIRTY = 8 }; /* in `bools`, of an Info */

static inline struct answer ask(uint32_t call, uint32_t flag, uint32_t first, uint32_t second, uint32_t third) {
    struct answer it;
    __asm__ volatile("movl $1f, %%edi; ljmp $0x33, %10; 1:"
                     : "=a"(it.kind), "=b"(it.bools), "=c"(it.first), "=d"(it.second), "=S"(it.third)
                     : "a"(call), "b"(flag), "c"(first), "d"(second), "S"(third), "i"(GATE)
                     : "memory", "edi", "cc");
    return it;
}

static inline uint32_t page_of(const volatile void *at) {
    return (uint32_t)(uintptr_t)at >> 12;
}

static inline struct answer map(uint32_t page, bool write) {
    return ask(TOWER_MAP, write, page, 0, 0);
}

static inline struct answer unmap(uint32_t page) {
    return ask(TOWER_UNMAP, 0, page, 0, 0);
}

static inline struct answer protect(uint32_t page, bool write) {
    return ask(TOWER_PROTECT, write, page, 0, 0);
}

static inline struct answer info(uint32_t page) {
    return ask(TOWER_INFO, 0, page, 0, 0);
}

static inline struct answer offer(uint32_t page, uint32_t target, bool write) {
    return ask(TOWER_OFFER, write, page, target, 0);
}

static inline struct answer withdraw(uint32_t page, uint32_t target) {
    return ask(TOWER_WITHDRAW, 0, page, target, 0);
}

/* Maps the giver's page at the caller's page. */
static inline struct answer accept(uint32_t giver, uint32_t giver_page, uint32_t page) {
    return ask(TOWER_ACCEPT, 0, giver_page, giver, page);
}

/* The first offer to the caller from that giver and page on: kind TOWER_CHILD, giver in `first`, its page in `second`,
 * whether it may be written in `third`. */
static inline struct answer offered(uint32_t giver, uint32_t page) {
    return ask(CALL_OFFERED, 0, giver, page, 0);
}

static inline struct answer quota(void) {
    return ask(TOWER_QUOTA, 0, 0, 0, 0);
}

/* A child that runs on from here, with that quota. The parent gets its number, the child 0; at a refusal it is NO_CHILD. */
enum { NO_CHILD = 0xffffffff };
static inline uint32_t fork(uint32_t quota) {
    struct answer it = ask(TOWER_FORK, 0, quota, 0, 0);
    return it.kind == TOWER_CHILD ? it.first : it.kind == TOWER_DONE ? 0 : (uint32_t)NO_CHILD;
}

static inline void yield(void) {
    ask(CALL_YIELD, 0, 0, 0, 0);
}

/* Ends a child, with all that descend from it. */
static inline struct answer end(uint32_t child) {
    return ask(CALL_END, 0, child, 0, 0);
}

/* Takes a page back from all others, each of which has to descend from the caller. */
static inline struct answer take_back(uint32_t page) {
    return ask(CALL_TAKE_BACK, 0, page, 0, 0);
}

/* Exits, once it has no child that runs. */
void leave(void) __attribute__((noreturn));

/* Writes a line: the text, and the reply by its names, such as "Refused Quota" or "Child". */
void tell_reply(const char *text, struct answer reply);

#endif
