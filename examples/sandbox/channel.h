/* What the kernel's process and an engine's have in common: memory, which they hold in turn, and a socket for descriptors.
 * The kernel gives an order, and the engine a report. */
#pragma once

#include <stdatomic.h>
#include <stdbool.h>
#include <stdint.h>
#include <time.h>

#include "calls.h"
#include "tower.h"

enum { PAGE_BYTES = 4096 };
enum { SOCKET = 3 }; /* the descriptor of the engine's end */
/* All that a tenant can change of a processor. */
enum { MOST_EXTENDED = 4096 };
/* Of a program that makes Linux's calls: where its heap begins and ends, where the next mapping is, and its thread's base of
 * GS; all 0 for any other. */
struct linux_state {
    uint32_t heap, heap_end, maps, thread;
};
enum { LINUX_SELECTOR = 0x323 }; /* of GS: no segment has it, so loading it is an exception */
struct registers {
    uint32_t general[8]; /* EAX, ECX, EDX, EBX, ESP, EBP, ESI, EDI */
    uint32_t eip, eflags;
    struct linux_state of_linux;
    uint16_t segments[4];    /* DS, ES, FS, GS: 0 if the tenant loaded the null segment */
    uint32_t extended_bytes; /* those of the x87, SSE and AVX, as XSAVE writes them; none: as a program begins */
    uint8_t extended[MOST_EXTENDED];
};
enum { EAX, ECX, EDX, EBX, ESP, EBP, ESI, EDI };

/* EAX, EBX, ECX, EDX and ESI: what a call passes. */
struct words {
    uint32_t eax, ebx, ecx, edx, esi;
};

enum access { ACCESS_LOAD, ACCESS_STORE, ACCESS_FETCH, ACCESSES };

enum order_kind {
    ORDER_BEGIN,  /* takes the channel's registers, and runs */
    ORDER_RUN,    /* runs on */
    ORDER_ANSWER, /* to a call: these words, and runs on */
};

enum { MOST_PAGES = 4096 };
struct order {
    uint32_t kind;
    struct words words;
    uint64_t steps;     /* calls and page faults that are left of the turn; UNCOUNTED: it ends by time */
    uint32_t out_count; /* of the channel's pages that are taken out */
    uint32_t page;      /* that is put in, on the file that comes through the socket */
    uint8_t has_page, write, begins_turn;
};
#define UNCOUNTED UINT64_MAX

enum report_kind {
    REPORT_CALL,   /* the tenant makes a call with these words */
    REPORT_ACCESS, /* it makes an access of a page that the engine lacks, or may not write */
    REPORT_OVER,   /* its turn is over */
    REPORT_END,    /* it did what no tenant may, as `what` says */
    REPORTS,
    REPORT_LATE, /* the kernel's own: none has come yet */
};

struct report {
    uint32_t kind;
    struct words words;
    uint32_t access, address;
};

/* With these reports the channel has the registers. */
static inline bool has_registers(const struct report *it) {
    return it->kind == REPORT_OVER || (it->kind == REPORT_CALL && (it->words.eax == TOWER_FORK || it->words.eax == CALL_YIELD));
}

/* Who holds it; WAITED too once the other sleeps until it gets it. */
enum { HELD_BY_KERNEL = 0, HELD_BY_ENGINE = 1, WAITED = 2 };
enum { MOST_WHAT = 64 };
struct channel {
    _Alignas(64) _Atomic uint32_t holder; /* in one line of the cache with what most exchanges have */
    union {
        struct order order;
        struct report report;
    };
    _Alignas(64) uint32_t outs[MOST_PAGES];
    struct registers registers;
    char what[MOST_WHAT];
};
_Static_assert(sizeof(struct order) <= 56 && sizeof(struct report) <= 56, "a call and its answer are in one line");

void channel_pass(struct channel *it, uint32_t to);
/* Looks `looks` times, and then sleeps. Returns whether that one holds it: otherwise the time is over, or a signal came. */
bool channel_await(struct channel *it, uint32_t holder, uint32_t *looks, const struct timespec *most);

/* A descriptor through a socket; false or -1 if it is full or closed. */
bool file_send(int socket, int file);
int file_take(int socket);
