/* A tenant's processor: a confined process of its own that runs its code. This is the kernel's side of it. Nothing that
 * comes from there is believed but for its own tenant. */
#pragma once

#include <sys/types.h>

#include "channel.h"

/* A page of the tenant, and the frame on whose file the engine got it. */
struct given {
    uint32_t page, frame;
    bool write; /* it may write there now */
    bool is_in; /* it wasn't told since to take it out */
};

struct engine {
    pid_t process; /* 0: it isn't open */
    int socket;
    struct channel *channel;
    uint32_t looks;     /* for a report, before the kernel sleeps */
    bool is_waited_for; /* it has an order, and is stopped: no report came in time */
    bool was_slow;      /* the kernel slept until its last report */
    bool is_at_rest;    /* its registers are in the channel */
    uint32_t restless;  /* turns at whose end it wasn't, since it was last */
    struct order next;  /* what it gets next, with these pages to take out, and a page on that file */
    uint32_t outs[MOST_PAGES];
    int file;
    struct registers start;
    struct given given[MOST_PAGES];
    uint32_t given_count;
    uint64_t time, owed; /* processor time that it had used at the last look, and what wasn't asked for yet */
    uint64_t delay;      /* for which it had waited for a processor of the host's, at the last look */
};

/* Begins the engines' program. Once, before any engine. */
void engines_begin(void);
/* Ends it, after all engines. */
void engines_end(void);
/* Makes an engine with these registers, which the kernel of the host ends after that much processor time. False if the host
 * has no process for it. */
bool engine_open(struct engine *it, const struct registers *registers, uint64_t nanoseconds);
/* Ends its process, whatever it does, and waits until it is gone. Returns how it ended. */
int engine_close(struct engine *it);
static inline bool engine_is_open(const struct engine *it) {
    return it->process != 0;
}

/* Gives it the next order, if it has none yet, and waits for its report until so much of the clock. If none came, it is
 * stopped, and the report is REPORT_LATE. If it ended, or its report makes no sense, its process is gone: then why, otherwise
 * NULL. */
const char *engine_run(struct engine *it, uint64_t until, struct report *report);
/* Its registers, as they are once the next order's answer is in them. It is at rest. */
struct registers engine_registers(const struct engine *it);

/* The processor time that it used since this was asked last, as the host's kernel counts it. */
uint64_t engine_time(struct engine *it);
/* For how long it waited since this was asked last while it could have run. */
uint64_t engine_delay(struct engine *it);
/* A clock, in nanoseconds. */
uint64_t nanoseconds(clockid_t clock);
