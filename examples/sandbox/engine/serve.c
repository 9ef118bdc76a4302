#include "serve.h"

#include <stdio.h>
#include <sys/mman.h>
#include <sys/time.h>
#include <unistd.h>

#include "../need.h"
#include "confine.h"
#include "processor.h"

static struct channel *channel;
static struct order order;
static uint32_t looks; /* for an order, before the process sleeps */

/* ---- Orders and reports */

static void await_order(void) {
    while (!channel_await(channel, HELD_BY_ENGINE, &looks, NULL)) {
    }
    order = channel->order;
    for (uint32_t i = 0; i < order.out_count; i++) {
        processor_hide(channel->outs[i]);
    }
    if (order.has_page) {
        int file = file_take(SOCKET);
        processor_show(order.page, file, order.write);
        close(file);
    }
}

static void exchange(struct report report) {
    if (has_registers(&report)) {
        processor_registers(&channel->registers);
    }
    channel->report = report;
    channel_pass(channel, HELD_BY_KERNEL);
    await_order();
}

struct words serve_call(struct words words) {
    exchange((struct report){.kind = REPORT_CALL, .words = words});
    return order.words;
}

void serve_access(enum access kind, uint32_t address) {
    exchange((struct report){.kind = REPORT_ACCESS, .access = kind, .address = address});
}

void serve_over(void) {
    exchange((struct report){.kind = REPORT_OVER});
}

void serve_end(const char *what, uint32_t eip) {
    snprintf(channel->what, sizeof channel->what, eip ? "%s at %08x" : "%s", what, eip);
    exchange((struct report){.kind = REPORT_END});
    _exit(0);
}

bool serve_is_over(void) {
    return order.steps == 0;
}

/* ---- Begin */

/* A turn by time is over after 10 milliseconds of the processor. */
void serve(void) {
    const struct itimerval each = {{0, 10000}, {0, 10000}};
    int file = file_take(SOCKET);
    channel = mmap(NULL, sizeof *channel, PROT_READ | PROT_WRITE, MAP_SHARED, file, 0);
    need(channel != MAP_FAILED && close(file) == 0, "there is a channel");
    processor_prepare();
    need(setitimer(ITIMER_PROF, &each, NULL) == 0, "a timer");
    confine();
    await_order();
    static struct registers start;
    start = channel->registers;
    processor_run(&start);
}
