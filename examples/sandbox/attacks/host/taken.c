/* An engine that its tenant has taken over, if its argument says so: AB, then in bits 12 to 23 a number, in 8 to 11 a state, in
 * 0 to 7 an act. Before its first report in that state it does what no engine does. The linker puts this around functions of
 * the engine's. It may do anything that the host lets its process do. */
#define _GNU_SOURCE
#include <linux/futex.h>
#include <sys/mman.h>
#include <sys/syscall.h>
#include <time.h>
#include <unistd.h>

#include "../../channel.h"
#include "../../engine/processor.h"
#include "../../engine/serve.h"

enum act {
    NOTHING,
    SILENT,  /* never reports */
    BUSY,    /* likewise, and takes all of a processor */
    CRASH,   /* ends by a signal */
    LEAVE,   /* exits */
    GARBAGE, /* reports random bytes, without end */
    KIND,    /* one report of that kind */
    ACCESS,  /* an access of that kind */
    FLOOD,   /* reports of that kind without end; it takes no file */
    SLEEPY,  /* sleeps so many milliseconds before each report */
    CALL,    /* makes the host's call of that number */
    KEEP,    /* keeps each page that it gets, and reads them then */
    WRITE,   /* likewise, if it may write there, and writes */
    FLIP,    /* takes the channel back without an order */
    FORCE,   /* maps each page that it may not write, for writing, and says one more than how many it got */
    SHUT,    /* closes all descriptors */
    SCRIBBLE /* writes random bytes over all of the channel */
};
enum { STATE_BEGIN }; /* otherwise one more than the report's kind */

static uint32_t act, state, number, seed = 1;
static struct channel *channel;
static volatile uint32_t *kept[256];
static uint32_t kept_count, forced;

static uint8_t any(void) {
    seed = seed * 1664525 + 1013904223;
    return (uint8_t)(seed >> 24);
}

static void fill(volatile uint8_t *bytes, size_t count) {
    for (size_t i = 0; i < count; i++) {
        bytes[i] = any();
    }
}

static void sleep_for(long milliseconds) {
    static uint32_t word;
    const struct timespec time = {milliseconds / 1000, milliseconds % 1000 * 1000000};
    syscall(SYS_futex, &word, FUTEX_WAIT, 0, &time, NULL, 0);
}

/* The last word of a kept page that isn't 0. */
static uint32_t use_kept(void) {
    uint32_t found = 0;
    for (uint32_t i = 0; i < kept_count; i++) {
        for (uint32_t j = 0; j < PAGE_BYTES / 4; j++) {
            found = kept[i][j] ? kept[i][j] : found;
            if (act == WRITE) {
                kept[i][j] = 0x66666666;
            }
        }
    }
    return found;
}

void __real_channel_pass(struct channel *it, uint32_t to);
void __wrap_channel_pass(struct channel *it, uint32_t to);
bool __real_channel_await(struct channel *it, uint32_t holder, uint32_t *looks, const struct timespec *most);
bool __wrap_channel_await(struct channel *it, uint32_t holder, uint32_t *looks, const struct timespec *most);
void __real_processor_show(uint32_t page, int file, bool write);
void __wrap_processor_show(uint32_t page, int file, bool write);
void __real_processor_run(struct registers *from) __attribute__((noreturn));
void __wrap_processor_run(struct registers *from) __attribute__((noreturn));

static void report_for_ever(struct channel *it) {
    uint32_t looks = 0;
    for (uint32_t i = 0;; i++) {
        it->report = (struct report){.kind = number, .access = ACCESS_STORE, .address = 0x50000000 + i % 4000 * PAGE_BYTES};
        it->report.words.eax = TOWER_QUOTA;
        if (act == GARBAGE) {
            fill((volatile uint8_t *)&it->report, sizeof it->report);
            it->report.kind = any() % REPORT_END; /* so that most make sense at first sight */
            it->report.access = any() % ACCESSES;
            it->report.words.eax = any() % 24;
        }
        __real_channel_pass(it, HELD_BY_KERNEL);
        while (act != FLIP && !__real_channel_await(it, HELD_BY_ENGINE, &looks, NULL)) {
        }
    }
}

/* Those whose tenant's line says what came of them. */
static void attack_and_end(void) {
    uint32_t tried = act;
    if (tried == CALL) {
        syscall((long)number, 0, 0, 0, 0, 0, 0);
    } else if (tried != FORCE) {
        seed = use_kept();
    }
    act = NOTHING;
    if (tried == CALL) {
        serve_end("the host carried it out", 0);
    } else if (tried == FORCE) {
        serve_end("it tried, and got", forced + 1);
    }
    serve_end("it used what it kept", seed);
}

static void attack(struct channel *it) {
    uint32_t wrong = number == 0xfff ? UINT32_MAX : number;
    switch (act) {
    case SILENT:
        for (;;) {
            sleep_for(1000000);
        }
    case BUSY:
        for (;;) {
        }
    case CRASH:
        __builtin_trap();
    case LEAVE:
        syscall(SYS_exit_group, (int)number);
        break;
    case GARBAGE:
    case FLOOD:
    case FLIP:
        report_for_ever(it);
        break;
    case KIND:
        it->report.kind = wrong;
        break;
    case ACCESS:
        it->report = (struct report){.kind = REPORT_ACCESS, .access = wrong, .address = 0x50000000};
        break;
    case CALL:
    case KEEP:
    case WRITE:
    case FORCE:
        attack_and_end();
        break;
    case SHUT:
        for (int i = 0; i < 16; i++) {
            syscall(SYS_close, i);
        }
        break;
    case SCRIBBLE:
        fill((volatile uint8_t *)it, sizeof *it);
        break;
    default:
        break;
    }
}

void __wrap_channel_pass(struct channel *it, uint32_t to) {
    bool is_time = act != NOTHING && state == it->report.kind + 1;
    if (is_time && act == SLEEPY) {
        sleep_for(number);
    } else if (is_time) {
        attack(it);
        act = act == SCRIBBLE ? act : NOTHING;
    }
    __real_channel_pass(it, to);
}

void __wrap_processor_show(uint32_t page, int file, bool write) {
    if ((act == KEEP || (act == WRITE && write)) && kept_count < 256) {
        int rights = act == WRITE ? PROT_READ | PROT_WRITE : PROT_READ;
        void *at = mmap(NULL, PAGE_BYTES, rights, MAP_SHARED, file, 0);
        kept[kept_count] = at;
        kept_count += at != MAP_FAILED;
    }
    for (int rights = PROT_WRITE; act == FORCE && page == TOWER_FIRST_PAGE && rights <= (PROT_READ | PROT_WRITE); rights++) {
        forced += mmap(NULL, PAGE_BYTES, rights, MAP_SHARED, file, 0) != MAP_FAILED;
    }
    __real_processor_show(page, file, write);
}

void __wrap_processor_run(struct registers *from) {
    uint32_t argument = from->general[EBX];
    if (argument >> 24 == 0xab) {
        act = argument & 0xff;
        state = argument >> 8 & 0xf;
        number = argument >> 12 & 0xfff;
    }
    if (act != NOTHING && state == STATE_BEGIN) {
        attack(channel);
        __real_channel_pass(channel, HELD_BY_KERNEL);
    }
    __real_processor_run(from);
}

bool __wrap_channel_await(struct channel *it, uint32_t holder, uint32_t *looks, const struct timespec *most) {
    channel = it;
    return __real_channel_await(it, holder, looks, most);
}
