#include "program.h"

#include <stdarg.h>

enum { LINE = 96 };

struct line {
    char letters[LINE];
    uint32_t length;
};

static void put(struct line *line, char letter) {
    if (line->length < LINE) {
        line->letters[line->length++] = letter;
    }
}

static void put_text(struct line *line, const char *text) {
    for (; *text; text++) {
        put(line, *text);
    }
}

static void put_number(struct line *line, uint32_t number, uint32_t base) {
    char digits[10];
    uint32_t count = 0;
    do {
        digits[count++] = "0123456789abcdef"[number % base];
        number /= base;
    } while (number);
    while (count) {
        put(line, digits[--count]);
    }
}

static void write(const struct line *line) {
    ask(CALL_WRITE, 0, (uint64_t)line->letters, line->length, 0);
}

void tell(const char *text, ...) {
    struct line line = {.length = 0};
    va_list numbers;
    va_start(numbers, text);
    for (; *text; text++) {
        if (*text == '#' || *text == '$') {
            put_number(&line, va_arg(numbers, uint32_t), *text == '#' ? 10 : 16);
        } else {
            put(&line, *text);
        }
    }
    va_end(numbers);
    write(&line);
}

void tell_reply(const char *text, struct answer reply) {
    struct line line = {.length = 0};
    put_text(&line, text);
    put_text(&line, tower_kind_name(reply.kind));
    if (reply.kind == TOWER_REFUSED) {
        put(&line, ' ');
        put_text(&line, tower_cause_name(reply.first));
    }
    write(&line);
}

uint32_t begin(uint32_t program, uint32_t quota, uint32_t number) {
    struct answer child = ask(TOWER_SPAWN, 0, quota, 0, 0);
    if (child.kind != TOWER_CHILD) {
        return 0;
    }
    return ask(CALL_START, 0, program, child.first, number).kind == TOWER_DONE ? child.first : 0;
}

uint32_t fork(uint32_t quota) {
    struct answer child = ask(TOWER_FORK, 0, quota, 0, 0);
    return child.kind == TOWER_CHILD ? child.first : NO_CHILD;
}

void leave(uint32_t status) {
    while (ask(TOWER_EXIT, 0, status, 0, 0).first == TOWER_HAS_CHILDREN) {
        wait();
    }
    for (;;) {
    }
}

void fail(const char *what) {
    struct line line = {.length = 0};
    put_text(&line, "FAILED: ");
    put_text(&line, what);
    write(&line);
    leave(1);
}

void need(bool holds, const char *what) {
    if (!holds) {
        fail(what);
    }
}

/* About ten seconds: another process may have no processor for a while, also of the host's. */
#define WAIT_BOUND 30000000000u

uint64_t moment(void) {
    uint32_t low, high;
    __asm__ volatile("rdtsc" : "=a"(low), "=d"(high) : : "memory");
    return low | (uint64_t)high << 32;
}

void insist(uint32_t call, uint32_t flag, uint32_t first, uint32_t second, uint32_t third) {
    uint64_t since = moment();
    while (ask(call, flag, first, second, third).kind != TOWER_DONE) {
        need(moment() - since < WAIT_BOUND, "a call succeeds in time");
        yield();
    }
}

void wait_for(volatile uint32_t *word, uint32_t number) {
    enum { LEAST = 1 << 8, MOST = 1 << 16 };
    static uint32_t most = MOST; /* more if it comes as this program polls; fewer if the other needs its processor */
    uint64_t since = moment();
    for (uint32_t turns = 0; moment() - since < WAIT_BOUND; turns++) {
        for (uint32_t polls = 0; polls < most; polls++) {
            if (*word == number) {
                most = turns == 0 && most < MOST ? most * 2 : most;
                return;
            }
        }
        most = most > LEAST ? most / 2 : most;
        yield();
    }
    fail("a number never came");
}

/* Where a program begins; the linker knows it by this name. */
__attribute__((used, noreturn)) void first(uint32_t number) {
    leave(program(number));
}
