/* A program's start, its end, and its lines. */
#include "tenant.h"

__asm__(".globl _start\n"
        "_start:\n"
        "    xorl %ebp, %ebp\n"
        "    pushl %ebx\n"
        "    pushl %eax\n"
        "    call tenant\n"
        "    call leave\n");

void leave(void) {
    for (;;) {
        ask(TOWER_EXIT, 0, 0, 0, 0);
        yield();
    }
}

static char *put_number(char *to, uint32_t number, uint32_t base) {
    uint32_t unit = 1;
    while (number / unit >= base) {
        unit *= base;
    }
    for (; unit; unit /= base) {
        *to++ = "0123456789abcdef"[number / unit % base];
    }
    return to;
}

void tell(const char *text, uint32_t number) {
    char line[200], *to = line;
    for (; *text && to < line + 180; text++) {
        if (*text == '#' || *text == '$') {
            to = put_number(to, number, *text == '#' ? 10 : 16);
        } else {
            *to++ = *text;
        }
    }
    *to++ = '\n';
    ask(CALL_WRITE, 0, (uint32_t)(uintptr_t)line, (uint32_t)(to - line), 0);
}

static char *put_text(char *to, const char *text) {
    while (*text) {
        *to++ = *text++;
    }
    return to;
}

void tell_reply(const char *text, struct answer reply) {
    char line[200], *to = line;
    for (; *text && to < line + 140; text++) {
        *to++ = *text;
    }
    to = put_text(to, tower_kind_name(reply.kind));
    if (reply.kind == TOWER_REFUSED) {
        *to++ = ' ';
        to = put_text(to, tower_cause_name(reply.first));
    } else if (reply.kind == TOWER_USAGE) {
        *to++ = ' ';
        to = put_number(to, reply.first, 10);
        *to++ = ' ';
        to = put_number(to, reply.second, 10);
        *to++ = ' ';
        to = put_number(to, reply.third, 10);
    } else if (reply.kind == TOWER_FLAGS) {
        *to++ = ' ';
        for (uint32_t bit = 0; bit < 4; bit++) {
            *to++ = reply.bools >> bit & 1 ? "wmad"[bit] : '-';
        }
        *to++ = ' ';
        to = put_number(to, reply.first, 10);
    }
    *to++ = '\n';
    ask(CALL_WRITE, 0, (uint32_t)(uintptr_t)line, (uint32_t)(to - line), 0);
}

/* The compiler calls these. */
void *memset(void *to, int byte, size_t count) {
    for (uint8_t *at = to; count; count--) {
        *at++ = (uint8_t)byte;
    }
    return to;
}

void *memcpy(void *to, const void *from, size_t count) {
    uint8_t *at = to;
    for (const uint8_t *source = from; count; count--) {
        *at++ = *source++;
    }
    return to;
}
