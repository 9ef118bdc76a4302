#include <stdarg.h>
#include <stdatomic.h>

#include "machine.h"

void out8(uint16_t port, uint8_t value) {
    __asm__ volatile("outb %0, %1" : : "a"(value), "Nd"(port));
}

uint8_t in8(uint16_t port) {
    uint8_t value;
    __asm__ volatile("inb %1, %0" : "=a"(value) : "Nd"(port));
    return value;
}

void out16(uint16_t port, uint16_t value) {
    __asm__ volatile("outw %0, %1" : : "a"(value), "Nd"(port));
}

uint64_t read_msr(uint32_t msr) {
    uint32_t low, high;
    __asm__ volatile("rdmsr" : "=a"(low), "=d"(high) : "c"(msr));
    return low | (uint64_t)high << 32;
}

void write_msr(uint32_t msr, uint64_t value) {
    __asm__ volatile("wrmsr" : : "c"(msr), "a"((uint32_t)value), "d"((uint32_t)(value >> 32)) : "memory");
}

static void put(char byte) {
    while (!(in8(0x3f8 + 5) & 0x20)) {
    }
    out8(0x3f8, (uint8_t)byte);
}

void put_raw(uint8_t byte) {
    out8(0xe9, byte);
}

static void put_number(uint32_t value, uint32_t base, int least) {
    char digits[10];
    int count = 0;
    do {
        digits[count++] = "0123456789abcdef"[value % base];
        value /= base;
    } while (value || count < least);
    while (count) {
        put(digits[--count]);
    }
}

void say(const char *text, ...) {
    va_list list;
    va_start(list, text);
    for (; *text; text++) {
        if (*text != '%') {
            put(*text);
            continue;
        }
        switch (*++text) {
        case 'u': put_number(va_arg(list, uint32_t), 10, 1); break;
        case 'x': put_number(va_arg(list, uint32_t), 16, 8); break;
        case 'c': put((char)va_arg(list, int)); break;
        default:
            for (const char *more = va_arg(list, const char *); *more; more++) {
                put(*more);
            }
        }
    }
    va_end(list);
}

/* QEMU's status is twice the number plus one: 33 if all is well. */
_Noreturn void leave(uint8_t status) {
    out8(0xf4, status ? status : 16);
    for (;;) {
        __asm__ volatile("cli; hlt");
    }
}

_Noreturn void fail(const char *what) {
    static atomic_flag is_failing = ATOMIC_FLAG_INIT;
    if (!atomic_flag_test_and_set(&is_failing)) {
        say("FAILED: %s\n", what);
        leave(1);
    }
    for (;;) {
        __asm__ volatile("cli; hlt");
    }
}

void need(bool holds, const char *what) {
    if (!holds) {
        fail(what);
    }
}

/* The library's memory: a block for each core, which c/region.c gives it. Only one processor boots and frees cores. */
enum { MOST_CORES = 3 };
static _Alignas(FRAME) uint8_t blocks[MOST_CORES][TOWER_BLOCK_BYTES(FRAMES)];

void boot(struct tower *tower) {
    uint32_t free_block = 0;
    while (free_block < MOST_CORES && tower_holds(blocks[free_block])) {
        free_block++;
    }
    need(free_block < MOST_CORES, "a block is free");
    uint32_t status = tower_boot_over(FRAMES, tower, blocks[free_block], sizeof blocks[free_block]);
    if (status != TOWER_BOOTED) {
        say("FAILED: a core of %u frames boots: status %u, %s\n", FRAMES, status, tower_status_name(status));
        leave(1);
    }
}

uint8_t *memory_of(struct tower *tower) {
    struct tower_memory memory;
    need(tower_memory(tower, &memory), "a core has a memory");
    need(((uintptr_t)memory.begins & (FRAME - 1)) == 0, "a core's memory begins at a page");
    need(memory.length == (size_t)tower_frames(tower) * FRAME, "a core's memory has its frames");
    return memory.begins;
}

/* What the library imports of a C library. */

void *memset(void *to, int byte, size_t count) {
    void *at = to;
    __asm__ volatile("rep stosb" : "+D"(at), "+c"(count) : "a"(byte) : "memory");
    return to;
}

void *memmove(void *to, const void *from, size_t count) {
    uint8_t *out = to;
    const uint8_t *in = from;
    if (out <= in || in + count <= out) {
        __asm__ volatile("rep movsb" : "+D"(out), "+S"(in), "+c"(count) : : "memory");
    } else {
        while (count--) {
            out[count] = in[count];
        }
    }
    return to;
}

void *memcpy(void *to, const void *from, size_t count) {
    return memmove(to, from, count);
}
