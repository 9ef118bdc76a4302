/* Runs random programs, each in a child: as many as the last 12 bits of the argument say, by the seed in the others. They are
 * random bytes, instructions with random operands, random calls, or this program's own code with changed bits. */
#include "tenant.h"

enum { CODE_BYTES = 2 * 4096, TURNS = 3 };
static uint8_t code[CODE_BYTES] __attribute__((aligned(4096))), data[2 * 4096] __attribute__((aligned(4096)));
static uint32_t seed, at;

static uint32_t any(void) {
    seed = seed * 1664525 + 1013904223;
    return seed >> 8 ^ seed << 13;
}

static void put(uint32_t bytes, uint32_t count) {
    for (; count && at < CODE_BYTES - 16; count--, bytes >>= 8) {
        code[at++] = (uint8_t)bytes;
    }
}

/* An operand in memory, mostly in the data: by ESI or EDI with a displacement; otherwise any. */
static void put_operand(void) {
    uint32_t operand = any() % 8 << 3, kind = any() % 8;
    if (kind < 3) {
        put(0x80 | operand | (6 + any() % 2), 1);
        put(any() % 0x2000, 4);
    } else if (kind < 6) {
        put(0xc0 | operand | any() % 8, 1);
    } else {
        put(any(), 1 + any() % 6);
    }
}

static void put_instruction(void) {
    static const uint8_t prefixes[] = {0x66, 0xf2, 0xf3, 0xf0, 0x64, 0x67};
    static const uint8_t singles[] = {0xa4, 0xa5, 0xaa, 0xab, 0xa6, 0xae, 0x60, 0x61, 0x9c, 0x9d, 0xc8, 0xc9, 0x90, 0x99,
                                      0xf8, 0xfc, 0xfd, 0xd7, 0x27, 0x2f, 0x37, 0x3f, 0x50, 0x58, 0x5c, 0xcf, 0xc3, 0xce};
    if (any() % 3 == 0) {
        put(prefixes[any() % sizeof prefixes], 1);
    }
    switch (any() % 8) {
    case 0: case 1: put(any() % 0x40 & ~6u, 1); put_operand(); break;     /* arithmetic */
    case 2: put(0x0f | (any() & 0xff) << 8, 2); put_operand(); break;    /* two bytes of operation, SSE among them */
    case 3: put(0xd8 | any() % 8, 1); put_operand(); break;              /* x87 */
    case 4: put(singles[any() % sizeof singles], 1); break;
    case 5: put(0x70 | any() % 16 | (any() % 32 - 8) << 8, 2); break;    /* a short jump */
    case 6: put(0x88 | any() % 4, 1); put_operand(); break;              /* a move */
    default: put(0xb8 | any() % 8, 1); put(any() % 4 ? any() % 64 : any(), 4); break;
    }
    if (any() % 64 == 0) {
        put(0x80cd, 2); /* a call with what EAX is */
    }
}

static void run_code(uint32_t from) {
    __asm__ volatile("movl %%ecx, %%ebx; call *%0"
                     :
                     : "a"(code + from), "S"(data), "D"(data), "c"(any() % 100)
                     : "memory", "edx", "ebx");
}

static void calls(void) {
    for (uint32_t i = 0; i < 200; i++) {
        uint32_t call = any() % 24, first = any() % 4 ? 0x40000 + any() % 64 : any();
        if (call != CALL_WRITE && (call != TOWER_EXIT || any() % 8 == 0)) {
            ask(call, any() % 5, any() % 2 ? first : first << 12, any() % 64, any() % 4 ? 0x40000 + any() % 64 : any());
        }
    }
}

static void random_program(void) {
    uint32_t kind = any() % 4;
    if (kind == 2) {
        calls();
        return;
    }
    for (uint32_t i = 0; i < CODE_BYTES; i++) {
        code[i] = kind == 3 ? ((volatile uint8_t *)0x40000000)[i % 4096] : kind == 0 ? (uint8_t)any() : 0x90;
    }
    for (uint32_t i = 0; kind == 1 && i < 200; i++) {
        put_instruction();
    }
    for (uint32_t i = any() % 64; kind == 3 && i > 0; i--) {
        code[any() % 4096] ^= (uint8_t)(1 << any() % 8);
    }
    run_code(kind == 1 ? 0 : any() % 4096);
}

void tenant(uint32_t self, uint32_t argument) {
    (void)self;
    for (uint32_t i = 0; i < argument % 4096; i++) {
        uint32_t child = fork(24), turns = 0;
        seed = argument / 4096 * 7919 + i;
        any();
        if (child == 0) {
            random_program();
            tell("and continues", 0);
            leave();
        }
        while (quota().third) {
            if (turns++ == TURNS) {
                end(child);
            }
            yield();
        }
    }
    tell("random: # programs", argument % 4096);
}
