/* The core with no C library: this file has the four symbols that the library imports, over a pool of
 * its own, and a start of its own for Linux on x86-64. It ends with status 0 if all goes as expected,
 * otherwise with the number of the first step that does not. */
#include "tower.h"
#include "tower_heap.h"

enum { PAGE = TOWER_FIRST_PAGE, ADDRESS = PAGE << 12 };

static _Alignas(16) uint8_t pool[1 << 20];
static size_t used, blocks;
static uint8_t nothing;

/* The pool's blocks lie in sequence. Once all are freed, the pool is empty again. */
struct rattle_tried rattle_alloc(size_t size, size_t align) {
    size_t at = (used + align - 1) & ~(align - 1);
    if (at > sizeof pool || size > sizeof pool - at) {
        return (struct rattle_tried){false, &nothing};
    }
    used = at + size;
    blocks++;
    return (struct rattle_tried){true, pool + at};
}

void rattle_dealloc(void *block) {
    (void)block;
    if (--blocks == 0) {
        used = 0;
    }
}

void *memset(void *to, int byte, size_t count) {
    uint8_t *bytes = to;
    while (count--) {
        *bytes++ = (uint8_t)byte;
    }
    return to;
}

void *memmove(void *to, const void *from, size_t count) {
    uint8_t *out = to;
    const uint8_t *in = from;
    if (out < in) {
        while (count--) {
            *out++ = *in++;
        }
    } else {
        while (count--) {
            out[count] = in[count];
        }
    }
    return to;
}

static void leave(long status) {
    __asm__ volatile("syscall" : : "a"(60), "D"(status) : "rcx", "r11", "memory");
    __builtin_unreachable();
}

static bool answers(struct tower *tower, struct tower_event event, uint32_t kind, uint32_t first) {
    struct tower_reply reply = {0};
    return tower_do(tower, event, &reply) == TOWER_OUTCOME_DONE && reply.kind == kind && reply.first == first;
}

static long tried_out(void) {
    static struct tower tower, big;
    if (tower_boot(64, &tower) != TOWER_BOOTED) return 1;
    if (!answers(&tower, tower_map(0, PAGE, TOWER_READ_WRITE), TOWER_DONE, 0)) return 2;
    if (!answers(&tower, tower_store(0, ADDRESS, 4, 77), TOWER_DONE, 0)) return 3;
    if (!answers(&tower, tower_load(0, ADDRESS, 4), TOWER_VALUE, 77)) return 4;
    if (tower_boot(4096, &big) != TOWER_NO_MEMORY || big.live) return 5;
    tower_free(&tower);
    if (blocks != 0) return 6;
    if (tower_boot(128, &tower) != TOWER_BOOTED) return 7;
    tower_free(&tower);
    return 0;
}

__attribute__((used)) static void begin(void) {
    leave(tried_out());
}

__asm__(".globl _start\n_start:\n    xor %ebp, %ebp\n    and $-16, %rsp\n    call begin\n");
