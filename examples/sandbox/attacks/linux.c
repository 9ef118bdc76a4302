/* A program for Linux on i386, without a library: it makes those of Linux's calls that the engine knows. */
#include <stdbool.h>
#include <stdint.h>

__asm__(".globl _start\n"
        "_start:\n"
        "    pushl %esp\n"
        "    call begin\n");
void begin(const uint32_t *stack) __attribute__((noreturn));

enum {
    EXIT = 1,
    WRITE = 4,
    GETPID = 20,
    BRK = 45,
    IOCTL = 54,
    MUNMAP = 91,
    MPROTECT = 125,
    MMAP2 = 192,
    SET_THREAD_AREA = 243,
};
enum { PAGE_SIZE_KEY = 6, EBADF = 9, ENOMEM = 12, ENOTTY = 25, ENOSYS = 38 };
enum { READ = 1, READ_WRITE = 3, ANYWHERE = 0x22, FIXED = 0x32 };

static uint32_t call(uint32_t number, uint32_t first, uint32_t second, uint32_t third, uint32_t fourth, uint32_t fifth) {
    uint32_t result;
    __asm__ volatile("int $0x80"
                     : "=a"(result)
                     : "a"(number), "b"(first), "c"(second), "d"(third), "S"(fourth), "D"(fifth)
                     : "memory");
    return result;
}

static void say(const char *text) {
    uint32_t count = 0;
    while (text[count]) {
        count++;
    }
    call(WRITE, 1, (uint32_t)(uintptr_t)text, count, 0, 0);
}

static void must(bool holds, const char *what) {
    if (!holds) {
        say("this does not hold: ");
        say(what);
        say("\n");
    }
}

static uint32_t known(const uint32_t *pairs, uint32_t key) {
    while (pairs[0] && pairs[0] != key) {
        pairs += 2;
    }
    return pairs[1];
}

static uint32_t map(uint32_t bytes) {
    return call(MMAP2, 0, bytes, READ_WRITE, ANYWHERE, UINT32_MAX);
}

static uint32_t thread_word(void) {
    uint32_t word;
    __asm__ volatile("movl %%gs:4, %0" : "=r"(word));
    return word;
}

void begin(const uint32_t *stack) {
    static uint32_t thread[2] = {0, 0x7654321};
    uint32_t area[] = {UINT32_MAX, (uint32_t)(uintptr_t)thread, 0xfffff, 0x51}, heap = call(BRK, 0, 0, 0, 0, 0);
    say(((const char *const *)stack)[2]);
    say(", an argument\n");
    must(stack[0] == 2 && stack[3] == 0 && stack[4] == 0, "two words, and no environment");
    must(known(stack + 5, PAGE_SIZE_KEY) == 4096, "the size of a page");
    must(call(BRK, heap + 8192, 0, 0, 0, 0) == heap + 8192, "the heap grows");
    *(volatile uint32_t *)(heap + 8188) = 1;
    call(BRK, heap + 1, 0, 0, 0, 0);
    call(BRK, heap + 8192, 0, 0, 0, 0);
    must(*(volatile uint32_t *)(heap + 8188) == 0, "what the heap gets again is zeros");
    *(volatile uint32_t *)(heap + 8188) = 1;
    volatile uint32_t *mapped = (volatile uint32_t *)map(3 * 4096), *next = (volatile uint32_t *)map(1);
    must(next == mapped + 3 * 1024 && mapped[2048] == 0, "mappings are zeros, one after the other");
    mapped[2048] = 5;
    call(MUNMAP, (uint32_t)(uintptr_t)mapped, 3 * 4096, 0, 0, 0);
    must(mapped[2048] == 0, "what comes again is zeros");
    must(call(MMAP2, heap, 4096, READ_WRITE, FIXED, UINT32_MAX) == (uint32_t)-ENOMEM, "no mapping at an address");
    must(call(SET_THREAD_AREA, (uint32_t)(uintptr_t)area, 0, 0, 0, 0) == 0, "a thread has an area");
    __asm__ volatile("movw %w0, %%gs" : : "r"(area[0] << 3 | 3));
    must(thread_word() == thread[1], "GS leads there");
    must(call(WRITE, 7, heap, 1, 0, 0) == (uint32_t)-EBADF, "a file that isn't open");
    must(call(IOCTL, 1, 0, 0, 0, 0) == (uint32_t)-ENOTTY, "no terminal");
    must(call(GETPID, 0, 0, 0, 0, 0) == (uint32_t)-ENOSYS, "a call that isn't there");
    must(thread_word() == thread[1], "GS still leads there");
    call(MPROTECT, heap + 4096, 4096, READ, 0, 0);
    say("and a store to what is read only:\n");
    *(volatile uint32_t *)(heap + 8188) = 2;
    call(EXIT, 0, 0, 0, 0, 0);
    __builtin_unreachable();
}
