/* A library to preload: it refuses the allocation of the number in REFUSE, counted from 1, and counts them in the first
 * eight bytes of the file in COUNTED, which is mapped. checks/programs/fail_alloc builds it. */
#define _GNU_SOURCE
#include <dlfcn.h>
#include <fcntl.h>
#include <stdatomic.h>
#include <stdlib.h>
#include <sys/mman.h>
#include <unistd.h>

static _Atomic long before;
static _Atomic long *made = &before;
static long refused;

__attribute__((constructor)) static void begin(void) {
    const char *number = getenv("REFUSE"), *file = getenv("COUNTED");
    int opened = file ? open(file, O_RDWR) : -1;
    void *counted = mmap(NULL, sizeof *made, PROT_READ | PROT_WRITE, MAP_SHARED, opened, 0);
    if (counted == MAP_FAILED) {
        _exit(99);
    }
    close(opened);
    refused = number ? atol(number) : 0;
    made = counted;
}

/* Whether this is the allocation to refuse. Those before `begin` are the loader's. */
static int is_refused(void) {
    return ++*made == refused && made != &before;
}

void *malloc(size_t size) {
    static void *(*next)(size_t);
    if (!next) {
        next = (void *(*)(size_t))dlsym(RTLD_NEXT, "malloc");
    }
    return is_refused() ? NULL : next(size);
}

void *realloc(void *block, size_t size) {
    static void *(*next)(void *, size_t);
    if (!next) {
        next = (void *(*)(void *, size_t))dlsym(RTLD_NEXT, "realloc");
    }
    return is_refused() ? NULL : next(block, size);
}
