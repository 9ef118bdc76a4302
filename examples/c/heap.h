/* A heap over malloc that counts what it is asked for, and can refuse one request. It is the library's own heap if
 * HEAP_OF_LIBRARY is defined before; otherwise `counting_heap` is one for tower_set_other_heap. */
#ifndef HEAP_H
#define HEAP_H

#include <stdlib.h>

#include "tower_region.h"

/* The blocks that are allocated, the bytes and the number of all requests, and the number of the one to refuse; -1 for
 * none. */
static size_t heap_blocks, heap_bytes;
static long heap_requests, heap_refused = -1;
static char heap_nothing;

static inline struct rattle_tried heap_tried(void *block) {
    return (struct rattle_tried){block != NULL, block ? block : &heap_nothing};
}

static inline struct rattle_tried heap_alloc(size_t size, size_t align) {
    void *block = heap_requests++ == heap_refused ? NULL : malloc(size ? size : align);
    heap_bytes += size;
    heap_blocks += block != NULL;
    return heap_tried(block);
}

static inline struct rattle_tried heap_realloc(void *block, size_t kept, size_t size, size_t align) {
    (void)kept;
    heap_bytes += size;
    return heap_tried(heap_requests++ == heap_refused ? NULL : realloc(block, size ? size : align));
}

static inline void heap_dealloc(void *block) {
    heap_blocks -= block != NULL;
    free(block);
}

#ifdef HEAP_OF_LIBRARY
struct rattle_tried rattle_alloc(size_t size, size_t align) {
    return heap_alloc(size, align);
}

struct rattle_tried rattle_realloc(void *block, size_t kept, size_t size, size_t align) {
    return heap_realloc(block, kept, size, align);
}

void rattle_dealloc(void *block) {
    heap_dealloc(block);
}
#else
static const struct tower_other_heap counting_heap = {heap_alloc, heap_realloc, heap_dealloc};
#endif

#endif
