/* The libraries' functions for memory, over malloc, realloc and free. A kernel writes its own: examples/c/bare.c does. */
#include <stdlib.h>

#include "tower_heap.h"

static char nothing;

struct rattle_tried rattle_alloc(size_t size, size_t align) {
    void *block = malloc(size ? size : align);
    struct rattle_tried tried = {block != NULL, block ? block : &nothing};
    return tried;
}

struct rattle_tried rattle_realloc(void *block, size_t kept, size_t size, size_t align) {
    (void)kept;
    void *moved = realloc(block, size ? size : align);
    struct rattle_tried tried = {moved != NULL, moved ? moved : &nothing};
    return tried;
}

void rattle_dealloc(void *block) {
    free(block);
}
