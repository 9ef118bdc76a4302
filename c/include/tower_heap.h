/* The functions that the libraries import: those for memory, which a kernel writes itself, and some of the C library's.
 * c/heap.c has the first over malloc, realloc and free. libtower_c.a imports neither rattle_realloc nor
 * memcpy. */
#ifndef TOWER_HEAP_H
#define TOWER_HEAP_H

#include <stdbool.h>
#include <stddef.h>

#ifdef __cplusplus
extern "C" {
#endif

/* The result of a request for a block. */
struct rattle_tried {
    bool ok;
    void *block; /* not null, even if there is none */
};

/* Returns a block of that many bytes, aligned to `align`, a power of two up to 16. No one else uses it until it is
 * freed. A size of 0 requests a block of no bytes. If there is no block, it returns false, and any pointer that is not
 * null. */
struct rattle_tried rattle_alloc(size_t size, size_t align);

/* Frees a block that rattle_alloc returned. */
void rattle_dealloc(void *block);

/* Resizes the block to `size` bytes, with its first `kept` bytes as they were; it may move. If that can't be done, it
 * returns false, and the block is as it was. A kernel's function may always do so, since each block is first requested
 * in its whole size. */
struct rattle_tried rattle_realloc(void *block, size_t kept, size_t size, size_t align);

/* As the C library's, which declares them in string.h; in C++ they are taken from there. */
#ifndef __cplusplus
void *memset(void *to, int byte, size_t count);
void *memcpy(void *to, const void *from, size_t count);
void *memmove(void *to, const void *from, size_t count);
#endif

#ifdef __cplusplus
}
#endif
#endif
