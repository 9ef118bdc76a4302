/* The library's functions for memory in a WebAssembly module: blocks from a list, and more pages if none is large
   enough. A block's head is its size; that of a free one also has the next free block, which is behind it. */
typedef __UINT64_TYPE__ u64;
typedef __SIZE_TYPE__ size_t;

enum { UNIT = 16, PAGE = 65536, LEAST = 64 * PAGE };

struct rattle_tried {
    u64 ok;
    void *block;
};

struct head {
    u64 size;
    struct head *next;
};

extern char __heap_base;
static struct head *first;
static u64 end;

static u64 rounded(u64 size) {
    return (size + UNIT - 1) / UNIT * UNIT;
}

/* Joins a block with the free one behind it, if they touch. */
static void join(struct head *block) {
    struct head *next = block->next;
    if (next && (char *)block + block->size == (char *)next) {
        block->size += next->size;
        block->next = next->next;
    }
}

static void put(struct head *block) {
    struct head *before = 0, *next = first;
    while (next && next < block) {
        before = next;
        next = next->next;
    }
    block->next = next;
    join(block);
    if (before) {
        before->next = block;
        join(before);
    } else {
        first = block;
    }
}

/* Makes the memory larger by at least so many bytes. */
static int grow(u64 size) {
    if (!end) {
        end = rounded((u64)&__heap_base);
    }
    u64 have = __builtin_wasm_memory_size(0) * PAGE, wanted = size > LEAST ? size : LEAST;
    u64 pages = (wanted - (have - end) + PAGE - 1) / PAGE;
    if (have - end < wanted && __builtin_wasm_memory_grow(0, pages) == ~(size_t)0) {
        return 0;
    }
    struct head *block = (struct head *)end;
    end = __builtin_wasm_memory_size(0) * PAGE;
    block->size = end - (u64)block;
    put(block);
    return 1;
}

/* Takes a block of so many bytes out of the list, or returns 0. */
static struct head *taken(u64 size) {
    for (struct head *before = 0, *block = first; block; before = block, block = block->next) {
        if (block->size < size) {
            continue;
        }
        struct head *rest = block->next;
        if (block->size - size >= sizeof(struct head) + UNIT) {
            rest = (struct head *)((char *)block + size);
            rest->size = block->size - size;
            rest->next = block->next;
            block->size = size;
        }
        if (before) {
            before->next = rest;
        } else {
            first = rest;
        }
        return block;
    }
    return 0;
}

struct rattle_tried rattle_alloc(size_t size, size_t align) {
    struct rattle_tried tried = {0, (void *)UNIT};
    (void)align; /* at most 16 */
    if (size >> 40) {
        return tried;
    }
    u64 whole = rounded(size) + UNIT;
    struct head *block = taken(whole);
    if (!block && grow(whole)) {
        block = taken(whole);
    }
    if (block) {
        tried.ok = 1;
        tried.block = (char *)block + UNIT;
    }
    return tried;
}

void rattle_dealloc(void *block) {
    put((struct head *)((char *)block - UNIT));
}

struct rattle_tried rattle_realloc(void *block, size_t kept, size_t size, size_t align) {
    struct rattle_tried tried = {1, block};
    if (((struct head *)((char *)block - UNIT))->size - UNIT >= size) {
        return tried;
    }
    tried = rattle_alloc(size, align);
    if (tried.ok) {
        __builtin_memcpy(tried.block, block, kept);
        rattle_dealloc(block);
    }
    return tried;
}

/* A block for what the page passes; 0 if there is no memory. */
void *page_room(size_t size) {
    struct rattle_tried tried = rattle_alloc(size, UNIT);
    return tried.ok ? tried.block : 0;
}
