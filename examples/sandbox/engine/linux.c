#include "linux.h"

#include <errno.h>

#include "../calls.h"
#include "serve.h"
#include "tower.h"

struct linux_state linux_state;

/* Numbers of Linux's table for i386. */
enum {
    EXIT = 1,
    WRITE = 4,
    BRK = 45,
    IOCTL = 54,
    MUNMAP = 91,
    MPROTECT = 125,
    MMAP2 = 192,
    SET_THREAD_AREA = 243,
    EXIT_GROUP = 252,
    SET_TID_ADDRESS = 258,
};
/* Where memory comes from: pages of zeros come with the first access. */
static const uint32_t MAPS_END = 0xe0000000u, HEAP_END = 0x80000000u;
enum { MOST_PIECE = 4096, MAY_WRITE = 2, SELF = 1 };
enum { AT_ADDRESS = 0x10 | 0x100000 }; /* MAP_FIXED, MAP_FIXED_NOREPLACE */

static uint32_t failed(int error) {
    return (uint32_t)-error;
}

static uint32_t ask(uint32_t call, uint32_t flag, uint32_t first, uint32_t second) {
    return serve_call((struct words){call, flag, first, second, 0}).eax;
}

static uint32_t write_text(uint32_t file, uint32_t from, uint32_t count) {
    uint32_t piece = count < MOST_PIECE ? count : MOST_PIECE;
    if (file != 1 && file != 2) {
        return failed(EBADF);
    }
    return ask(CALL_WRITE, 0, from, piece) == TOWER_DONE ? piece : failed(EFAULT);
}

static uint32_t pages_of(uint32_t bytes) {
    return bytes / PAGE_BYTES + (bytes % PAGE_BYTES != 0);
}

/* Pages that aren't there yet are none of the core's: it refuses them. */
static uint32_t for_pages(uint32_t call, uint32_t flag, uint32_t first, uint32_t count) {
    for (uint32_t i = 0; i < count; i++) {
        ask(call, flag, first + i, 0);
    }
    return 0;
}

/* Pages that leave the heap come again as zeros. */
static uint32_t set_break(uint32_t to) {
    uint32_t first = pages_of(to), end = pages_of(linux_state.heap_end);
    if (to >= linux_state.heap && to <= HEAP_END) {
        for_pages(TOWER_UNMAP, 0, first, first < end ? end - first : 0);
        linux_state.heap_end = to;
    }
    return linux_state.heap_end;
}

/* Memory of no file only, and at no address that the program chooses. */
static uint32_t map(const uint32_t *arguments) {
    uint32_t from = linux_state.maps, pages = pages_of(arguments[1]);
    bool is_free = arguments[4] == UINT32_MAX && (arguments[3] & AT_ADDRESS) == 0;
    if (!is_free || pages == 0 || from > MAPS_END || pages > (MAPS_END - from) / PAGE_BYTES) {
        return failed(ENOMEM);
    }
    linux_state.maps += pages * PAGE_BYTES;
    return from;
}

/* The engine itself reads and writes there: both pages have to be in. */
static uint32_t set_thread_area(uint32_t at) {
    uint32_t *description = (uint32_t *)(uintptr_t)at; /* number, base, limit, flags */
    serve_access(ACCESS_STORE, at);
    serve_access(ACCESS_STORE, at + 15);
    linux_state.thread = description[1];
    description[0] = LINUX_SELECTOR >> 3;
    return 0;
}

static uint32_t leave(void) {
    ask(TOWER_EXIT, 0, 0, 0);
    serve_end("it can't exit", 0);
}

uint32_t linux_call(uint32_t call, const uint32_t *arguments) {
    uint32_t page = arguments[0] / PAGE_BYTES, pages = pages_of(arguments[1]);
    switch (call) {
    case EXIT: case EXIT_GROUP: return leave();
    case WRITE: return write_text(arguments[0], arguments[1], arguments[2]);
    case BRK: return set_break(arguments[0]);
    case IOCTL: return failed(ENOTTY);
    case MUNMAP: return for_pages(TOWER_UNMAP, 0, page, pages);
    case MPROTECT: return for_pages(TOWER_PROTECT, (arguments[2] & MAY_WRITE) != 0, page, pages);
    case MMAP2: return map(arguments);
    case SET_THREAD_AREA: return set_thread_area(arguments[0]);
    case SET_TID_ADDRESS: return SELF;
    default: return failed(ENOSYS);
    }
}
