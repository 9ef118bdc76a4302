#include "core.h"

#include "place.h"
#include "tower_images.h"

struct tower core = TOWER_NONE;
struct tower_shadow shadow = TOWER_SHADOW_NONE;

void open_core(void) {
    boot(&core);
}

uint64_t core_physical(void) {
    return physical_of(memory_of(&core));
}

uint64_t shadow_root(uint32_t pid) {
    uint64_t root;
    return tower_shadow_root(&shadow, pid, &root) ? root : 0;
}

/* ---- The check's memory: it requests 10 bytes for each frame, in three blocks, and frees all of them before it ends.
 * */

static _Alignas(16) uint8_t heap[16 * FRAMES + 64];
static size_t heap_used;
static uint32_t heap_blocks;

static struct rattle_tried allocate(size_t size, size_t align) {
    size_t from = (heap_used + align - 1) & ~(align - 1);
    if (from > sizeof heap || size > sizeof heap - from) {
        return (struct rattle_tried){false, heap};
    }
    heap_used = from + size;
    heap_blocks++;
    return (struct rattle_tried){true, heap + from};
}

static void release(void *block) {
    (void)block;
    if (--heap_blocks == 0) {
        heap_used = 0;
    }
}

void check_core(void) {
    static const struct tower_other_heap ours = {.alloc = allocate, .dealloc = release};
    struct tower_verdict verdict = {0};
    char text[TOWER_TEXT_BYTES];
    tower_set_other_heap(&ours);
    uint32_t status = tower_check(&core, &verdict);
    (void)tower_verdict_text(status, &verdict, text, sizeof text);
    say("the core is checked: %s\n", *text ? text : tower_check_status_name(status));
    need(status == TOWER_SOUND && heap_blocks == 0, "the core is sound");
}
