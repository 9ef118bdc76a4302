/* Each function frees what it allocates, apart from the blocks of a core: a heap of its own counts the blocks that are
 * allocated after each call. Each is called on a handle with a core and on one without, and returns which of the two it
 * is. It ends with status 1 at the first count or result that is not the expected one. */
#define HEAP_OF_LIBRARY
#include <string.h>

#include "expect.h"
#include "heap.h"
#include "tower_images.h"

enum { FRAMES = 32, LENGTH = TOWER_IMAGE_LENGTH(FRAMES), COUNT = 3 };

static uint8_t image[LENGTH], bytes[LENGTH], data[5000];

/* The function returns whether the handle has a core. */
#define SAYS(call) EXPECT((call) == tower->live)

static void steps(struct tower *tower) {
    const struct tower_event events[COUNT] = {tower_store(0, 0x40000000, 4, 7), tower_fork(0, 8), tower_exit(1)};
    struct tower_reply replies[COUNT] = {{0}};
    struct tower_ended ended = {0};
    size_t carried = 0;
    SAYS(tower_step(tower, &events[0], &replies[0]));
    SAYS(tower_step_ending(tower, &events[1], &replies[1], &ended));
    SAYS(tower_ends(tower, &events[2], &ended));
    SAYS(tower_run(tower, events, COUNT, replies, COUNT));
    EXPECT(!tower_run(tower, events, COUNT, replies, COUNT - 1));
    SAYS(tower_run_until(tower, events, COUNT, replies, COUNT, &carried));
}

static void transfers(struct tower *tower) {
    struct tower_reply stop = {0};
    size_t moved = 0;
    SAYS(tower_write(tower, 0, 0x40000ffe, data, sizeof data, &moved, &stop));
    SAYS(tower_read(tower, 0, 0x40000ffe, data, sizeof data, &moved, &stop));
    SAYS(tower_read(tower, 70, 0, data, sizeof data, &moved, &stop));
}

static void queries(struct tower *tower) {
    uint32_t number = 0;
    struct tower_container container = {0};
    struct tower_role role = {0};
    struct tower_walk walk = {0};
    struct tower_page page = {0};
    struct tower_memory memory = {0};
    EXPECT(tower_frames(tower) == (tower->live ? FRAMES : 0));
    SAYS(tower_directory(tower, 0, &number));
    SAYS(tower_container(tower, 0, &container));
    SAYS(tower_role(tower, 1, &role));
    SAYS(tower_walk(tower, 0, 0x40000000, true, &walk));
    SAYS(tower_copy_frame(tower, 1, data, TOWER_FRAME_BYTES));
    SAYS(tower_next_page(tower, 0, TOWER_FIRST_PAGE, &number, &page));
    SAYS(tower_memory(tower, &memory));
}

static void acts(struct tower *tower) {
    struct tower_processes processes = {0};
    struct tower_holder holder = {0, 0};
    struct tower_offer offer = {0};
    struct tower_reply told = {0};
    const struct tower_event offers = tower_offer(0, TOWER_FIRST_PAGE, 2, TOWER_READ_WRITE);
    uint32_t number = 0;
    size_t count = 0;
    bool dirty = false, may = false;
    SAYS(tower_children(tower, 0, &processes));
    SAYS(tower_peek(tower, 0, 0x40000ffe, data, sizeof data, &count));
    SAYS(tower_next_dirty(tower, 0, 0, &number));
    SAYS(tower_clean(tower, 0, TOWER_FIRST_PAGE, &dirty));
    SAYS(tower_load_bytes(tower, 0, 0x40000ffe, data, sizeof data, true, &told));
    SAYS(tower_may_write(tower, &offers, 1, &may));
    SAYS(tower_step(tower, &offers, &told));
    SAYS(tower_next_offer(tower, 0, 0, 0, &offer));
    SAYS(tower_take_back(tower, 0, TOWER_FIRST_PAGE, &holder, 1, &count, &told));
    SAYS(tower_end(tower, 1, &processes, &told));
    EXPECT(!tower_next_holder(tower, 0, TOWER_FIRST_PAGE, 1, 0, &number));
}

static void images(struct tower *tower) {
    struct tower_verdict verdict = {0};
    size_t size = 0;
    EXPECT(tower_image(tower, bytes, LENGTH, &size) == (tower->live ? TOWER_IMAGE_WRITTEN : TOWER_IMAGE_NO_CORE));
    EXPECT(tower_image(tower, NULL, 0, &size) == (tower->live ? TOWER_IMAGE_TOO_SHORT : TOWER_IMAGE_NO_CORE));
    EXPECT(tower_check(tower, &verdict) == (tower->live ? TOWER_SOUND : TOWER_CHECK_NO_CORE));
    EXPECT(tower_check_bytes(bytes, LENGTH, &verdict) == (tower->live ? TOWER_SOUND : TOWER_NOT_IMAGE));
    EXPECT(tower_check_bytes(bytes, LENGTH - 1, &verdict) == TOWER_NOT_IMAGE);
    memset(bytes, 0, LENGTH);
}

/* What is tried on both handles. */
static const struct trial {
    const char *name;
    void (*on)(struct tower *);
} trials[] = {{"steps and runs", steps}, {"reads and writes", transfers}, {"queries", queries},
              {"acts for processes", acts}, {"images and checks", images}};

static void expect_blocks(size_t expected, const char *what) {
    printf("%zu blocks: %s\n", heap_blocks, what);
    EXPECT(heap_blocks == expected);
}

static void try_all(struct tower *tower, size_t expected) {
    for (size_t at = 0; at < sizeof trials / sizeof *trials; at++) {
        trials[at].on(tower);
        expect_blocks(expected, trials[at].name);
    }
}

static void restores(struct tower *tower, size_t core) {
    struct tower_verdict verdict = {0};
    expect_blocks(tower_restore(image, LENGTH - 1, tower, &verdict) == TOWER_NOT_IMAGE ? 0 : SIZE_MAX, "bytes that are no image");
    image[20] ^= 1;
    expect_blocks(tower_restore(image, LENGTH, tower, &verdict) == TOWER_PROCESS_FAILS ? 0 : SIZE_MAX, "an image that is not sound");
    image[20] ^= 1;
    expect_blocks(tower_restore(image, LENGTH, tower, &verdict) == TOWER_RESTORED ? core : SIZE_MAX, "a restored core");
    expect_blocks(tower_restore(image, LENGTH, tower, &verdict) == TOWER_RESTORE_HAS_CORE ? core : SIZE_MAX, "a handle that has one");
    try_all(tower, core);
    tower_free(tower);
    expect_blocks(0, "freed");
}

int main(void) {
    struct tower tower = TOWER_NONE, none = TOWER_NONE;
    size_t size = 0;
    expect_blocks(tower_boot(15, &tower) == TOWER_BAD_SIZE ? 0 : SIZE_MAX, "no core of 15 frames");
    expect_blocks(tower_boot(FRAMES, &tower) == TOWER_BOOTED ? heap_blocks : SIZE_MAX, "a booted core");
    const size_t core = heap_blocks;
    expect_blocks(tower_boot(FRAMES, &tower) == TOWER_HAS_CORE ? core : SIZE_MAX, "no second core");
    expect_blocks(tower_boot_wide(FRAMES, &tower) == TOWER_HAS_CORE ? core : SIZE_MAX, "and no wide one");
    try_all(&tower, core);
    expect_blocks(tower_image(&tower, image, LENGTH, &size) == TOWER_IMAGE_WRITTEN ? core : SIZE_MAX, "its image");
    tower_free(&tower);
    expect_blocks(0, "freed");
    tower_free(&tower);
    expect_blocks(0, "freed again");
    expect_blocks(tower_boot_wide(FRAMES, &tower) == TOWER_BOOTED ? core : SIZE_MAX, "a wide core");
    tower_free(&tower);
    expect_blocks(0, "freed");
    expect_blocks(tower_boot(TOWER_MAX_FRAMES, &tower) == TOWER_BOOTED ? core : SIZE_MAX, "a core of 4,096 frames");
    tower_free(&tower);
    expect_blocks(0, "freed");
    try_all(&none, 0);
    restores(&tower, core);
    return 0;
}
