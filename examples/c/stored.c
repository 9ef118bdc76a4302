/* A core of 1,048,576 frames, 4 GiB, of which 2,560 are in use, is stored in a file and resumed from it, within two
 * seconds and 64 MiB beside the two blocks. The file has the frames in use and the pending offers; it is written frame by
 * frame, and read where it is mapped. It ends with status 0 if all goes as expected (expect.h). */
#define _DEFAULT_SOURCE

#include <fcntl.h>
#include <stdio.h>
#include <stdlib.h>
#include <string.h>
#include <sys/mman.h>
#include <sys/resource.h>
#include <sys/stat.h>
#include <time.h>
#include <unistd.h>

#include "expect.h"
#include "heap.h"
#include "tower_region_images.h"

enum { FRAMES = TOWER_WIDE_FRAMES, USED = 2560, CHILD = 1, OFFERED = TOWER_OFFERS, SECONDS = 2, BESIDE = 64 << 20 };
enum { FRONT = TOWER_FRONT_LENGTH(OFFERED), LENGTH = FRONT + TOWER_RECORD_BYTES * USED };
enum { PAGES = USED - 6 /* frame 0, two directories, three tables */ };

static uint8_t *zeros, *zeros_end;

/* The library's memset (by --wrap): the bytes of a block that was never written are zeros already. */
void *__real_memset(void *to, int byte, size_t count);
void *__wrap_memset(void *to, int byte, size_t count);

void *__wrap_memset(void *to, int byte, size_t count) {
    if (byte == 0 && (uint8_t *)to >= zeros && (uint8_t *)to < zeros_end) {
        return to;
    }
    return __real_memset(to, byte, count);
}

static uint8_t *fresh_block(size_t size) {
    uint8_t *block = mmap(NULL, size, PROT_READ | PROT_WRITE, MAP_PRIVATE | MAP_ANONYMOUS | MAP_NORESERVE, -1, 0);
    EXPECT(block != MAP_FAILED);
    zeros = block;
    zeros_end = block + (size_t)FRAMES * TOWER_FRAME_BYTES;
    return block;
}

static uint32_t address_of(uint32_t page) {
    return (TOWER_FIRST_PAGE + page) << 12;
}

static double seconds(void) {
    struct timespec now;
    EXPECT(clock_gettime(CLOCK_MONOTONIC, &now) == 0);
    return (double)now.tv_sec + 1e-9 * (double)now.tv_nsec;
}

/* Bytes of the process's memory, the most so far. */
static size_t most_bytes(void) {
    struct rusage usage;
    EXPECT(getrusage(RUSAGE_SELF, &usage) == 0);
    return (size_t)usage.ru_maxrss * 1024;
}

/* Writes the image of a core: its front, then each frame's record. Returns how many records there are. */
static uint32_t store(const struct tower *tower, const char *name) {
    static uint8_t front[FRONT], record[TOWER_RECORD_BYTES];
    uint32_t stored = 0;
    size_t size = 0;
    int file = open(name, O_WRONLY | O_CREAT | O_TRUNC, 0600);
    EXPECT(file >= 0 && tower_store_front(tower, NULL, 0, &size) == TOWER_STORE_TOO_SHORT && size == FRONT);
    EXPECT(tower_store_front(tower, front, sizeof front, &size) == TOWER_STORED && size == FRONT);
    EXPECT(write(file, front, size) == FRONT);
    for (uint32_t frame = 0; frame < tower_frames(tower); frame++) {
        uint32_t status = tower_store_frame(tower, frame, record, sizeof record);
        EXPECT(status == TOWER_STORED || status == TOWER_STORE_FREE_FRAME);
        if (status == TOWER_STORED) {
            EXPECT(write(file, record, sizeof record) == sizeof record);
            stored++;
        }
    }
    EXPECT(close(file) == 0);
    return stored;
}

/* Restores a core of a file over a block. */
static void resume(const char *name, struct tower *tower, uint8_t *block, size_t size) {
    struct tower_verdict verdict = {7, 7};
    struct stat told;
    int file = open(name, O_RDONLY);
    EXPECT(file >= 0 && fstat(file, &told) == 0 && told.st_size == LENGTH);
    uint8_t *bytes = mmap(NULL, LENGTH, PROT_READ, MAP_PRIVATE, file, 0);
    EXPECT(bytes != MAP_FAILED);
    EXPECT(tower_restore_whole_over(bytes, LENGTH, tower, &verdict, block, size) == TOWER_RESTORED);
    EXPECT(verdict.number == 7 && verdict.clause == 7 && munmap(bytes, LENGTH) == 0 && close(file) == 0);
}

/* Process 0 stores a word in each page, and offers the first ones to its child. */
static void fill(struct tower *tower) {
    EXPECT(answers(tower, tower_spawn(0, 100), TOWER_CHILD, CHILD));
    for (uint32_t page = 0; page < PAGES; page++) {
        EXPECT(answers(tower, tower_store(0, address_of(page), 4, ~page), TOWER_DONE, 0));
    }
    for (uint32_t page = 0; page < OFFERED; page++) {
        EXPECT(answers(tower, tower_offer(0, TOWER_FIRST_PAGE + page, CHILD, page % 2), TOWER_DONE, 0));
    }
}

/* What a core answers after the cut: each page has its word, and the child accepts what was offered before, with the right
 * that it was offered with. */
static void go_on(struct tower *tower) {
    EXPECT(tower_frames(tower) == FRAMES && answers(tower, tower_quota(0), TOWER_USAGE, FRAMES - 1));
    for (uint32_t page = 0; page < PAGES; page++) {
        EXPECT(answers(tower, tower_load(0, address_of(page), 4), TOWER_VALUE, ~page));
    }
    for (uint32_t page = 0; page < OFFERED; page++) {
        struct tower_event accept = tower_accept(CHILD, 0, TOWER_FIRST_PAGE + page, TOWER_FIRST_PAGE + page);
        EXPECT(answers(tower, accept, TOWER_DONE, 0) && answers(tower, accept, TOWER_REFUSED, TOWER_NO_OFFER));
        EXPECT(answers(tower, tower_load(CHILD, address_of(page), 4), TOWER_VALUE, ~page));
        uint32_t kind = page % 2 ? TOWER_DONE : TOWER_FAULT;
        struct tower_reply reply = {0};
        struct tower_event event = tower_store(CHILD, address_of(page), 4, page);
        EXPECT(tower_step(tower, &event, &reply) && reply.kind == kind);
    }
}

int main(int count, char **words) {
    EXPECT(count == 2);
    const size_t size = TOWER_RESTORE_WHOLE_BLOCK_BYTES(FRAMES);
    uint8_t *block = fresh_block(size);
    struct tower tower = TOWER_NONE, other = TOWER_NONE;
    tower_set_other_heap(&counting_heap); /* for the list of offers that a store makes */
    EXPECT(tower_boot_over(FRAMES, &tower, block, size) == TOWER_BOOTED);
    zeros = zeros_end = NULL;
    fill(&tower);

    size_t before = most_bytes();
    double begun = seconds();
    EXPECT(store(&tower, words[1]) == USED);
    double stored = seconds();
    size_t beside = most_bytes() - before;
    uint8_t *second = fresh_block(size);
    double again = seconds();
    resume(words[1], &other, second, size);
    double resumed = seconds();
    zeros = zeros_end = NULL;

    /* of the second block the frames in use and the book are written; the rest is beside it */
    const size_t book = size - (size_t)FRAMES * TOWER_FRAME_BYTES, own = book + (size_t)USED * TOWER_FRAME_BYTES;
    size_t all = most_bytes() - before;
    beside = all > own && all - own > beside ? all - own : beside;
    go_on(&tower);
    go_on(&other);
    tower_free(&tower);
    tower_free(&other);
    EXPECT(heap_blocks == 0 && !tower_holds(block) && !tower_holds(second) && munmap(block, size) == 0 && munmap(second, size) == 0);
    fprintf(stderr, "stored in %.3f s, resumed in %.3f s, %zu KiB beside the blocks\n", stored - begun, resumed - again,
            beside / 1024);
    EXPECT(stored - begun + (resumed - again) < SECONDS && beside < BESIDE);
    printf("stored: %d of %d frames and %d offers, as expected\n", USED, FRAMES, OFFERED);
    return 0;
}
