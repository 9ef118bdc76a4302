/* resume whole | stop FILE | go FILE: a sandbox with two tenants that is stopped in the middle of a run, and goes on
 * in another process. `stop` runs the first half and writes the core's image to a file. `go` restores a core of that
 * file and runs the second half. `whole` runs both halves. `go` and `whole` print the same lines.
 *
 * The sandbox is process 0. Its own page has all that it keeps: the next step, its random state, and a digest of all
 * replies. So the image is the whole of it. No offer may be pending at the cut, since an image has none. */
#include <stdio.h>
#include <string.h>

#include "expect.h"
#include "tower_images.h"

enum { FRAMES = 128, STEPS = 20000, CUT = 9001, SANDBOX = 0, TENANTS = 2, QUOTA = 50, PAGES = 40 };
enum { LENGTH = TOWER_IMAGE_LENGTH(FRAMES), BOOK = TOWER_FIRST_PAGE << 12, OWN = (TOWER_FIRST_PAGE + 8) << 12 };

/* What the sandbox keeps, in its own page of the core. */
struct book {
    uint32_t step, random, digest;
};

static struct tower tower = TOWER_NONE;
static struct book book;
static uint8_t image[LENGTH + 1];

static struct tower_reply does(struct tower_event event) {
    struct tower_reply reply = {0};
    EXPECT(tower_step(&tower, &event, &reply));
    return reply;
}

static uint32_t random_below(uint32_t end) {
    book.random = book.random * 1664525 + 1013904223;
    return (uint32_t)((uint64_t)(book.random >> 4) * end >> 28);
}

static void digest(uint32_t number) {
    book.digest = (book.digest ^ number) * 16777619;
}

static uint32_t a_page(void) {
    return OWN / TOWER_FRAME_BYTES + random_below(PAGES);
}

/* The next call of a tenant: mostly stores and loads, some of which run into its quota. */
static struct tower_event call_of(uint32_t pid) {
    uint32_t page = a_page(), address = page << 12 | random_below(TOWER_FRAME_BYTES);
    switch (random_below(12)) {
    case 0: return tower_map(pid, page, random_below(2));
    case 1: return tower_unmap(pid, page);
    case 2: return tower_protect(pid, page, random_below(2));
    case 3: return tower_info(pid, page);
    case 4: return tower_quota(pid);
    case 5:
    case 6:
    case 7: return tower_load(pid, address, 4);
    default: return tower_store(pid, address, 4, book.random);
    }
}

static void runs(struct tower_event event) {
    struct tower_reply reply = does(event);
    const uint32_t told[] = {reply.kind, reply.first, reply.second, reply.third, reply.write, reply.may, reply.accessed,
                             reply.dirty};
    for (size_t n = 0; n < sizeof told / sizeof *told; n++) {
        digest(told[n]);
    }
}

/* One tenant gives the other a page of its own, within one step. */
static void gives(uint32_t from, uint32_t to) {
    uint32_t page = a_page();
    runs(tower_offer(from, page, to, random_below(2)));
    runs(tower_accept(to, from, page, a_page()));
    runs(tower_withdraw(from, page, to));
}

static void step(void) {
    uint32_t pid = 1 + random_below(TENANTS);
    if (random_below(10)) {
        runs(call_of(pid));
    } else {
        gives(pid, 1 + TENANTS - pid);
    }
    book.step++;
}

static void moves(bool out) {
    struct tower_reply stop = {0};
    size_t moved = 0;
    bool is_live = out ? tower_write(&tower, SANDBOX, BOOK, (uint8_t *)&book, sizeof book, &moved, &stop)
                       : tower_read(&tower, SANDBOX, BOOK, (uint8_t *)&book, sizeof book, &moved, &stop);
    EXPECT(is_live && moved == sizeof book);
}

static void begins(void) {
    EXPECT(tower_boot(FRAMES, &tower) == TOWER_BOOTED);
    for (uint32_t pid = 1; pid <= TENANTS; pid++) {
        struct tower_reply reply = does(tower_spawn(SANDBOX, QUOTA));
        EXPECT(reply.kind == TOWER_CHILD && reply.first == pid);
    }
    book = (struct book){0, 1, 2166136261u};
    moves(true);
}

static void goes_on(uint32_t end) {
    for (moves(false); book.step < end; step()) {
    }
    moves(true);
}

static void stops(const char *name) {
    size_t length = 0;
    EXPECT(tower_image(&tower, image, LENGTH, &length) == TOWER_IMAGE_WRITTEN && length == LENGTH);
    FILE *file = fopen(name, "wb");
    EXPECT(file && fwrite(image, 1, LENGTH, file) == LENGTH && fclose(file) == 0);
}

static void comes_back(const char *name) {
    struct tower_verdict verdict = {0};
    char told[TOWER_TEXT_BYTES];
    FILE *file = fopen(name, "rb");
    size_t length = file ? fread(image, 1, sizeof image, file) : 0;
    uint32_t status = tower_restore(image, length, &tower, &verdict);
    tower_verdict_text(status, &verdict, told, sizeof told);
    fprintf(stderr, "resume: %s %s\n", tower_restore_status_name(status), told);
    EXPECT(file && fclose(file) == 0 && status == TOWER_RESTORED);
}

/* Prints the digest of all replies, and of each tenant its charge and a digest of its pages. */
static void tells(void) {
    static uint8_t bytes[TOWER_FRAME_BYTES];
    printf("steps %u, replies %08x\n", book.step, book.digest);
    for (uint32_t pid = 1; pid <= TENANTS; pid++) {
        struct tower_container container = {0};
        struct tower_page page = {0};
        struct tower_reply stop = {0};
        uint32_t number = 0, pages = 0;
        size_t moved = 0;
        book.digest = 2166136261u;
        for (uint32_t from = 0; tower_next_page(&tower, pid, from, &number, &page); from = number + 1, pages++) {
            EXPECT(tower_read(&tower, pid, number << 12, bytes, sizeof bytes, &moved, &stop));
            const uint32_t flags[] = {number, page.write, page.may, page.dirty, page.holders};
            for (size_t n = 0; n < sizeof flags / sizeof *flags; n++) {
                digest(flags[n]);
            }
            for (size_t n = 0; n < moved; n++) {
                digest(bytes[n]);
            }
        }
        EXPECT(tower_container(&tower, pid, &container));
        printf("tenant %u: used %u of %u, %u pages %08x\n", pid, container.used, container.quota, pages, book.digest);
    }
}

int main(int count, char **words) {
    const char *how = count > 1 ? words[1] : "";
    bool is_whole = strcmp(how, "whole") == 0 && count == 2;
    bool stops_here = strcmp(how, "stop") == 0 && count == 3, goes = strcmp(how, "go") == 0 && count == 3;
    if (!is_whole && !stops_here && !goes) {
        fputs("usage: resume whole | stop FILE | go FILE\n", stderr);
        return 1;
    }
    if (goes) {
        comes_back(words[2]);
    } else {
        begins();
        goes_on(CUT);
    }
    if (stops_here) {
        stops(words[2]);
    } else {
        goes_on(STEPS);
        tells();
    }
    tower_free(&tower);
    return 0;
}
