/* A core from another core's image: the same calls on both then have the same replies, and leave the same image. A
 * damaged image gives no core, nor does one of version 1, nor a handle that has a core. It ends with status 1 at the
 * first answer that is not the expected one. */
#include <stdio.h>
#include <string.h>

#include "expect.h"
#include "tower_images.h"

enum { FRAMES = 16, LENGTH = TOWER_IMAGE_LENGTH(FRAMES), PAGE = TOWER_FIRST_PAGE, OTHER_PAGE = 0x50000 };
enum { VERSION = 4, QUOTA = 20, ROLES = 1548, COUNT = 12 };

static struct tower first = TOWER_NONE, second = TOWER_NONE;
static uint8_t image[LENGTH], first_image[LENGTH], second_image[LENGTH];

/* Process 0 stores a word, and process 1 gets its page. */
static void boots(void) {
    struct tower_event store = tower_store(0, PAGE << 12, 4, 0xdeadbeef), spawn = tower_spawn(0, 6);
    struct tower_event offer = tower_offer(0, PAGE, 1, TOWER_READ_WRITE), accept = tower_accept(1, 0, PAGE, OTHER_PAGE);
    expect(tower_boot(FRAMES, &first) == TOWER_BOOTED, "a core boots");
    expect(answers(&first, store, TOWER_DONE, 0) && answers(&first, spawn, TOWER_CHILD, 1), "and gets a second process");
    expect(answers(&first, offer, TOWER_DONE, 0) && answers(&first, accept, TOWER_DONE, 0), "which gets its page");
}

static bool writes(const struct tower *tower, uint8_t *bytes) {
    size_t length = 0;
    return tower_image(tower, bytes, LENGTH, &length) == TOWER_IMAGE_WRITTEN && length == LENGTH;
}

static void restores(void) {
    struct tower_verdict verdict = {7, 7};
    expect(writes(&first, image), "its image is written");
    expect(tower_restore(image, LENGTH, &second, &verdict) == TOWER_RESTORED && second.live, "another core comes of it");
    expect(verdict.number == 7 && verdict.clause == 7, "and no verdict");
    expect(tower_frames(&second) == FRAMES && writes(&second, second_image), "of as many frames");
    expect(memcmp(image, second_image, LENGTH) == 0, "with the same image");
    expect(tower_restore(image, LENGTH, &second, &verdict) == TOWER_RESTORE_HAS_CORE, "a handle with a core gets no other");
}

/* Makes a call on both cores. Each reply has to have this kind and this first number, and the two are the same. */
static bool alike(struct tower_event event, uint32_t kind, uint32_t value) {
    struct tower_reply reply = {0}, other = {0};
    return tower_step(&first, &event, &reply) && tower_step(&second, &event, &other) && reply.kind == kind &&
           reply.first == value && memcmp(&reply, &other, sizeof reply) == 0;
}

static void go_on_alike(void) {
    const uint32_t own = PAGE << 12, others = OTHER_PAGE << 12;
    expect(alike(tower_load(1, others, 4), TOWER_VALUE, 0xdeadbeef) &&
               alike(tower_store(1, others, 4, 7), TOWER_DONE, 0) && alike(tower_load(0, own, 4), TOWER_VALUE, 7),
           "both share the page");
    expect(alike(tower_map(0, PAGE, TOWER_READ_WRITE), TOWER_REFUSED, TOWER_MAPPED) &&
               alike(tower_fork(0, 3), TOWER_CHILD, 2) && alike(tower_store(2, own, 4, 9), TOWER_DONE, 0) &&
               alike(tower_exit(1), TOWER_DONE, 0) && alike(tower_spawn(0, 9), TOWER_CHILD, 1) &&
               alike(tower_spawn(0, 1), TOWER_REFUSED, TOWER_OVER_QUOTA) &&
               alike(tower_load(0, own, 4), TOWER_VALUE, 7), "both answer each call as expected");
    expect(writes(&first, first_image) && writes(&second, second_image), "and both write their images");
    expect(memcmp(first_image, second_image, LENGTH) == 0, "which are the same");
    expect(memcmp(image, first_image, LENGTH) != 0, "and not the old one");
}

/* A pending offer isn't in the image. */
static void loses_an_offer(void) {
    struct tower_event offer = tower_offer(0, PAGE, 1, TOWER_READ_ONLY), accept = tower_accept(1, 0, PAGE, PAGE);
    struct tower_verdict verdict = {0};
    expect(answers(&first, offer, TOWER_DONE, 0) && writes(&first, first_image), "with an offer the image is written");
    tower_free(&second);
    expect(tower_restore(first_image, LENGTH, &second, &verdict) == TOWER_RESTORED, "and a core comes of it");
    expect(answers(&first, accept, TOWER_DONE, 0), "the first core has the offer");
    expect(answers(&second, accept, TOWER_REFUSED, TOWER_NO_OFFER), "and the second has not");
    tower_free(&second);
}

/* Returns whether the image with another byte at a place gives no core, but this status and verdict. The byte is put
 * back. */
static bool refuses(size_t place, uint8_t byte, uint32_t status, uint32_t number, uint32_t clause) {
    struct tower_verdict verdict = {7, 7};
    uint8_t old = image[place];
    image[place] = byte;
    bool is_refused = tower_restore(image, LENGTH, &second, &verdict) == status && !second.live &&
                      verdict.number == number && verdict.clause == clause;
    image[place] = old;
    return is_refused;
}

/* Frame 3 has the page of both processes. */
static void refuses_images(void) {
    struct tower_verdict verdict = {7, 7};
    expect(refuses(QUOTA, 16, TOWER_PROCESS_FAILS, 0, 1), "another quota: process 0 fails P1");
    expect(refuses(ROLES + 16 * 3 + COUNT, 3, TOWER_FRAME_FAILS, 3, 4), "a holder counted too many: frame 3 fails F4");
    expect(refuses(0, 0, TOWER_NOT_IMAGE, 0, TOWER_FAULT_NOT_IMAGE), "another first byte: no image");
    expect(refuses(VERSION, 3, TOWER_NOT_IMAGE, 0, TOWER_FAULT_BAD_VERSION), "version 3: not known");
    expect(refuses(VERSION, 1, TOWER_RESTORE_OLD_WORDS, 7, 7), "version 1: no core comes of it, and no verdict");
    expect(tower_restore(image, LENGTH - 1, &second, &verdict) == TOWER_NOT_IMAGE && !second.live &&
               verdict.clause == TOWER_FAULT_BAD_LENGTH,
           "a byte too few: another length");
    expect(tower_restore(image, LENGTH, &second, &verdict) == TOWER_RESTORED, "and as it was it makes a core");
    expect(strcmp(tower_restore_status_name(TOWER_RESTORE_OLD_WORDS), "OldWords") == 0 &&
               strcmp(tower_restore_status_name(TOWER_NOT_IMAGE), "NotImage") == 0 &&
               strcmp(tower_restore_status_name(7), "") == 0, "statuses have names");
}

int main(void) {
    boots();
    restores();
    go_on_alike();
    loses_an_offer();
    refuses_images();
    tower_free(&first);
    tower_free(&second);
    return 0;
}
