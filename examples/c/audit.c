/* A kernel that audits itself. It writes the image of its core to a buffer, and checks that image, the core's own, and
 * damaged images. It ends with status 1 at the first answer that is not the expected one. */
#include <stdio.h>
#include <string.h>

#include "expect.h"
#include "tower_images.h"

enum { FRAMES = 16, PAGE = TOWER_FIRST_PAGE, ADDRESS = PAGE << 12, ROLES = 1548, MEMORY = ROLES + 16 * FRAMES };

static struct tower tower = TOWER_NONE;
static uint8_t image[TOWER_IMAGE_LENGTH(FRAMES) + 1];

static void asks_without_a_core(void) {
    struct tower_verdict verdict = {7, 7};
    size_t length = 7;
    expect(tower_image(&tower, image, sizeof image, &length) == TOWER_IMAGE_NO_CORE && length == 7, "no core, no image");
    expect(tower_check(&tower, &verdict) == TOWER_CHECK_NO_CORE && verdict.number == 7, "and no check");
}

/* Process 0 stores a word: its directory is frame 1, its table frame 2, and the page frame 3. */
static void boots(void) {
    expect(tower_boot(FRAMES, &tower) == TOWER_BOOTED, "a core boots");
    expect(tower_do(&tower, tower_store(0, ADDRESS, 4, 0xdeadbeef), NULL) == TOWER_OUTCOME_DONE,
           "and a word is stored");
}

static void asks_for_the_length(void) {
    size_t length = 0;
    expect(tower_image(&tower, NULL, 0, &length) == TOWER_IMAGE_TOO_SHORT && length == TOWER_IMAGE_LENGTH(FRAMES),
           "with no room the length is told");
    expect(tower_image(&tower, image, length - 1, &length) == TOWER_IMAGE_TOO_SHORT && image[0] == 0,
           "and with a byte too few, and nothing is written");
}

static void writes(void) {
    struct tower_verdict verdict = {7, 7};
    size_t length = 0;
    image[sizeof image - 1] = 0xaa;
    expect(tower_image(&tower, image, sizeof image, &length) == TOWER_IMAGE_WRITTEN && length == sizeof image - 1,
           "an image is written");
    expect(memcmp(image, "mC2I", 4) == 0 && image[sizeof image - 1] == 0xaa, "at the front of the buffer alone");
    expect(memcmp(image + MEMORY + 3 * TOWER_FRAME_BYTES, "\xef\xbe\xad\xde", 4) == 0, "with the word in frame 3");
    expect(tower_check(&tower, &verdict) == TOWER_SOUND, "the core is sound");
    expect(tower_check_bytes(image, length, &verdict) == TOWER_SOUND && verdict.number == 7, "and so is its image");
}

/* Returns whether the image with another byte at a place has this status and this verdict, as a text. The byte is put
 * back. */
static bool tells(size_t place, uint8_t byte, uint32_t status, const char *verdict_text) {
    struct tower_verdict verdict = {0};
    char text[TOWER_TEXT_BYTES];
    uint8_t old = image[place];
    image[place] = byte;
    bool is_told = tower_check_bytes(image, sizeof image - 1, &verdict) == status &&
                   tower_verdict_text(status, &verdict, text, sizeof text) == strlen(verdict_text) &&
                   strcmp(text, verdict_text) == 0;
    image[place] = old;
    return is_told;
}

static void damages(void) {
    struct tower_verdict verdict = {0};
    expect(tells(24, 4, TOWER_PROCESS_FAILS, "process 0 P5"), "a frame charged too many: process 0 fails P5");
    expect(tells(ROLES + 16 * 3 + 12, 2, TOWER_FRAME_FAILS, "frame 3 F4"),
           "a holder counted too many: frame 3 fails F4");
    expect(tells(MEMORY, 1, TOWER_FRAME_FAILS, "frame 0 F1"), "a byte in frame 0: it fails F1");
    expect(tells(0, 0, TOWER_NOT_IMAGE, "not an image"), "another first byte: no image");
    expect(tells(4, 3, TOWER_NOT_IMAGE, "unknown image version"), "version 3: not known");
    expect(tells(16, 64, TOWER_NOT_IMAGE, "bad field at byte 16"), "parent 64: a bad field at byte 16");
    expect(tells(16, image[16], TOWER_SOUND, "sound"), "and as it was it is sound");
    expect(tower_check_bytes(image, sizeof image - 2, &verdict) == TOWER_NOT_IMAGE &&
               verdict.clause == TOWER_FAULT_BAD_LENGTH,
           "a byte too few: another length");
    expect(tower_check_bytes(NULL, 0, &verdict) == TOWER_NOT_IMAGE && verdict.clause == TOWER_FAULT_NOT_IMAGE,
           "no byte: no image");
}

static bool is_named(const char *given, const char *name) {
    return strcmp(given, name) == 0;
}

static void names(void) {
    expect(is_named(tower_image_status_name(TOWER_IMAGE_TOO_SHORT), "TooShort") &&
               is_named(tower_image_status_name(TOWER_IMAGE_TOO_MANY_FRAMES), "TooManyFrames") &&
               is_named(tower_image_status_name(5), ""), "statuses have names");
    expect(is_named(tower_check_status_name(TOWER_FRAME_FAILS), "FrameFails") &&
               is_named(tower_check_status_name(6), ""), "those of a check too");
    expect(is_named(tower_image_fault_name(TOWER_FAULT_BAD_FIELD), "BadField") &&
               is_named(tower_image_fault_name(0), ""), "and what is wrong with bytes");
    expect(is_named(tower_clause_name(TOWER_PROCESS_FAILS, 7), "P7") &&
               is_named(tower_clause_name(TOWER_FRAME_FAILS, 5), "F5") &&
               is_named(tower_clause_name(TOWER_FRAME_FAILS, 6), "") && is_named(tower_clause_name(TOWER_SOUND, 1), ""),
           "and clauses");
}

/* The purpose of checking a core: something else writes where only the library may. */
static void is_overwritten(void) {
    struct tower_memory memory = {0};
    struct tower_verdict verdict = {0};
    expect(tower_memory(&tower, &memory), "the core's memory lies there");
    ((uint8_t *)memory.begins)[0] = 1;
    expect(tower_check(&tower, &verdict) == TOWER_FRAME_FAILS && verdict.number == 0 && verdict.clause == 1,
           "a byte that is written behind the library's back is told");
    ((uint8_t *)memory.begins)[0] = 0;
    expect(tower_check(&tower, &verdict) == TOWER_SOUND, "and put back the core is sound");
}

int main(void) {
    asks_without_a_core();
    boots();
    asks_for_the_length();
    writes();
    damages();
    names();
    is_overwritten();
    tower_free(&tower);
    return 0;
}
