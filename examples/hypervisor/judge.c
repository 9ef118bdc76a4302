/* judge IMAGES NAME...: takes the snapshots that the hypervisor wrote into one file, in sequence, and resumes a core of
 * each. It says what each has, or what is wrong with it, and whether that core's snapshot is the same. A name `-` is only
 * checked. */
#include <stdio.h>
#include <stdlib.h>
#include <string.h>

#include "tower_images.h"

static uint8_t *bytes;
static size_t count;

static void need(bool holds, const char *what) {
    if (!holds) {
        fprintf(stderr, "judge: %s\n", what);
        exit(1);
    }
}

static void read_all(const char *name) {
    size_t room = 1 << 20, more;
    FILE *file = fopen(name, "rb");
    need(file && (bytes = malloc(room)), "can't read the snapshots");
    while ((more = fread(bytes + count, 1, room - count, file)) > 0) {
        count += more;
        if (count == room) {
            need((bytes = realloc(bytes, room *= 2)) != NULL, "no memory for the snapshots");
        }
    }
    fclose(file);
}

static uint32_t word(const uint8_t *at) {
    return (uint32_t)at[0] | (uint32_t)at[1] << 8 | (uint32_t)at[2] << 16 | (uint32_t)at[3] << 24;
}

/* Whether the core's snapshot, piece by piece, has these bytes. */
static bool is_image(const struct tower *tower, const uint8_t *image, size_t length) {
    uint8_t *own = malloc(length + TOWER_RECORD_BYTES);
    size_t size = 0;
    need(own != NULL, "no memory for a snapshot");
    bool is_whole = tower_store_front(tower, own, length, &size) == TOWER_STORED;
    for (uint32_t frame = 0; is_whole && frame < tower_frames(tower); frame++) {
        uint32_t status = tower_store_frame(tower, frame, own + size, length + TOWER_RECORD_BYTES - size);
        size += status == TOWER_STORED ? TOWER_RECORD_BYTES : 0;
        is_whole = size <= length && (status == TOWER_STORED || status == TOWER_STORE_FREE_FRAME);
    }
    is_whole = is_whole && size == length && memcmp(own, image, length) == 0;
    free(own);
    return is_whole;
}

static void judge(const char *name, const uint8_t *image, size_t length) {
    struct tower tower = TOWER_NONE;
    struct tower_verdict verdict = {0};
    char text[TOWER_TEXT_BYTES];
    uint32_t status = tower_check_whole(image, length, &verdict);
    tower_verdict_text(status, &verdict, text, sizeof text);
    need(*text, tower_check_status_name(status));
    if (strcmp(name, "-") != 0) {
        printf("%s: %s, frames in use: %u, offers: %u\n", name, text, word(image + 1552), word(image + 1548));
    }
    need(status == TOWER_SOUND, text);
    need(tower_restore_whole(image, length, &tower, &verdict) == TOWER_RESTORED, "it isn't resumed");
    need(is_image(&tower, image, length), "the resumed core has another snapshot");
    tower_free(&tower);
}

int main(int words, char **names) {
    size_t at = 0;
    need(words > 1, "wants a file");
    read_all(names[1]);
    for (int i = 2; i < words; i++) {
        need(count - at >= TOWER_FRONT_LENGTH(0), "there are fewer snapshots");
        uint32_t offers = word(bytes + at + 1548), frames = word(bytes + at + 1552);
        size_t length = TOWER_FRONT_LENGTH(offers) + (size_t)TOWER_RECORD_BYTES * frames;
        need(length <= count - at, "a snapshot is cut");
        judge(names[i], bytes + at, length);
        at += length;
    }
    need(at == count, "there are more snapshots");
    free(bytes);
    return 0;
}
