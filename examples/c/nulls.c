/* NULL with a count of 0, for each function that takes a slice. The linker has each of these functions call one of this
 * file first (--wrap), which checks that no null pointer reaches the archive. It ends with status 0 if all goes as
 * expected, and otherwise prints the line of what does not. */
#include <stdio.h>

#include "expect.h"
#include "tower_images.h"
#include "tower_threads.h"

enum { FRAMES = 16 };

static unsigned calls, nulls;

/* Notes whether a pointer is null. */
static void note(const void *pointer) {
    nulls += pointer == NULL;
}

/* Defines what the linker calls in place of a function: it notes the pointers of slices, and calls the function. */
#define WRAP(type, name, taken, given, notes)                                                                         \
    type __real_##name taken;                                                                                         \
    type __wrap_##name taken;                                                                                         \
    type __wrap_##name taken {                                                                                        \
        calls++;                                                                                                      \
        notes;                                                                                                        \
        return __real_##name given;                                                                                   \
    }

WRAP(bool, tower_run,
     (struct tower *tower, const struct tower_event *events, size_t events_count, struct tower_reply *replies,
      size_t count),
     (tower, events, events_count, replies, count), (note(events), note(replies)))
WRAP(bool, tower_run_until,
     (struct tower *tower, const struct tower_event *events, size_t events_count, struct tower_reply *replies,
      size_t count, size_t *carried),
     (tower, events, events_count, replies, count, carried), (note(events), note(replies)))
WRAP(bool, tower_read,
     (struct tower *tower, uint32_t pid, uint32_t address, uint8_t *bytes, size_t count, size_t *moved,
      struct tower_reply *stop),
     (tower, pid, address, bytes, count, moved, stop), note(bytes))
WRAP(bool, tower_write,
     (struct tower *tower, uint32_t pid, uint32_t address, const uint8_t *bytes, size_t count, size_t *moved,
      struct tower_reply *stop),
     (tower, pid, address, bytes, count, moved, stop), note(bytes))
WRAP(bool, tower_peek,
     (const struct tower *tower, uint32_t pid, uint32_t address, uint8_t *bytes, size_t count, size_t *moved),
     (tower, pid, address, bytes, count, moved), note(bytes))
WRAP(bool, tower_take_back,
     (struct tower *tower, uint32_t pid, uint32_t page, struct tower_holder *lost, size_t places, size_t *count,
      struct tower_reply *told),
     (tower, pid, page, lost, places, count, told), note(lost))
WRAP(bool, tower_load_bytes,
     (struct tower *tower, uint32_t pid, uint32_t address, const uint8_t *bytes, size_t count, bool write,
      struct tower_reply *told),
     (tower, pid, address, bytes, count, write, told), note(bytes))
WRAP(bool, tower_copy_frame, (const struct tower *tower, uint32_t frame, uint8_t *bytes, size_t count),
     (tower, frame, bytes, count), note(bytes))
WRAP(uint32_t, tower_image, (const struct tower *tower, uint8_t *bytes, size_t count, size_t *size),
     (tower, bytes, count, size), note(bytes))
WRAP(uint32_t, tower_check_bytes, (const uint8_t *bytes, size_t count, struct tower_verdict *verdict),
     (bytes, count, verdict), note(bytes))
WRAP(uint32_t, tower_restore,
     (const uint8_t *bytes, size_t count, struct tower *tower, struct tower_verdict *verdict),
     (bytes, count, tower, verdict), note(bytes))

WRAP(uint32_t, tower_store_front, (const struct tower *tower, uint8_t *bytes, size_t count, size_t *size),
     (tower, bytes, count, size), note(bytes))
WRAP(uint32_t, tower_store_frame, (const struct tower *tower, uint32_t frame, uint8_t *bytes, size_t count),
     (tower, frame, bytes, count), note(bytes))
WRAP(uint32_t, tower_check_whole, (const uint8_t *bytes, size_t count, struct tower_verdict *verdict),
     (bytes, count, verdict), note(bytes))
WRAP(uint32_t, tower_restore_whole,
     (const uint8_t *bytes, size_t count, struct tower *tower, struct tower_verdict *verdict),
     (bytes, count, tower, verdict), note(bytes))

WRAP(uint32_t, tower_share,
     (struct tower *tower, struct tower_cpu *cpus, size_t cpu_count, struct tower_monitor *monitors, size_t count),
     (tower, cpus, cpu_count, monitors, count), (note(cpus), note(monitors)))
WRAP(uint32_t, tower_monitor_read,
     (struct tower_monitor *monitor, uint64_t *gives, struct tower_row *rows, size_t count),
     (monitor, gives, rows, count), note(rows))

/* A core that is shared with no CPU, or with no monitor; and a report of which no row is read. */
static void shares(struct tower *tower) {
    struct tower_cpu cpu = TOWER_NONE;
    struct tower_monitor monitor = TOWER_NONE;
    uint64_t gives = 99;
    EXPECT(tower_share(tower, NULL, 0, NULL, 0) == TOWER_SHARE_BAD_COUNT && tower->live);
    EXPECT(tower_share(tower, &cpu, 1, &monitor, 1) == TOWER_SHARED && !tower->live);
    EXPECT(tower_monitor_read(&monitor, &gives, NULL, 0) == TOWER_CPU_DONE && gives == 0);
    EXPECT(tower_cpu_take(&cpu, tower) == TOWER_CPU_DONE && tower_cpu_close(&cpu) == TOWER_CPU_DONE);
    tower_cpu_free(&cpu);
    tower_monitor_free(&monitor);
}

int main(void) {
    static struct tower tower, other;
    struct tower_reply reply = {0}, stop = {.kind = 99};
    struct tower_event quota = tower_quota(0);
    struct tower_verdict verdict = {7, 7};
    size_t count = 99, size = 0;
    EXPECT(tower_boot(FRAMES, &tower) == TOWER_BOOTED);
    EXPECT(tower_run(&tower, NULL, 0, NULL, 0));
    EXPECT(!tower_run(&tower, &quota, 1, NULL, 0) && !tower_run(&tower, NULL, 0, &reply, 1));
    EXPECT(tower_run_until(&tower, NULL, 0, NULL, 0, &count) && count == 0);
    EXPECT(tower_read(&tower, 0, 0, NULL, 0, &count, &stop) && count == 0 && stop.kind == TOWER_DONE);
    EXPECT(tower_write(&tower, 0, 0, NULL, 0, &count, &stop) && count == 0 && stop.kind == TOWER_DONE);
    EXPECT(tower_write(&tower, 64, 0, NULL, 0, &count, &stop) && count == 0 && stop.kind == TOWER_NO_EVENT);
    EXPECT(tower_peek(&tower, 0, 0, NULL, 0, &count) && count == 0);
    EXPECT(tower_take_back(&tower, 0, 0, NULL, 0, &count, &stop) && count == 0 && stop.first == TOWER_BAD_PAGE);
    EXPECT(tower_load_bytes(&tower, 0, 0, NULL, 0, true, &stop) && stop.kind == TOWER_DONE);
    EXPECT(!tower_copy_frame(&tower, 0, NULL, 0));
    EXPECT(tower_image(&tower, NULL, 0, &size) == TOWER_IMAGE_TOO_SHORT && size == TOWER_IMAGE_LENGTH(FRAMES));
    EXPECT(tower_check_bytes(NULL, 0, &verdict) == TOWER_NOT_IMAGE && verdict.clause == TOWER_FAULT_NOT_IMAGE);
    EXPECT(tower_restore(NULL, 0, &other, &verdict) == TOWER_NOT_IMAGE && !other.live);
    EXPECT(tower_store_front(&tower, NULL, 0, &size) == TOWER_STORE_TOO_SHORT && size == 1556);
    EXPECT(tower_store_frame(&tower, 0, NULL, 0) == TOWER_STORE_TOO_SHORT);
    EXPECT(tower_check_whole(NULL, 0, &verdict) == TOWER_NOT_IMAGE && verdict.clause == TOWER_FAULT_NOT_IMAGE);
    EXPECT(tower_restore_whole(NULL, 0, &other, &verdict) == TOWER_NOT_IMAGE && !other.live);
    EXPECT(tower_run(&tower, &quota, 1, &reply, 1) && reply.kind == TOWER_USAGE && reply.second == 1);
    shares(&tower);
    EXPECT(calls == 22 && nulls == 0);
    tower_free(&tower);
    puts("nulls: NULL with a count of 0 reaches no function of the archives");
    return 0;
}
