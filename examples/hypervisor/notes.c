#include "notes.h"

#include "compare.h"
#include "machine.h"
#include "processors.h"

enum { MOST_NOTES = 300000 };

static struct note notes[MOST_NOTES];
static _Atomic uint32_t noted;
static uint32_t begun[MOST_PROCESSORS];

void open_notes(void) {
    noted = 0;
    memset(begun, 0, sizeof begun);
}

void begin_note(struct note *it) {
    it->processor = this_processor();
    it->number = ++begun[it->processor];
}

void note(const struct note *it) {
    uint32_t at = noted++;
    need(at < MOST_NOTES, "there is room for all notes");
    notes[at] = *it;
}

struct note access_note(uint32_t pid, struct tower_event event, uint32_t value) {
    bool is_store = event.call == TOWER_STORE;
    event.pid = (uint8_t)pid;
    struct tower_reply reply = {.kind = is_store ? TOWER_DONE : TOWER_VALUE, .first = is_store ? 0 : value};
    return (struct note){.event = event, .reply = reply, .is_access = true};
}

/* Returns whether a note comes after those of its processor that began before it. */
static bool keeps_order(const struct note *it, uint32_t *last) {
    bool keeps = it->number == 0 || it->number > last[it->processor];
    last[it->processor] = it->number ? it->number : last[it->processor];
    return keeps;
}

uint32_t tell_second(struct tower *second) {
    uint32_t accesses = 0, last[MOST_PROCESSORS] = {0};
    for (const struct note *it = notes; it < notes + noted; it++) {
        struct tower_reply reply = {0};
        need(keeps_order(it, last), "a processor's events and accesses come in their order");
        need(tower_step(second, &it->event, &reply), "a core answers");
        if (!same_replies(reply, it->reply)) {
            say("note %u: process %u, call %u, %x: kind %u, %x, and kind %u, %x\n", (uint32_t)(it - notes),
                it->event.pid, it->event.call, it->event.first, it->reply.kind, it->reply.first, reply.kind,
                reply.first);
            fail("the second core answers each call and access alike");
        }
        accesses += it->is_access;
    }
    return accesses;
}
