#include "translations.h"
#include "machine.h"

/* No identifier is left: forgets all, also what is cached under released identifiers. */
static void begin_anew(struct translations *it) {
    memset(it->identifiers, 0, sizeof it->identifiers);
    it->last = 0;
    it->forget_all();
    it->all++;
}

uint32_t identifier_of(struct translations *it, uint32_t pid) {
    if (it->identifiers[pid] == 0) {
        if (it->last == it->most) {
            begin_anew(it);
        }
        it->identifiers[pid] = ++it->last;
    }
    return it->identifiers[pid];
}

bool give_up(struct translations *it, uint32_t pid) {
    bool had_one = it->identifiers[pid] != 0;
    it->identifiers[pid] = 0;
    return had_one;
}

/* A process without an identifier has run on no processor of the book since the last flush of all: nothing of it is
 * cached. */
static void invalidate_page(struct translations *it, uint32_t pid, uint32_t page) {
    if (it->identifiers[pid]) {
        it->forget_page(it->identifiers[pid], page);
        it->pages++;
    }
}

void invalidate(struct translations *it, struct tower_ended ended) {
    switch (ended.kind) {
    case TOWER_ENDS_PAGES:
        invalidate_page(it, ended.pid, ended.second);
        /* fall through */
    case TOWER_ENDS_PAGE:
        invalidate_page(it, ended.pid, ended.first);
        break;
    case TOWER_ENDS_SPACE:
        it->spaces += give_up(it, ended.pid);
    }
}

void invalidate_written(struct translations *it, uint32_t pid, uint32_t address, uint32_t count) {
    for (uint32_t page = address >> 12; page <= (address + count) >> 12; page++) {
        invalidate_page(it, pid, page);
    }
}
