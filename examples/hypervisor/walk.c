#include "walk.h"
#include "machine.h"

static struct walk fault(struct walk it, bool write, bool present) {
    it.kind = WALK_FAULT;
    it.code = 4u | (write ? 2 : 0) | (present ? 1 : 0);
    return it;
}

static struct walk outside(struct walk it, uint32_t word, uint32_t place) {
    it.kind = WALK_OUTSIDE;
    it.beyond = (word & 0xfffff000) + place;
    return it;
}

struct walk walk_by(uint8_t *memory, uint32_t frames, uint32_t word, uint32_t address, bool write) {
    struct walk it = {.kind = WALK_FOUND};
    uint32_t index = address >> 12 & 1023;
    if (!(word & PRESENT)) {
        return fault(it, write, false);
    }
    if (word >> 12 >= frames) {
        return outside(it, word, 4 * index);
    }
    it.table_word = (uint32_t *)(memory + (size_t)(word >> 12) * FRAME) + index;
    uint32_t last = *it.table_word;
    if (!(last & PRESENT)) {
        return fault(it, write, false);
    }
    if (!(word & last & USER) || (write && !(word & last & WRITE))) {
        return fault(it, write, true);
    }
    it.frame = last >> 12;
    return it.frame < frames ? it : outside(it, last, address & 4095);
}

struct walk walk_of(uint8_t *memory, uint32_t frames, uint32_t directory, uint32_t address, bool write) {
    uint32_t *word = (uint32_t *)(memory + (size_t)directory * FRAME) + (address >> 22);
    struct walk it = walk_by(memory, frames, *word, address, write);
    it.directory_word = word;
    return it;
}
