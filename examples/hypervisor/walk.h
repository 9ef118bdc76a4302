/* The walk of docs/MACHINE.md, in user mode, over a memory of n frames. */
#ifndef WALK_H
#define WALK_H

#include "tower.h"

enum { PRESENT = 1, WRITE = 2, USER = 4, ACCESSED = 0x20, DIRTY = 0x40, LAZY = 0x400 };

enum walked { WALK_OUTSIDE, WALK_FAULT, WALK_FOUND };

struct walk {
    enum walked kind;
    uint32_t code;   /* of a fault */
    uint32_t frame;  /* that it finds */
    uint32_t beyond; /* where it leaves memory: the address in the guest's memory */
    uint32_t *directory_word; /* of a walk from a directory */
    uint32_t *table_word;     /* null if the walk ends before it */
};

/* Walk from a directory's word, and from a directory. */
struct walk walk_by(uint8_t *memory, uint32_t frames, uint32_t word, uint32_t address, bool write);
struct walk walk_of(uint8_t *memory, uint32_t frames, uint32_t directory, uint32_t address, bool write);

#endif
