/* Where things are. The kernel's half of each address space is the upper one. It has all of the machine's memory, and
 * its devices, from DIRECT_AT on, and the kernel's own image again from IMAGE_AT on, where it is linked. boot.S and
 * link.ld have the same numbers. */
#ifndef PLACE_H
#define PLACE_H

#include <stdint.h>

#define DIRECT_AT 0xffff800000000000u
#define IMAGE_AT 0xffffffff80000000u

static inline void *at_physical(uint64_t address) {
    return (void *)(DIRECT_AT + address);
}

/* Of an object of the kernel's image. */
static inline uint64_t physical_of(const void *object) {
    return (uint64_t)object - IMAGE_AT;
}

#endif
