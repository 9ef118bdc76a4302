/* Where physical memory and devices are: the hypervisor maps them at their own addresses. */
#ifndef PLACE_H
#define PLACE_H

#include <stdint.h>

static inline void *at_physical(uint64_t address) {
    return (void *)address;
}

#endif
