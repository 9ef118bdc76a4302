/* The kernel's core, where its frames are, and its shadow tables. */
#ifndef CORE_H
#define CORE_H

#include "machine.h"
#include "tower_shadow.h"

/* All calls for them come with the lock. */
extern struct tower core;
extern struct tower_shadow shadow;

/* Boots the core, over a block of the kernel's image. */
void open_core(void);
/* The physical address of its frame 0. */
uint64_t core_physical(void);

/* Returns the root of a process, for CR3; 0 if it has none. It has one from its first fill until it is forgotten. */
uint64_t shadow_root(uint32_t pid);

/* Checks the core with the library's own check, and ends the run if that finds something. */
void check_core(void);

#endif
