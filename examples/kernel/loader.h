/* The programs of the kernel's image: ELF files of 64 bits, without an interpreter. */
#ifndef LOADER_H
#define LOADER_H

#include "core.h"

/* Loads a program into a process that never ran. Returns the reply of the load that was refused, or Done; `entry` is
 * then where the program begins. */
struct tower_reply load_program(uint32_t program, uint32_t pid, uint64_t *entry);

/* The name of a program. */
const char *program_name(uint32_t program);

#endif
