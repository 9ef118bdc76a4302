/* The kernel's check of its shadow tables against the core. It reads the tables as a processor does, from a root on,
 * and ends the run if it finds anything wrong. All functions are called with the lock. */
#ifndef AUDIT_H
#define AUDIT_H

#include <stdint.h>

/* Checks each entry of a process: the core's walk gives that frame, and allows a write if the entry does; the page of
 * an entry that allows a write is dirty; a process that is gone has no entry. Returns how many entries there are. */
uint32_t audit_process(uint32_t pid);

/* Checks all processes, and that no process may use an entry of the kernel's half. Returns how many entries there are.
 * */
uint32_t audit_all(void);

/* Checks that no process may use an entry of the kernel's half, below one root. */
void audit_kernel_half(uint64_t root);

#endif
