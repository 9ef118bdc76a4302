/* The bare machine: serial text, ports, the way out, and the functions that the library imports. */
#ifndef MACHINE_H
#define MACHINE_H

#include "tower_region.h"

/* The bytes of a frame. FRAMES, how many a core has, is set by the Makefile. */
enum { FRAME = 4096 };

/* Writes text to the first serial port: %u decimal, %x hexadecimal of 8 digits, %c a byte, %s text. If several
 * processors work, only the owner of their lock calls this. */
void say(const char *text, ...);
/* Writes one byte into the file of QEMU's debug port. */
void put_raw(uint8_t byte);
/* Ends QEMU. The status is 0 if all is well. */
_Noreturn void leave(uint8_t status);
/* Ends the run with that text. If several processors fail, the first one does. */
_Noreturn void fail(const char *what);
/* Ends the run with that text if `holds` is false. */
void need(bool holds, const char *what);

void out8(uint16_t port, uint8_t value);
void out16(uint16_t port, uint16_t value);
uint8_t in8(uint16_t port);
uint64_t read_msr(uint32_t msr);
void write_msr(uint32_t msr, uint64_t value);

/* Boots a core over a block of its own, or ends the run with the reason why there is none. */
void boot(struct tower *tower);

/* Where a core's memory lies, from tower_memory: where its block does, at a page. */
uint8_t *memory_of(struct tower *tower);

void *memset(void *to, int byte, size_t count);
void *memmove(void *to, const void *from, size_t count);

#endif
