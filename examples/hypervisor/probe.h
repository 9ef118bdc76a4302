/* A guest that makes one access, or one instruction, and calls: each processor has one. */
#ifndef PROBE_H
#define PROBE_H

#include "svm.h"

/* Its accesses, each followed by a VMMCALL, by their places in the code. The address is in ECX, the value in EAX. */
extern const uint8_t stub[], stub_end[];
enum { LOAD4 = 0, LOAD1 = 8, STORE4 = 16, STORE1 = 24, ADD4 = 32 };
enum { STUB_PAGE = 0x40000, STUB_AT = STUB_PAGE << 12 };

/* Returns the next number below a limit. Each processor has a generator of its own, with a fixed seed. */
uint32_t random(uint32_t limit);

/* Opens the probe over a directory, at an entry of the code. */
void open_probe(uint32_t directory, uint32_t entry, uint32_t address, uint32_t value);
/* Runs the probe under an identifier until an exit that is no interrupt, and returns the exit's code. */
uint64_t run_probe(uint32_t identifier);
struct guest_cpu *probe(void);

#endif
