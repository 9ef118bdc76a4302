/* A call without a signal. 32-bit code jumps to 64-bit code on a page at GATE, by CS 33, with the address to return to in EDI.
 * The flags are lost, and EDI. */
#pragma once

#include <stdbool.h>

#include "../channel.h"

/* What the tenant has while it is behind the gate: all others of its registers are still its own. */
struct gate_state {
    struct words words;
    uint32_t eip, esp, ebp;
};
extern struct gate_state gate_state;
extern uint16_t gate_fs; /* the tenant's selector */

/* Maps the page. */
void gate_open(uint64_t own_base);
/* What the gate's code calls: makes the call, by general registers alone. */
void gate_call(void);
