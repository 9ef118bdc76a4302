/* The calls of a tenant, by int 0x80: the machine's thirteen, by their numbers of tower.h, and these. EAX has the call;
 * EBX, ECX, EDX and ESI the event's flag, first, second and third. EAX then has the reply's kind, ECX, EDX and ESI its
 * numbers, and EBX its bools: write 1, may 2, accessed 4, dirty 8. A fork returns Child to the parent and Done to the
 * child. */
#pragma once

enum {
    CALL_YIELD = 16,     /* ends the turn */
    CALL_WRITE = 17,     /* ECX address, EDX bytes, at most 4,096: text for the tenant's output */
    CALL_OFFERED = 18,   /* ECX giver, EDX page: the first offer to the caller from there on, as Child, page and right */
    CALL_END = 19,       /* ECX child: ends a child of the caller, with all that descend from it */
    CALL_TAKE_BACK = 20, /* ECX page: takes it back from all others, if each of them descends from the caller */
    CALLS_END,
};

/* A call by int 0x80 is a signal. Without one it is a far jump to here, to segment 33, with the address to return to in EDI. */
enum { GATE = 0x20000000 };

/* A program begins with EAX its process, EBX its argument and ESP STACK_TOP. Its stack is in one region with it. */
enum { STACK_TOP = 0x40400000 };
