/* The calls that a process makes with INT 0x80: the core's calls except Load and Store, with their numbers of tower.h,
 * and these. RAX has the call; RDI, RSI, RDX and R10 the event's flag, first, second and third. RAX then has the
 * reply's kind, RSI, RDX and R10 its numbers, and RDI its bools: write 1, may 2, accessed 4, dirty 8. A number that
 * needs more than 32 bits makes it no event. */
#ifndef CALLS_H
#define CALLS_H

enum {
    CALL_YIELD = 16,
    CALL_WRITE = 17,    /* RSI address, RDX bytes: a line of text */
    CALL_START = 18,    /* RSI program, RDX a child of the caller that runs nothing, R10 a number for the program */
    CALL_WAIT = 19,     /* waits for the end of a child; Child: the process, how it ended, and the number of that */
    CALL_SELF = 20,     /* Value: the caller's process, and its parent */
    CALL_THREAD = 21,     /* RSI a function, RDX a stack's end, R10 a number for it: another thread begins there */
    CALL_END_THREAD = 22, /* ends the calling thread, unless it is the last one */
    CALL_END_CHILD = 23,  /* RSI a child of the caller: ends it, with all that descend from it */
    CALL_SHUT_DOWN = 24 /* RSI how much was wrong: ends the run, once no other process is left; of process 0 only */
};

/* An Exit has a status in RSI, which is for the parent. A Fork returns Child 0 to the child. */

/* How a process ended, and the number of that. */
enum how {
    ENDED_EXIT,      /* status */
    ENDED_FAULT,     /* the fault's code, as x86 has it */
    ENDED_REFUSED,   /* cause: it accessed a page that the core refused */
    ENDED_EXCEPTION, /* vector */
    ENDED_BY_PARENT, /* 0 */
    HOWS
};

enum { PROGRAM_AT = 0x40000000, STACK_TOP = 0x40100000 };

/* The number of the first program: all programs run, or those of a trial. With any other only hostile programs run,
 * which differ with it. */
enum trial { TRIAL_OF_ALL = 0, TRIAL_OF_TURNS = 1001 };

enum program {
    PROGRAM_INIT,
    PROGRAM_HELLO,
    PROGRAM_TREE,
    PROGRAM_GIVER,
    PROGRAM_TAKER,
    PROGRAM_STRAY,
    PROGRAM_GREEDY,
    PROGRAM_SPINNER,
    PROGRAM_PARENT,
    PROGRAM_STRESS,
    PROGRAM_TEAM,
    PROGRAM_FAMILY,
    PROGRAM_HOSTILE,
    PROGRAM_NEIGHBOR,
    PROGRAM_WIDE,
    PROGRAMS
};

#endif
