/* The calls that a guest makes with VMMCALL: the core's calls except Load and Store, with their numbers of tower.h, and
 * these. EAX has the call; EBX, ECX, EDX and ESI the event's flag, first, second and third. EAX then has the reply's
 * kind, ECX, EDX and ESI its numbers, and EBX its bools: write 1, may 2, accessed 4, dirty 8. */
enum {
    CALL_YIELD = 16,
    CALL_WRITE = 17, /* ECX address, EDX bytes: a line of text; 20 of a child of the first process with all that descend from it */
    CALL_START = 18, /* ECX program, EDX a child of the caller: stores the program there, and lets it run */
    CALL_WAIT = 19,  /* returns Value: how many other guests run, after a turn of each */
    CALL_EXITS = 20, /* returns Value: how often this guest left the processor */
    CALL_IMAGE = 21, /* writes the core's image for the host, 4 times for all guests */
    CALL_END = 22,   /* this guest runs no more; its process stays */
    CALL_SLEEP = 23, /* ECX a number: no turn until that number or a higher one is announced to this guest */
    CALL_TELL = 24,  /* ECX a number: announces it to all guests that share a page with this one */
};

enum { PROGRAM_AT = 0x40000000, STACK_TOP = 0x40010000 };

enum {
    PROGRAM_INIT,
    PROGRAM_GIVER,
    PROGRAM_TAKER,
    PROGRAM_READER,
    PROGRAM_STRAY,
    PROGRAM_GREEDY,
    PROGRAM_SPINNER,
    PROGRAM_CODE,
    PROGRAM_PORT,
    PROGRAM_CROWD, /* begins those that run concurrently, in place of init */
    PROGRAM_BORROWER,
    PROGRAM_COUNTER,
    PROGRAM_RUDE, /* begins those that are rude, in place of init */
    PROGRAM_SLEEPER,
    PROGRAM_FORGER,
    PROGRAMS,
};
