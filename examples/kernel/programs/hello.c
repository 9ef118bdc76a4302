#include "program.h"

uint32_t program(uint32_t number) {
    tell("hello, from ring 3; my number is #", number);
    tell_reply("a call with no such number: ", ask(99, 0, 0, 0, 0));
    tell_reply("a map of a page of 33 bits: ", ask(TOWER_MAP, 1, (uint64_t)1 << 32 | 0x50000, 0, 0));
    tell_reply("a load as a call: ", ask(TOWER_LOAD, 4, 0x40000000, 0, 0));
    tell_reply("text at no address of mine: ", ask(CALL_WRITE, 0, 0x1000, 10, 0));
    return 0;
}
