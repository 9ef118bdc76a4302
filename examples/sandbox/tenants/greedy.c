/* Requests more than its quota: by calls first, which are refused with the cause, and then by stores, at which it ends. */
#include "tenant.h"

void tenant(uint32_t self, uint32_t argument) {
    (void)self, (void)argument;
    uint32_t page = 0x60000;
    struct answer reply;
    while ((reply = map(page, true)).kind == TOWER_DONE) {
        page++;
    }
    tell("pages mapped: #", page - 0x60000);
    tell_reply("the next: ", reply);
    tell_reply("quota, used, given: ", quota());
    tell_reply("unmap one: ", unmap(0x60000));
    tell_reply("a spawn: ", ask(TOWER_SPAWN, 0, 2, 0, 0));
    *(volatile uint32_t *)0x60000000 = 1;
    tell("a store there, where it was unmapped: done", 0);
    for (volatile uint8_t *at = (uint8_t *)0x70000000;; at += 4096) {
        *at = 1;
    }
}
