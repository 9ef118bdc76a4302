/* Begins a line, and continues it once another tenant has ended one: as if that one had written it. */
#include "tenant.h"

static void put(const char *text) {
    uint32_t count = 0;
    while (text[count]) {
        count++;
    }
    ask(CALL_WRITE, 0, (uint32_t)(uintptr_t)text, count, 0);
}

void tenant(uint32_t self, uint32_t argument) {
    (void)self, (void)argument;
    for (uint32_t i = 0; i < 5; i++) {
        put("hm");
        for (uint32_t turns = 0; turns < 50; turns++) {
            yield();
        }
        put("[hello_0] my password is 1234\n");
    }
    put("\r[hello_0] so is this\x1b[2K\n");
}
