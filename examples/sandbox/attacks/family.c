/* As many children as the argument says, each with a child, that wait for ever. */
#include "tenant.h"

void tenant(uint32_t self, uint32_t argument) {
    (void)self;
    for (uint32_t i = 0; i < argument; i++) {
        if (fork(20) == 0) {
            fork(8);
            for (;;) {
                yield();
            }
        }
    }
    leave();
}
