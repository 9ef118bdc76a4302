/* As many calls as the argument says, and nothing else: for a measurement. */
#include "tenant.h"

void tenant(uint32_t self, uint32_t argument) {
    (void)self;
    for (uint32_t i = 0; i < argument; i++) {
        quota();
    }
    tell("calls: #", argument);
}
