/* A loop without end and without a call. */
#include "tenant.h"

void tenant(uint32_t self, uint32_t argument) {
    (void)self, (void)argument;
    tell("I never end", 0);
    for (volatile uint32_t i = 0;; i++) {
    }
}
