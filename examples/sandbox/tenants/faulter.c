/* As many page faults as the argument says, on pages that it then unmaps, 64 at a time: for a measurement. */
#include "tenant.h"

void tenant(uint32_t self, uint32_t argument) {
    (void)self;
    enum { AT = 0x50000000, PAGES = 64 };
    uint32_t faults = 0;
    while (faults < argument) {
        for (uint32_t i = 0; i < PAGES; i++, faults++) {
            *(volatile uint32_t *)(AT + i * 4096) = i;
        }
        for (uint32_t i = 0; i < PAGES; i++) {
            unmap(page_of((void *)AT) + i);
        }
    }
    tell("faults: #", faults);
}
