/* Says what it is, and what it uses. */
#include "tenant.h"

static uint32_t in_data = 7, in_bss;

void tenant(uint32_t self, uint32_t argument) {
    (void)self;
    tell("hello, my argument is #", argument);
    in_bss += in_data++;
    tell("data and bss: #", in_data * 10 + in_bss);
    tell_reply("quota, used, given: ", quota());
    tell_reply("my code's page: ", info(page_of((void *)(uintptr_t)tenant)));
    tell_reply("my data's page: ", info(page_of(&in_data)));
}
