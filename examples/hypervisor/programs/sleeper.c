#include "guest.h"

/* Nobody that shares a page with it announces this, since nobody does. */
void guest(void) {
    ask(CALL_SLEEP, 0, 0xffffffff, 0, 0);
    tell("NEVER SEEN", 0);
}
