#include "guest.h"

void guest(void) {
    begin(PROGRAM_SLEEPER, 5);
    begin(PROGRAM_FORGER, 6);
    while (ask(CALL_WAIT, 0, 0, 0, 0).first > 1) {
    }
    tell("only the sleeper is left", 0);
    ask(CALL_SLEEP, 0, 7, 0, 0);
    tell("NEVER SEEN", 0);
}
