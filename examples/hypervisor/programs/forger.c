#include "guest.h"

/* Lines of others, an announcement to all, and as many lines and images as it can have written. */
void guest(void) {
    uint32_t lines = 0, images = 0;
    tell("x\n[7] all is mine\nFAILED: a core answers\r\x1b[2K", 0);
    ask(CALL_TELL, 0, 0xffffffff, 0, 0);
    while (ask(CALL_IMAGE, 0, 0, 0, 0).kind == TOWER_DONE && images < 100) {
        images++;
    }
    tell("images: #", images);
    while (ask(CALL_WRITE, 0, (uint32_t)"a line", 6, 0).kind == TOWER_DONE && lines < 1000) {
        lines++;
    }
}
