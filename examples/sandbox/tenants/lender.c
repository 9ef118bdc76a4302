/* Lends a page to its child and takes it back, and ends the child in its loop. */
#include "tenant.h"

static volatile uint32_t page[1024] __attribute__((aligned(4096)));
enum { AT = 0x51000 };

static void child_runs(uint32_t parent) {
    volatile uint32_t *lent = (volatile uint32_t *)(AT << 12);
    while (accept(parent, page_of(page), AT).kind != TOWER_DONE) {
        yield();
    }
    tell_reply("the child takes the page back from its parent: ", take_back(AT));
    lent[1] = lent[0] + 1;
    while (lent[1]) {
        yield(); /* until the page is another one, of zeros */
    }
    tell_reply("the child's page, once it was taken back: ", info(AT));
    if (fork(14) == 0) {
        tell("the grandchild runs", 0);
        offer(page_of(page), parent, false);
    }
    for (;;) {
    }
}

void tenant(uint32_t self, uint32_t argument) {
    (void)argument;
    page[0] = 41;
    uint32_t child = fork(32);
    if (child == 0) {
        child_runs(self);
    }
    offer(page_of(page), child, true);
    while (page[1] != 42) {
        yield();
    }
    tell_reply("the page that is lent: ", info(page_of(page)));
    tell_reply("it is taken back: ", take_back(page_of(page)));
    tell_reply("the page: ", info(page_of(page)));
    while (offered(0, 0).kind != TOWER_CHILD) {
        yield(); /* until the grandchild runs */
    }
    tell_reply("it ends another process: ", end(self));
    tell_reply("it ends its child: ", end(child));
    tell_reply("quota, used, given: ", quota());
}
