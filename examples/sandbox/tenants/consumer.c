/* Accepts the first page that it is offered, and takes the words that are put there. */
#include "ring.h"
#include "tenant.h"

enum { AT = 0x50000000 };

void tenant(uint32_t self, uint32_t argument) {
    (void)self, (void)argument;
    struct ring *ring = (struct ring *)AT;
    struct answer found;
    uint32_t sum = 0;
    while ((found = offered(0, 0)).kind != TOWER_CHILD) {
        yield();
    }
    tell_reply("accept: ", accept(found.first, found.second, page_of(ring)));
    tell_reply("the shared page: ", info(page_of(ring)));
    for (uint32_t i = 0; i < RING_COUNT; i++) {
        while (ring->head == ring->tail) {
            yield();
        }
        sum += ring->words[i % RING_WORDS];
        ring->tail = i + 1;
    }
    tell("took words with the sum $", sum);
}
