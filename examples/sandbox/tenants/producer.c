/* Offers a page to the process that the argument names, and puts 100,000 words into it. */
#include "ring.h"
#include "tenant.h"

static uint8_t page[4096] __attribute__((aligned(4096)));

void tenant(uint32_t self, uint32_t argument) {
    struct ring *ring = (struct ring *)page;
    uint32_t sum = 0;
    ring->head = ring->tail = 0;
    tell_reply("an offer to itself: ", offer(page_of(page), self, true));
    /* (nobody accepts for process 0, so the replies don't depend on turns) */
    tell_reply("an offer to process 0: ", offer(page_of(page), 0, true));
    tell_reply("the offer again: ", offer(page_of(page), 0, true));
    tell_reply("it is withdrawn: ", withdraw(page_of(page), 0));
    tell_reply("an offer: ", offer(page_of(page), argument, true));
    for (uint32_t i = 0; i < RING_COUNT; i++) {
        while (ring->head - ring->tail == RING_WORDS) {
            yield();
        }
        uint32_t word = i * 2654435761u ^ i;
        ring->words[i % RING_WORDS] = word;
        ring->head = i + 1;
        sum += word;
    }
    while (ring->tail != RING_COUNT) {
        yield();
    }
    tell("put words with the sum $", sum);
}
