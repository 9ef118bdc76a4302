#include "raw.h"
#include "probe.h"

_Alignas(FRAME) uint8_t raw[RAW * FRAME], model[RAW * FRAME];

void begin_raw(void) {
    svm_memory(raw, RAW, true);
    for (uint32_t i = 0; i < sizeof raw / 4; i++) {
        ((uint32_t *)raw)[i] = i * 2654435761u & ~1u;
    }
    memset(raw + RAW_DIRECTORY * FRAME, 0, FRAME);
    memmove(raw + RAW_STUB * FRAME, stub, (size_t)(stub_end - stub));
    ((uint32_t *)(raw + RAW_DIRECTORY * FRAME))[STUB_AT >> 22] = RAW_STUB_TABLE << 12 | 0x27;
    ((uint32_t *)(raw + RAW_STUB_TABLE * FRAME))[0] = RAW_STUB << 12 | 0x25;
    ((uint32_t *)(raw + RAW_STUB_TABLE * FRAME))[1] = 13 << 12 | 0x67;
    memmove(model, raw, sizeof raw);
}

void compare_raw(void) {
    for (uint32_t i = 0; i < sizeof raw / 8; i++) {
        if (((uint64_t *)raw)[i] != ((uint64_t *)model)[i]) {
            fail("nothing else of memory changes");
        }
    }
}
