#include "probe.h"

static struct guest_cpu cpus[MOST_PROCESSORS];

uint32_t random(uint32_t limit) {
    static uint64_t seeds[MOST_PROCESSORS];
    uint64_t *seed = &seeds[this_processor()];
    if (*seed == 0) {
        *seed = 88172645463325252u + this_processor() * 0x9e3779b97f4a7c15u;
    }
    *seed ^= *seed << 13;
    *seed ^= *seed >> 7;
    *seed ^= *seed << 17;
    return (uint32_t)((*seed >> 32) % limit);
}

void open_probe(uint32_t directory, uint32_t entry, uint32_t address, uint32_t value) {
    svm_open(probe(), directory, STUB_AT + entry, 0);
    probe()->more.ecx = address;
    svm_set_eax(probe(), value);
}

uint64_t run_probe(uint32_t identifier) {
    uint64_t exit;
    while ((exit = svm_run(probe(), identifier)) == EXIT_INTERRUPT) {
        take_interrupts();
    }
    return exit;
}

struct guest_cpu *probe(void) {
    return &cpus[this_processor()];
}
