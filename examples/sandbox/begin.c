/* A program is loaded into a process of its own. */
#include <stdio.h>
#include <stdlib.h>
#include <string.h>
#include <sys/auxv.h>

#include "calls.h"
#include "kernel.h"
#include "loader.h"
#include "need.h"
#include "tenants.h"

/* The process has no engine yet. Pages of a segment that isn't written become read only. What the file has no bytes for are
 * pages of zeros, which come with the first access. Done, or the refusal. */
static struct tower_reply load(uint32_t pid, const struct program *program) {
    struct tower_reply told = {.kind = program->is_valid ? TOWER_DONE : TOWER_NO_EVENT};
    for (uint32_t i = 0; told.kind == TOWER_DONE && i < program->count; i++) {
        const struct segment *it = &program->segments[i];
        need(tower_load_bytes(&kernel.core, pid, it->address, it->bytes, it->count, it->write, &told), "a core loads bytes");
    }
    return told;
}

/* What Linux leaves on a program's stack: the count of its words, the words, and what it should know. */
static struct tower_reply load_stack(uint32_t pid, const struct program *program, uint32_t argument, struct registers *start) {
    enum { WORDS = PAGE_BYTES / 4, FROM = WORDS / 2, TEXT = WORDS - 64, BASE = STACK_TOP - PAGE_BYTES };
    static uint32_t page[WORDS];
    struct tower_reply told;
    const uint32_t begin[] = {2, BASE + 4 * TEXT, BASE + 4 * (TEXT + 4), 0, 0,
                              AT_PHDR, program->headers, AT_PHENT, 32, AT_PHNUM, program->header_count, AT_PAGESZ, PAGE_BYTES,
                              AT_ENTRY, program->entry, AT_RANDOM, BASE + 4 * (TEXT + 8), AT_SECURE, 0, AT_NULL, 0};
    memset(page, 0, sizeof page);
    memcpy(page + FROM, begin, sizeof begin);
    snprintf((char *)(page + TEXT), 16, "tenant%u", pid);
    snprintf((char *)(page + TEXT + 4), 16, "%u", argument);
    start->general[ESP] = BASE + 4 * FROM;
    start->general[EAX] = start->general[EBX] = 0;
    start->of_linux = (struct linux_state){0x50000000, 0x50000000, 0x80000000, 0};
    need(tower_load_bytes(&kernel.core, pid, BASE, (const uint8_t *)page, sizeof page, true, &told), "a core loads bytes");
    return told;
}

void tenant_begin(const char *name, const char *path, uint32_t quota, uint32_t argument, uint64_t nanoseconds) {
    struct program program;
    struct tower_reply child = kernel_event(tower_spawn(0, quota)), told = child;
    struct registers start = {.general = {[EAX] = child.first, [EBX] = argument, [ESP] = STACK_TOP},
                              .eflags = 0x202, .segments = {0x23, 0x23, 0x23, 0x23}};
    if (!program_read(&program, path)) {
        fail("can't read", path);
    }
    if (child.kind == TOWER_CHILD) {
        told = load(child.first, &program);
    }
    if (told.kind == TOWER_DONE && program.is_linux) {
        told = load_stack(child.first, &program, argument, &start);
    }
    if (told.kind == TOWER_DONE) {
        start.eip = program.entry;
        tenant_enter(child.first, name, &start);
        tenants[child.first].most = nanoseconds;
    } else {
        const char *why = told.kind == TOWER_REFUSED ? tower_cause_name(told.first) : "it is no ELF program for 32-bit x86";
        printf("[%s] not begun: %s\n", name, why);
    }
    if (child.kind == TOWER_CHILD && told.kind != TOWER_DONE) {
        kernel_event(tower_exit(child.first));
    }
    free(program.bytes);
}
