/* The core, and the engines that cache its pages: each event, and what is invalidated after it. */
#pragma once

#include "engine.h"
#include "tower_images.h"

struct kernel {
    struct tower core;
    uint8_t *memory; /* the core's block; frames that engines have are memory of files */
    size_t bytes;
    struct engine engines[TOWER_PROCESSES];
    uint64_t events;
};
extern struct kernel kernel;

/* Boots a core over a block of its own. */
void kernel_boot(uint32_t frames);
/* Makes a core of a snapshot instead, with its offers. Returns a status of tower_restore_whole_over. */
uint32_t kernel_restore(const uint8_t *image, size_t count, struct tower_verdict *verdict);
void kernel_close(void);

/* An event of a process. What it ends is taken out of the engines. */
struct tower_reply kernel_event(struct tower_event event);
/* An access of a page that the process's engine lacks, or can't write: a fault of its processor. If the core carries it out,
 * the page is put into the engine, which then makes the access. Otherwise the reply is the fault or the refusal. */
struct tower_reply kernel_fault(uint32_t pid, uint32_t address, bool is_store);
/* Ends a process with all that descend from it, and their engines. */
struct tower_reply kernel_end(uint32_t pid, struct tower_processes *exited);
/* Takes a page back from all others, if each of them descends from the process. */
struct tower_reply kernel_take_back(uint32_t pid, uint32_t page);

enum { NO_PROCESS = -1 };
int kernel_parent(uint32_t pid); /* NO_PROCESS if it isn't live */
