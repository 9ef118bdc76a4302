/* A tenant's processor: the host's own, in compatibility mode. A tenant's page is at its own address of this process, whose
 * code, stack and other memory are above 4 GiB: 32-bit code can't name them. It is entered by the return from a signal, and
 * left by signals. */
#pragma once

#include <stdbool.h>
#include <stdint.h>

#include "../channel.h"

/* Once, in the fork server: with no page, and before the process is confined. */
void processor_open(void);
/* In an engine, before the process is confined: signals are the processor's from now on. */
void processor_prepare(void);
/* Runs the tenant from these registers. */
void processor_run(struct registers *from) __attribute__((noreturn));
/* The tenant is behind the gate: it is stopped as by a signal after its jump there, or after the call. */
void processor_stop(bool calls) __attribute__((noreturn));
/* Its turn is over since it is there. */
bool processor_is_late(void);
/* As they are, while it waits for the kernel. */
void processor_registers(struct registers *to);

/* The page is that file's, in place of what was there. */
void processor_show(uint32_t page, int file, bool write);
/* Takes a page out. */
void processor_hide(uint32_t page);
