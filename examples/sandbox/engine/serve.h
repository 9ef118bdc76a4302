/* What the processor reports to the kernel. Each waits until the kernel has answered. */
#pragma once

#include "../channel.h"

/* Begins once the kernel orders it. */
void serve(void) __attribute__((noreturn));

struct words serve_call(struct words words);
/* The page is there then. */
void serve_access(enum access kind, uint32_t address);
/* The turn is over. The next one has begun then. */
void serve_over(void);
/* The tenant has to end, at that address unless it is 0. */
void serve_end(const char *what, uint32_t eip) __attribute__((noreturn));

/* The last order allows no more steps: the turn is over before the tenant goes on. */
bool serve_is_over(void);
