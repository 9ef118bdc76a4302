/* A few of Linux's system calls, for programs of its i386 kind: made of the core's calls, inside the engine. */
#pragma once

#include <stdbool.h>

#include "../channel.h"

/* That kind's state of the tenant, as its registers have it. */
extern struct linux_state linux_state;

/* EAX has the call, EBX to EDI its arguments. Returns its result. */
uint32_t linux_call(uint32_t call, const uint32_t *arguments);
