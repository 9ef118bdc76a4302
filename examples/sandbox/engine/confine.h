/* What is left of an engine's process before any instruction of a tenant runs in it. */
#pragma once

#include <sys/types.h>

/* It has no other descriptors than its socket and three of /dev/null, and ends with the kernel's process. */
void confine_first(pid_t kernel);
/* It has no rights and little memory more than now. All engines inherit that. */
void confine_all(void);
/* It has few system calls, and those of the i386 table are signals. */
void confine(void);
