/* What has to hold of the sandbox itself, whatever its tenants do. If it doesn't, the sandbox ends with status 3. */
#pragma once

#include <stdbool.h>

void need(bool holds, const char *what);
/* A mistake of the user: one line, and status 2. */
void fail(const char *what, const char *of) __attribute__((noreturn));
