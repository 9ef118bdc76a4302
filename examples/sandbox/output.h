/* What tenants write: whole lines, each after its tenant's name. Of a family 64 KiB are taken with the names, and no more. */
#pragma once

#include <stdbool.h>
#include <stddef.h>
#include <stdint.h>

/* A tenant's text, all of it or nothing. A line appears once it is complete, or has 256 letters. */
bool output_text(uint32_t pid, const char *text, size_t count);
/* A line of the sandbox's own on a tenant, after what it has written. */
void output_line(uint32_t pid, const char *line);
