/* A stopped sandbox as a file: its tenants with their registers, and the core's image, which has the pending offers. */
#pragma once

#include <stdbool.h>
#include <stdint.h>

/* Writes a new file in the place of an old one, which stays if that fails: then one line ends the program. All engines have
 * been closed. */
void store_save(const char *path);
/* Whether such a file can be there: nothing is, or an ordinary file. */
bool store_can_save(const char *path);

/* One line ends the program if the file can't be read, or is none that store_save could have written. No family gets more
 * than that much processor time. */
void store_load(const char *path, uint64_t nanoseconds);
