/* What the program `neighbor` does by its number, and how long the one that counts does so. */
#ifndef NEIGHBOR_H
#define NEIGHBOR_H

#include "program.h"

enum neighbor { COUNTS_ROUNDS, COMPUTES, MAKES_CALLS, WALKS_REGIONS, CHANGES_PAGES };

/* It counts for TICKS, and exits with its rounds, in tens. The others end by themselves if nothing ends them before. */
enum { TICKS = 250000000, MOST_TICKS = 2 * TICKS, ROUNDS = 10 };

#endif
