/* A core's snapshot, as docs/IMAGES.md has it, with the pending offers. */
#ifndef IMAGE_H
#define IMAGE_H

#include "tower.h"

/* Writes the snapshot into the debug port's file, piece by piece. It changes nothing of the core. */
void write_image(struct tower *tower);

#endif
