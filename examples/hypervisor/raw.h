/* A memory of 16 frames that no core wrote, and a model of what it has to be. The probe's code is in its last frame. */
#ifndef RAW_H
#define RAW_H

#include "machine.h"

enum { RAW = 16, RAW_DIRECTORY = 1, RAW_STUB_TABLE = 14, RAW_STUB = 15, RAW_IDENTIFIER = 1 };
extern uint8_t raw[RAW * FRAME], model[RAW * FRAME];

/* Fills the memory with bytes of which no word is present, and a directory. The directory maps the code to be read and
 * the page after the code to be written. The model becomes a copy. Comparing ends the run if they differ. */
void begin_raw(void);
void compare_raw(void);

#endif
