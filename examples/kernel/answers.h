/* The replies to the calls of processes (calls.h). */
#ifndef ANSWERS_H
#define ANSWERS_H

#include "processes.h"

/* Answers the call of the thread that runs here, with the lock. Returns whether its turn is over. */
bool answer_call(struct thread *it);

/* Whether process 0 has ended the run. It never becomes false again. */
bool is_shut_down(void);
/* How much the first process found wrong. */
uint32_t found_wrong(void);

#endif
