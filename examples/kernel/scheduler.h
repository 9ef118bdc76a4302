/* Turns: each processor gives the threads in the queue turns, one after the other. */
#ifndef SCHEDULER_H
#define SCHEDULER_H

#include <stdint.h>

/* Gives threads turns on this processor until process 0 ends the run. Then the processor keeps nothing of any. */
void serve(void);

/* How many turns there were, and how many of these the timer ended. The longest turn, and the longest wait in the
 * queue, in thousands of ticks. */
struct turns {
    uint32_t all, preempted, longest, longest_wait;
};
struct turns turns_given(void);

#endif
