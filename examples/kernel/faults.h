/* Page faults: a processor stopped an access of a process. The core gets it, the shadow tables get what its walk gives
 * then, and the process makes the access again. If the core faults or refuses, the process ends. It ends, too, if the
 * kernel can't explain the fault: no process ends the kernel by one. */
#ifndef FAULTS_H
#define FAULTS_H

#include "threads.h"

/* Handles the page fault of the thread that runs here, with the lock. Returns false if it can't explain the fault, and
 * has done nothing: the process ends as by any exception. */
bool page_fault(struct thread *it);

/* How many there were; and how many of these came again, at an access that the core had carried out. */
uint32_t page_faults(void);
uint32_t faults_again(void);

#endif
