/* Wrong versions of the processors, as those of examples/kernel/wrong.h. `make -C ../kernel wrong` builds each with its
 * macro set to 1, and its trial of turns has to find it. */
#ifndef WRONG_MACHINE_H
#define WRONG_MACHINE_H

#ifndef WRONG_SLICE
#define WRONG_SLICE 0 /* the timer's only interrupt of a slice may be taken before the slice begins */
#endif
#ifndef WRONG_REST
#define WRONG_REST 0 /* a rest sets the slice's timer anew, so that a wait for the lock begins the slice again */
#endif
#ifndef WRONG_SWALLOW
#define WRONG_SWALLOW 0 /* a stop that comes as a slice begins waits until the thread's next trap */
#endif

#endif
