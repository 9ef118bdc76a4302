/* Wrong versions of the kernel. `make wrong` builds each with its macro set to 1, and the kernel's own checks have to
 * find it. ./wrong reads the names and the texts here. */
#ifndef WRONG_H
#define WRONG_H

#ifndef WRONG_SHOOTDOWN
#define WRONG_SHOOTDOWN 0 /* no other processor invalidates what an event ended */
#endif
#ifndef WRONG_HERE
#define WRONG_HERE 0 /* the processor that makes an event doesn't invalidate what it ended */
#endif
#ifndef WRONG_PAGE
#define WRONG_PAGE 0 /* the shadow entry of the page after the one that was ended is forgotten */
#endif
#ifndef WRONG_WRITE
#define WRONG_WRITE 0 /* each fault is handled as one of a store */
#endif
#ifndef WRONG_EXIT
#define WRONG_EXIT 0 /* the shadow entries of a process that exits are kept */
#endif
#ifndef WRONG_HALF
#define WRONG_HALF 0 /* processes may use the kernel's half */
#endif
#ifndef WRONG_ADDRESS
#define WRONG_ADDRESS 0 /* the core gets the lower half of an address of 64 bits */
#endif
#ifndef WRONG_USER
#define WRONG_USER 0 /* a fault whose code lacks the user bit is taken for an access of the process */
#endif
#ifndef WRONG_DIRTY
#define WRONG_DIRTY 0 /* a load of a page that the process may write to is handled as a store */
#endif
#ifndef WRONG_SAME
#define WRONG_SAME 0 /* a clean page is marked by a load of a byte and the store of the same byte */
#endif
#ifndef WRONG_EARLY
#define WRONG_EARLY 0 /* the other processors invalidate before the event, and run on while it is made */
#endif
#ifndef WRONG_LATE
#define WRONG_LATE 0 /* the caller has the reply, and the lock is free, before the other processors have invalidated */
#endif
#ifndef WRONG_FORK
#define WRONG_FORK 0 /* the other processors run on while a fork copies */
#endif
#ifndef WRONG_FULL
#define WRONG_FULL 0 /* tables are freed, as the pool is full, while other processors are in them */
#endif
#ifndef WRONG_MOST
#define WRONG_MOST 0 /* all processes lose their tables when the pool is full, and not the one that has taken most */
#endif
#ifndef WRONG_LEAST
#define WRONG_LEAST 0 /* the pool has one frame less than an instruction on each of four processors can need */
#endif
#ifndef WRONG_ROOT
#define WRONG_ROOT 0 /* the tables of a process that exits are freed while its root is in CR3 */
#endif

#endif
