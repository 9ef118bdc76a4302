/* Wrong versions of the trials of events, of the storm and of the shootdowns. Each forgets, marks, stops or waits too
 * little, and the trials have to find each of them. A word of the kernel's command line chooses one (./wrong runs all). */
#ifndef WRONG_H
#define WRONG_H

#include "tower.h"

enum wrong {
    RIGHT,
    WRONG_UNMAP,
    WRONG_PROTECT,
    WRONG_FILL,
    WRONG_SECOND,
    WRONG_ACCEPT,
    WRONG_EXIT,
    WRONG_CPU,
    WRONG_TABLE,
    WRONG_REFUSAL,
    WRONG_DIRTY,
    WRONG_EARLY,
    WRONG_TWICE,
    WRONG_MOVE,
    WRONG_FORK,
    WRONG_WRITE,
    WRONG_ACKNOWLEDGE,
    WRONG_REPLY,
    WRONG_FRAME,
    WRONG_GIVE,
    WRONG_LEND,
    WRONG_TOLD,
};
extern enum wrong wrong;

/* Chooses the version that a word names, `right` among them. Ends the run if the word names none. */
void choose_wrong(const char *word);

/* What the chosen version takes an event to have ended. */
struct tower_ended taken_for(const struct tower_event *event, struct tower_ended ended);

#endif
