/* Comparisons of the states of two cores. */
#ifndef COMPARE_H
#define COMPARE_H

#include "tower.h"

bool same_replies(struct tower_reply a, struct tower_reply b);
bool same_roles(struct tower_role a, struct tower_role b);
bool same_containers(struct tower_container a, struct tower_container b);

/* Ends the run unless roles, containers and memory of two cores are the same. Accessed in words of directories may
 * differ, since a processor sets it as it walks. */
void compare_cores(struct tower *one, struct tower *other);

#endif
