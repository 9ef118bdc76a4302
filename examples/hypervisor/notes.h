/* Notes of events and accesses, for a second core. */
#ifndef NOTES_H
#define NOTES_H

#include "tower.h"

struct note {
    struct tower_event event;
    struct tower_reply reply;
    bool is_access;
    /* Which event or access of its processor it is, from 1 on; 0 if it has no place among them. */
    uint32_t processor, number;
};

/* Forgets all notes. */
void open_notes(void);
/* Numbers the note of an event or an access, as it begins on this processor. */
void begin_note(struct note *it);
/* Adds one. Several processors may do so concurrently: the order of their notes is then any. */
void note(const struct note *it);
/* Returns the note of a process's access that completed, with the value that it read. */
struct note access_note(uint32_t pid, struct tower_event event, uint32_t value);
/* Passes all of them to a second core, and compares its replies. Those of a processor that have numbers have to come in
 * the order in which they began. Returns how many notes are accesses. */
uint32_t tell_second(struct tower *second);

#endif
