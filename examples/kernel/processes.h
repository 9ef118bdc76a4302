/* The kernel's table of processes: which run a program, and how others ended. Which processes there are, and whose
 * children, is the core's to say. All functions are called with the lock. */
#ifndef PROCESSES_H
#define PROCESSES_H

#include "threads.h"

enum state {
    ABSENT,  /* the core has no such process */
    EMPTY,   /* it was spawned, and runs no program yet */
    LIVE,    /* it has threads */
    STOPPED, /* it has none, and exits once its children have */
};

struct outcome {
    uint32_t pid;
    enum how how;
    uint32_t number;
};

struct process {
    enum state state;
    char name[24];
    uint32_t forks;
    struct outcome own;                       /* once it has ended */
    struct outcome outcomes[TOWER_PROCESSES]; /* of children that ended, for which it hasn't waited */
    uint32_t outcome_count;
};

struct process *process_of(uint32_t pid);
/* The parent of a live process. */
uint32_t parent_of(uint32_t pid);

/* The core has made a process: by a spawn, which runs nothing yet, or by a fork of a thread, which continues there. */
void add_spawned(uint32_t child);
void add_forked(const struct thread *parent, uint32_t child);
/* A process begins to run a program, with a number of its parent's choice. */
void begin_program(uint32_t pid, const char *name, uint64_t entry, uint32_t number);

/* Takes the outcome of a child that ended. False if there is none. */
bool take_outcome(uint32_t pid, struct tower_reply *reply);
/* Whether a process has a child that runs, or may. */
bool has_running_child(uint32_t pid);

/* The core has carried out the Exit of a process that had this parent. */
void exited(uint32_t pid, uint32_t status, uint32_t parent);
/* The kernel ends a process: it exits once its children have. They live on, except those that run nothing yet. */
void end_process(uint32_t pid, enum how how, uint32_t number);

/* A parent ends its child, with all that descend from it. */
struct tower_reply end_child(uint32_t parent, uint32_t child);

/* Prints how many processes ended, and how. */
void tell_outcomes(void);

#endif
