/* Tenants: programs that run as processes of the core, in turns. */
#pragma once

#include "channel.h"

enum { MOST_NAME = 48, MOST_TEXT = 1 << 16, MOST_LINE = 256 };

/* What is kept of a tenant, apart from its process, and from its engine once it has one. A family is what descends from one
 * program of the command line: its time and text are those of that first tenant. It is stored as it is. */
struct tenant {
    char name[MOST_NAME];
    struct registers start; /* of an engine that isn't open */
    uint64_t spent, most;   /* the family's processor time, and how much it may use, in nanoseconds */
    uint32_t text;          /* bytes of the family's output */
    uint32_t children;      /* that it began so far: they are named by it */
    uint32_t length;        /* of its line that isn't complete yet */
    uint8_t runs;           /* 0: it has ended, or never began */
    uint8_t family;         /* the process of the first tenant */
    char line[MOST_LINE];
};
extern struct tenant tenants[TOWER_PROCESSES];

/* The tenants that wait for a turn, in order. */
struct queue {
    uint32_t count;
    uint8_t pids[TOWER_PROCESSES];
};
extern struct queue queue;

struct limits {
    uint64_t turn;    /* steps of a turn; 0: turns end by time */
    uint64_t after;   /* all tenants stop once so many steps are made; 0: they don't */
    uint64_t engines; /* that are open at a time */
};
extern struct limits limits;

bool is_name(const char *name);
/* A child of process 0, into which the program is loaded, in begin.c. Otherwise one line says why not. Its family gets so
 * much processor time. */
void tenant_begin(const char *name, const char *path, uint32_t quota, uint32_t argument, uint64_t nanoseconds);
/* A tenant waits for its first turn. Its family is that of its process's parent; otherwise it is its first tenant. */
void tenant_enter(uint32_t pid, const char *name, const struct registers *registers);

/* Runs turns until no tenant waits, or until `after` or a signal. Returns whether tenants are left. */
bool tenants_run(void);
/* Closes all engines; what was in them is in `start`. */
void tenants_park(void);
void print_counts(void); /* once all engines are closed */

/* A call, in calls.c, and what calls do to tenants. */
struct tower_reply tenant_call(uint32_t pid, const struct tower_event *event);
void tenant_end_turn(void);
void tenant_fork(uint32_t pid, uint32_t child);
void tenant_gone(uint32_t pid);                 /* its process has exited */
void tenant_end(uint32_t pid, const char *why); /* with its children */
