/* What a program of this folder expects. Its first wrong expectation is printed, and ends it with status 1. */
#ifndef EXPECT_H
#define EXPECT_H

#include <stdbool.h>
#include <stdio.h>
#include <stdlib.h>

#include "tower.h"

/* Ends the program if a fact is not so, with the line and the fact on standard error. */
#define EXPECT(fact) \
    do { \
        if (!(fact)) { \
            fprintf(stderr, "%s:%d: not so: %s\n", __FILE__, __LINE__, #fact); \
            exit(1); \
        } \
    } while (0)

/* Prints a sentence with its answer, and ends the program at the first that is no yes. */
static inline void expect(bool holds, const char *what) {
    printf("%s: %s\n", what, holds ? "yes" : "NO");
    if (!holds) {
        exit(1);
    }
}

/* Carries out an event, and returns whether its reply has this kind and this first number. */
static inline bool answers(struct tower *tower, struct tower_event event, uint32_t kind, uint32_t first) {
    struct tower_reply reply = {0};
    return tower_do(tower, event, &reply) != TOWER_OUTCOME_NO_CORE && reply.kind == kind && reply.first == first;
}

#endif
