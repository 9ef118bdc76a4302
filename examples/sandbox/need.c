#include "need.h"

#include <stdio.h>
#include <stdlib.h>
#include <unistd.h>

void need(bool holds, const char *what) {
    if (!holds) {
        fflush(stdout);
        fprintf(stderr, "sandbox: this does not hold: %s\n", what);
        _exit(3);
    }
}

void fail(const char *what, const char *of) {
    fflush(stdout);
    fprintf(stderr, "sandbox: %s%s%s\n", what, *of ? ": " : "", of);
    exit(2);
}
