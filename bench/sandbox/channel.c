/* What a call costs without an emulator and a core: two processes pass a channel of examples/sandbox and take it back. It
 * prints the processor time of both for each time, in microseconds. */
#include <stdio.h>
#include <stdlib.h>
#include <sys/mman.h>
#include <sys/resource.h>
#include <sys/wait.h>
#include <unistd.h>

#include "channel.h"

enum { TIMES = 200000 };

static double used(int whose) {
    struct rusage it;
    if (getrusage(whose, &it) != 0) {
        exit(1);
    }
    return (double)(it.ru_utime.tv_sec + it.ru_stime.tv_sec) + 1e-6 * (double)(it.ru_utime.tv_usec + it.ru_stime.tv_usec);
}

/* Has the channel TIMES times. The kernel has it at first. */
static void take_turns(struct channel *channel, uint32_t holder) {
    uint32_t looks = 0;
    for (int i = 0; i < TIMES; i++) {
        while (!channel_await(channel, holder, &looks, NULL)) {
        }
        channel->report.words.eax++;
        channel_pass(channel, holder == HELD_BY_KERNEL ? HELD_BY_ENGINE : HELD_BY_KERNEL);
    }
}

int main(void) {
    struct channel *channel = mmap(NULL, sizeof *channel, PROT_READ | PROT_WRITE, MAP_SHARED | MAP_ANONYMOUS, -1, 0);
    if (channel == MAP_FAILED) {
        return 1;
    }
    pid_t engine = fork();
    if (engine == 0) {
        take_turns(channel, HELD_BY_ENGINE);
        _exit(0);
    }
    double before = used(RUSAGE_SELF);
    take_turns(channel, HELD_BY_KERNEL);
    if (engine < 0 || waitpid(engine, NULL, 0) != engine) {
        return 1;
    }
    printf("%.3f\n", (used(RUSAGE_SELF) - before + used(RUSAGE_CHILDREN)) / TIMES * 1e6);
    return 0;
}
