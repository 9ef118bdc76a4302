/* The engines' program. Its first process is a fork server: it opens a processor, and has no tenant. Each engine is a copy of
 * it, which the kernel's process requests. */
#define _GNU_SOURCE
#include <sched.h>
#include <signal.h>
#include <sys/socket.h>
#include <sys/syscall.h>
#include <unistd.h>

#include "../need.h"
#include "confine.h"
#include "processor.h"
#include "serve.h"

int main(void) {
    pid_t kernel = getppid(), engine;
    confine_first(kernel);
    signal(SIGPROF, SIG_IGN); /* until an engine counts its ticks */
    processor_open();
    confine_all();
    need(send(SOCKET, "", 1, MSG_NOSIGNAL) == 1, "the kernel is there"); /* and knows that the host can run engines */
    for (int socket; (socket = file_take(SOCKET)) >= 0; close(socket)) {
        /* a child of the kernel's process, and not of this one */
        engine = (pid_t)syscall(SYS_clone, CLONE_PARENT | SIGCHLD, 0, 0, 0, 0);
        if (engine == 0) {
            need(dup2(socket, SOCKET) == SOCKET, "an engine has its own socket");
            confine_first(kernel);
            serve();
        }
        need(send(SOCKET, &engine, sizeof engine, MSG_NOSIGNAL) == sizeof engine, "the kernel is there");
    }
    return 0;
}
