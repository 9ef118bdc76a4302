#define _GNU_SOURCE
#include "engine.h"

#include <errno.h>
#include <signal.h>
#include <spawn.h>
#include <stdio.h>
#include <stdlib.h>
#include <string.h>
#include <sys/mman.h>
#include <sys/resource.h>
#include <sys/socket.h>
#include <sys/wait.h>
#include <unistd.h>

#include "frames.h"
#include "need.h"

static pid_t fork_server; /* the first process of the engines' program, and its socket */
static int server_socket;

/* ---- Time */

uint64_t nanoseconds(clockid_t clock) {
    struct timespec now = {0};
    clock_gettime(clock, &now);
    return (uint64_t)now.tv_sec * 1000000000 + (uint64_t)now.tv_nsec;
}

static void look_at_time(struct engine *it) {
    clockid_t clock;
    uint64_t time = engine_is_open(it) && clock_getcpuclockid(it->process, &clock) == 0 ? nanoseconds(clock) : 0;
    if (time > it->time) {
        it->owed += time - it->time;
        it->time = time;
    }
}

uint64_t engine_time(struct engine *it) {
    look_at_time(it);
    uint64_t owed = it->owed;
    it->owed = 0;
    return owed;
}

/* The second number of the host's file on it; 0 if it can't be read. */
static uint64_t read_delay(pid_t process) {
    char path[64];
    unsigned long long delay = 0;
    snprintf(path, sizeof path, "/proc/%d/schedstat", process);
    FILE *file = fopen(path, "re");
    bool is_read = file && fscanf(file, "%*u %llu", &delay) == 1;
    if (file) {
        fclose(file);
    }
    return is_read ? delay : 0;
}

uint64_t engine_delay(struct engine *it) {
    uint64_t now = read_delay(it->process), before = it->delay;
    it->delay = now;
    return now > before ? now - before : 0;
}

/* ---- The engines' program */

/* A child that ends wakes the one that waits for its report. */
static void on_child(int number) {
    (void)number;
}

/* It gets no environment, and no descriptor that it keeps but its socket. If it can't begin, it has said why. */
void engines_begin(void) {
    static char program[4096];
    char *words[] = {program, NULL}, *none[] = {NULL};
    struct sigaction action = {.sa_handler = on_child};
    posix_spawn_file_actions_t actions;
    int pair[2];
    char ready;
    ssize_t length = readlink("/proc/self/exe", program, sizeof program - sizeof ".engine");
    need(length > 0 && socketpair(AF_UNIX, SOCK_SEQPACKET | SOCK_CLOEXEC, 0, pair) == 0, "a program, and a socket");
    need(sigaction(SIGCHLD, &action, NULL) == 0, "a handler of children");
    strcpy(program + length, ".engine");
    posix_spawn_file_actions_init(&actions);
    posix_spawn_file_actions_adddup2(&actions, pair[1], SOCKET);
    if (posix_spawn(&fork_server, program, &actions, NULL, words, none) != 0) {
        fail("can't run the engine's program", program);
    }
    posix_spawn_file_actions_destroy(&actions);
    close(pair[1]);
    server_socket = pair[0];
    while ((length = recv(server_socket, &ready, 1, 0)) < 0 && errno == EINTR) {
    }
    need(length == 1, "the host can run engines");
}

void engines_end(void) {
    close(server_socket);
    while (waitpid(fork_server, NULL, 0) < 0 && errno == EINTR) {
    }
}

/* ---- An engine's process */

/* The fork server answers with the number of the process, which is a child of this one, and gets its channel. */
static pid_t request_process(const int *pair, int channel) {
    pid_t process = 0;
    ssize_t length = -1;
    if (channel >= 0 && file_send(pair[0], channel) && file_send(server_socket, pair[1])) {
        while ((length = recv(server_socket, &process, sizeof process, 0)) < 0 && errno == EINTR) {
        }
    }
    return length == sizeof process && process > 0 ? process : 0;
}

bool engine_open(struct engine *it, const struct registers *registers, uint64_t nanoseconds) {
    struct rlimit most = {nanoseconds / 1000000000 + 2, nanoseconds / 1000000000 + 3};
    int file = memfd_create("channel", MFD_CLOEXEC), pair[2];
    int few = 0; /* bytes of files that it hasn't taken: the host's least */
    need(file >= 0 && ftruncate(file, sizeof(struct channel)) == 0, "there is memory for a channel");
    need(socketpair(AF_UNIX, SOCK_SEQPACKET | SOCK_CLOEXEC, 0, pair) == 0, "there is a socket");
    need(setsockopt(pair[0], SOL_SOCKET, SO_SNDBUF, &few, sizeof few) == 0, "it is small");
    *it = (struct engine){.owed = it->owed, .start = *registers, .is_at_rest = true, .socket = pair[0]};
    it->next.kind = ORDER_BEGIN;
    it->channel = mmap(NULL, sizeof *it->channel, PROT_READ | PROT_WRITE, MAP_SHARED, file, 0);
    need(it->channel != MAP_FAILED, "a channel is mapped");
    it->process = request_process(pair, file);
    close(file);
    close(pair[1]);
    if (!it->process) {
        munmap(it->channel, sizeof *it->channel);
        close(it->socket);
        return false;
    }
    prlimit(it->process, RLIMIT_CPU, &most, NULL);
    return true;
}

int engine_close(struct engine *it) {
    siginfo_t ended;
    int status = 0;
    if (!engine_is_open(it)) {
        return status;
    }
    kill(it->process, SIGKILL);
    while (waitid(P_PID, (id_t)it->process, &ended, WEXITED | WNOWAIT) < 0 && errno == EINTR) {
    }
    look_at_time(it);
    waitpid(it->process, &status, 0);
    munmap(it->channel, sizeof *it->channel);
    close(it->socket);
    frames_forget(it);
    it->process = 0;
    return status;
}

/* ---- Orders and reports */

static const char *gave_up(struct engine *it) {
    static char why[64];
    int status = engine_close(it);
    if (WIFSIGNALED(status)) {
        snprintf(why, sizeof why, "the engine gave up, by signal %d", WTERMSIG(status));
    } else {
        snprintf(why, sizeof why, "the engine gave up, with status %d", WEXITSTATUS(status));
    }
    return why;
}

/* An engine that doesn't take its files is full at some time: false. */
static bool order(struct engine *it) {
    struct channel *to = it->channel;
    if (it->next.has_page && !file_send(it->socket, it->file)) {
        return false;
    }
    if (it->next.kind == ORDER_BEGIN) {
        to->registers = it->start;
    }
    if (it->next.out_count) {
        memcpy(to->outs, it->outs, it->next.out_count * sizeof *it->outs);
    }
    to->order = it->next;
    it->next = (struct order){.kind = ORDER_RUN};
    channel_pass(to, HELD_BY_ENGINE);
    return true;
}

static bool has_ended(const struct engine *it) {
    siginfo_t ended = {0};
    return waitid(P_PID, (id_t)it->process, &ended, WEXITED | WNOHANG | WNOWAIT) == 0 && ended.si_pid == it->process;
}

/* It does nothing until it is continued, also if it was taken over. One that obeys then reports before its tenant goes on. */
static void stop(struct engine *it) {
    siginfo_t stopped;
    kill(it->process, SIGPROF);
    kill(it->process, SIGSTOP);
    while (waitid(P_PID, (id_t)it->process, &stopped, WEXITED | WSTOPPED | WNOWAIT) < 0 && errno == EINTR) {
    }
    it->is_waited_for = true;
}

/* The report once it is here; at the end of the time REPORT_LATE. */
static const char *await_report(struct engine *it, uint64_t until, struct report *report) {
    static const struct timespec SLEEP = {0, 20000000};
    it->was_slow = false;
    while (!channel_await(it->channel, HELD_BY_KERNEL, &it->looks, &SLEEP)) {
        it->was_slow = true;
        if (has_ended(it)) {
            return gave_up(it);
        } else if (nanoseconds(CLOCK_MONOTONIC) > until) {
            stop(it);
            *report = (struct report){.kind = REPORT_LATE};
            return NULL;
        }
    }
    *report = it->channel->report;
    atomic_signal_fence(memory_order_seq_cst); /* it is read once: it may change at any time */
    return NULL;
}

const char *engine_run(struct engine *it, uint64_t until, struct report *report) {
    if (it->is_waited_for) {
        kill(it->process, SIGCONT);
    } else if (!order(it)) {
        return gave_up(it);
    }
    it->is_waited_for = it->is_at_rest = false;
    const char *why = await_report(it, until, report);
    bool is_wrong = report->kind >= REPORTS || (report->kind == REPORT_ACCESS && report->access >= ACCESSES);
    if (!why && !it->is_waited_for && is_wrong) {
        engine_close(it);
        why = "the engine's report makes no sense";
    }
    it->is_at_rest = !why && has_registers(report);
    return why;
}

struct registers engine_registers(const struct engine *it) {
    struct registers now = it->next.kind == ORDER_BEGIN ? it->start : it->channel->registers;
    need(it->is_at_rest, "an engine's registers are whole");
    if (it->next.kind == ORDER_ANSWER) {
        now.general[EAX] = it->next.words.eax;
        now.general[EBX] = it->next.words.ebx;
        now.general[ECX] = it->next.words.ecx;
        now.general[EDX] = it->next.words.edx;
        now.general[ESI] = it->next.words.esi;
    }
    return now;
}
