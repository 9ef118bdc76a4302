#include "processes.h"

#include "roots.h"
#include "spaces.h"

static struct process processes[TOWER_PROCESSES];
static uint32_t ended[HOWS];

struct process *process_of(uint32_t pid) {
    return &processes[pid];
}

uint32_t parent_of(uint32_t pid) {
    struct tower_container container;
    need(tower_container(&core, pid, &container), "a live process has a parent");
    return container.parent;
}

/* ---- Beginning */

static uint32_t length_of(const char *text) {
    uint32_t length = 0;
    while (text[length]) {
        length++;
    }
    return length;
}

/* Names a process by a name, a mark and a number below 100, as far as there is space. */
static void set_name(struct process *it, const char *name, char mark, uint32_t number) {
    const char more[] = {mark, (char)('0' + number / 10 % 10), (char)('0' + number % 10), 0};
    uint32_t length = length_of(name), most = sizeof it->name - sizeof more;
    length = length < most ? length : most;
    memmove(it->name, name, length);
    memmove(it->name + length, more, sizeof more);
}

/* If it ends before it runs anything, that is by its parent. */
void add_spawned(uint32_t child) {
    processes[child] = (struct process){.state = EMPTY, .own = {child, ENDED_BY_PARENT, 0}};
}

void add_forked(const struct thread *parent, uint32_t child) {
    static const struct tower_reply is_child = {.kind = TOWER_CHILD};
    struct process *from = &processes[parent->pid];
    struct thread *first = first_thread(child, &parent->cpu);
    processes[child] = (struct process){.state = LIVE};
    set_name(&processes[child], from->name, '.', ++from->forks);
    give_reply(first, is_child);
    put_last(first);
}

void begin_program(uint32_t pid, const char *name, uint64_t entry, uint32_t number) {
    struct registers cpu;
    open_registers(&cpu, entry, STACK_TOP, number);
    processes[pid] = (struct process){.state = LIVE};
    set_name(&processes[pid], name, '-', number);
    put_last(first_thread(pid, &cpu));
}

/* ---- Ending */

bool take_outcome(uint32_t pid, struct tower_reply *reply) {
    struct process *it = &processes[pid];
    if (it->outcome_count == 0) {
        return false;
    }
    struct outcome first = it->outcomes[0];
    it->outcome_count--;
    memmove(it->outcomes, it->outcomes + 1, it->outcome_count * sizeof first);
    *reply = (struct tower_reply){.kind = TOWER_CHILD, .first = first.pid, .second = first.how, .third = first.number};
    return true;
}

bool has_running_child(uint32_t pid) {
    struct tower_processes children;
    need(tower_children(&core, pid, &children), "a core lists children");
    for (uint32_t i = 0; i < children.count; i++) {
        if (processes[children.pids[i]].state != EMPTY) {
            return true;
        }
    }
    return false;
}

/* Lets the threads of a process that wait for a child continue: the first with the outcome that has come, and all
 * others too if no child is left to wait for. */
static void wake_waiting(uint32_t pid) {
    struct tower_reply reply = {.kind = TOWER_REFUSED, .first = TOWER_NO_PROCESS};
    struct thread *waiting = waiting_thread(pid);
    while (waiting && (take_outcome(pid, &reply) || !has_running_child(pid))) {
        give_reply(waiting, reply);
        put_last(waiting);
        waiting = waiting_thread(pid);
        reply = (struct tower_reply){.kind = TOWER_REFUSED, .first = TOWER_NO_PROCESS};
    }
}

/* A parent that has as many outcomes as there are processes gets no more: it never waits. */
static void give_outcome(uint32_t parent, struct outcome outcome) {
    struct process *it = &processes[parent];
    if (it->outcome_count < TOWER_PROCESSES) {
        it->outcomes[it->outcome_count++] = outcome;
    }
    wake_waiting(parent);
}

/* A process is gone from the core. Its parent gets the outcome, and exits next if it only waited for that. */
static void leave_table(uint32_t pid, uint32_t parent) {
    processes[pid].state = ABSENT;
    give_outcome(parent, processes[pid].own);
}

/* Makes the Exit of a process that is stopped. Returns whether its parent is stopped, too, and may exit now. */
static bool try_exit(uint32_t pid, uint32_t *parent) {
    *parent = parent_of(pid);
    if (make_event(tower_exit(pid)).kind != TOWER_DONE) {
        return false;
    }
    leave_table(pid, *parent);
    return processes[*parent].state == STOPPED;
}

static void exit_upwards(uint32_t pid) {
    uint32_t parent;
    while (try_exit(pid, &parent)) {
        pid = parent;
    }
}

static void note_end(uint32_t pid, enum how how, uint32_t number) {
    processes[pid].own = (struct outcome){pid, how, number};
    ended[how]++;
}

void exited(uint32_t pid, uint32_t status, uint32_t parent) {
    say("[%s] exited with status %u\n", processes[pid].name, status);
    note_end(pid, ENDED_EXIT, status);
    end_threads(pid);
    leave_table(pid, parent);
    if (processes[parent].state == STOPPED) {
        exit_upwards(parent);
    }
}

void end_process(uint32_t pid, enum how how, uint32_t number) {
    struct tower_processes children;
    need(pid != 0, "the first process doesn't end");
    note_end(pid, how, number);
    end_threads(pid);
    leave_everywhere(pid);
    processes[pid].state = STOPPED;
    need(tower_children(&core, pid, &children), "a core lists children");
    for (uint32_t i = 0; i < children.count; i++) {
        if (processes[children.pids[i]].state == EMPTY) {
            need(make_event(tower_exit(children.pids[i])).kind == TOWER_DONE, "a process that runs nothing exits");
            processes[children.pids[i]].state = ABSENT;
        }
    }
    exit_upwards(pid);
}

struct tower_reply end_child(uint32_t parent, uint32_t child) {
    struct tower_processes exited = {0};
    struct tower_reply told = end_family(child, &exited);
    for (uint32_t i = 0; i < exited.count; i++) {
        uint32_t pid = exited.pids[i];
        if (processes[pid].state == LIVE) {
            note_end(pid, ENDED_BY_PARENT, 0);
            end_threads(pid);
        }
        processes[pid].state = ABSENT;
    }
    if (exited.count) {
        give_outcome(parent, processes[child].own);
    }
    return told;
}

void tell_outcomes(void) {
    say("processes that ended: %u exited, %u by a fault, %u by a refusal, %u by an exception, %u by a parent\n",
        ended[ENDED_EXIT], ended[ENDED_FAULT], ended[ENDED_REFUSED], ended[ENDED_EXCEPTION], ended[ENDED_BY_PARENT]);
}
