#include "answers.h"

#include <stdatomic.h>

#include "loader.h"
#include "spaces.h"

static _Atomic bool shut_down;
static uint32_t wrong;

bool is_shut_down(void) {
    return shut_down;
}

uint32_t found_wrong(void) {
    return wrong;
}

static const struct tower_reply done = {.kind = TOWER_DONE}, no_event = {.kind = TOWER_NO_EVENT};

static struct tower_reply refused(uint32_t cause) {
    return (struct tower_reply){.kind = TOWER_REFUSED, .first = cause};
}

/* Prints a line of a process's text, read from its memory: all that the process may load of it. A byte that is no
 * printable letter would let it write other lines. Others may store meanwhile: bytes are of different moments then. */
static struct tower_reply write_line(uint32_t pid, uint32_t address, uint32_t bytes) {
    uint8_t text[100];
    struct tower_reply stop = {0};
    size_t moved = 0, count = bytes < sizeof text ? bytes : sizeof text;
    need(tower_read(&core, pid, address, text, count, &moved, &stop), "a core answers");
    if (moved) {
        say("[%s] ", process_of(pid)->name);
    }
    for (size_t at = 0; at < moved; at++) {
        say("%c%s", text[at] >= ' ' && text[at] <= '~' ? text[at] : '?', at + 1 == moved ? "\n" : "");
    }
    return stop;
}

/* Starts a program in a child that runs nothing. If a page of it is refused, what was loaded before stays: the parent
 * ends the child, or starts a smaller program there. */
static struct tower_reply start(uint32_t parent, uint32_t program, uint32_t child, uint32_t number) {
    uint64_t entry;
    if (program >= PROGRAMS || child >= TOWER_PROCESSES) {
        return no_event;
    }
    if (process_of(child)->state != EMPTY || parent_of(child) != parent) {
        return refused(TOWER_NO_PROCESS);
    }
    struct tower_reply told = load_program(program, child, &entry);
    if (told.kind == TOWER_DONE) {
        begin_program(child, program_name(program), entry, number);
    }
    return told;
}

/* Returns an outcome, or lets the caller wait for one: then its reply comes with that. */
static struct tower_reply wait_for_child(struct thread *it) {
    struct tower_reply reply = refused(TOWER_NO_PROCESS);
    if (!take_outcome(it->pid, &reply) && has_running_child(it->pid)) {
        it->state = WAITING;
    }
    return reply;
}

/* Begins another thread of the caller's process, in a function of its program with a stack of its own. */
static struct tower_reply begin_thread(uint32_t pid, uint32_t function, uint32_t stack_top, uint32_t number) {
    struct registers cpu;
    open_registers(&cpu, function, stack_top, number);
    struct thread *another = another_thread(pid, &cpu);
    if (!another) {
        return refused(TOWER_TABLE_FULL);
    }
    put_last(another);
    return done;
}

/* Ends the calling thread, unless it is the last one. */
static struct tower_reply end_thread(struct thread *it) {
    if (threads_of(it->pid) == 1) {
        return no_event;
    }
    it->state = DYING;
    return done;
}

static struct tower_reply end(uint32_t pid, uint32_t child) {
    if (child >= TOWER_PROCESSES) {
        return no_event;
    }
    bool is_own = child != pid && process_of(child)->state != ABSENT && parent_of(child) == pid;
    return is_own ? end_child(pid, child) : refused(TOWER_NO_PROCESS);
}

static struct tower_reply shut(uint32_t pid, uint32_t much) {
    struct tower_processes children;
    if (pid != 0) {
        return no_event;
    }
    need(tower_children(&core, 0, &children), "a core lists children");
    if (children.count != 0) {
        return refused(TOWER_HAS_CHILDREN);
    }
    wrong = much;
    shut_down = true;
    return done;
}

/* Makes a call of the core's. A new process gets its place in the kernel's table, and one that exited leaves it. */
static struct tower_reply make_call(const struct thread *it, const struct tower_event *event) {
    uint32_t parent = parent_of(event->pid);
    struct tower_reply reply = make_event(*event);
    if (reply.kind == TOWER_CHILD && event->call == TOWER_SPAWN) {
        add_spawned(reply.first);
    } else if (reply.kind == TOWER_CHILD) {
        add_forked(it, reply.first);
    } else if (reply.kind == TOWER_DONE && event->call == TOWER_EXIT) {
        exited(event->pid, event->first, parent);
    }
    return reply;
}

static struct tower_reply reply_to(struct thread *it, const struct tower_event *event, bool *over) {
    switch (event->call) {
    case CALL_YIELD:
        *over = true;
        return done;
    case CALL_WRITE:
        return write_line(event->pid, event->first, event->second);
    case CALL_START:
        return start(event->pid, event->first, event->second, event->third);
    case CALL_WAIT:
        return wait_for_child(it);
    case CALL_SELF:
        return (struct tower_reply){.kind = TOWER_VALUE, .first = event->pid, .second = parent_of(event->pid)};
    case CALL_THREAD:
        return begin_thread(event->pid, event->first, event->second, event->third);
    case CALL_END_THREAD:
        return end_thread(it);
    case CALL_END_CHILD:
        return end(event->pid, event->first);
    case CALL_SHUT_DOWN:
        return shut(event->pid, event->first);
    case TOWER_LOAD:
    case TOWER_STORE: /* a process's accesses are the processor's */
        return no_event;
    default:
        return make_call(it, event);
    }
}

static bool is_small(uint64_t number) {
    return number >> 32 == 0;
}

bool answer_call(struct thread *it) {
    const struct registers *cpu = &it->cpu;
    bool over = false, are_small = is_small(cpu->rax) && is_small(cpu->rdi) && is_small(cpu->rsi) &&
                                   is_small(cpu->rdx) && is_small(cpu->r10);
    struct tower_event event = tower_event_of(it->pid, (uint32_t)cpu->rax, (uint32_t)cpu->rdi, (uint32_t)cpu->rsi,
                                              (uint32_t)cpu->rdx, (uint32_t)cpu->r10);
    struct tower_reply reply = are_small ? reply_to(it, &event, &over) : no_event;
    if (it->state == RUNNING) {
        give_reply(it, reply);
    }
    return over || it->state != RUNNING || is_shut_down();
}
