#define _GNU_SOURCE
#include "processor.h"

#include <signal.h>
#include <string.h>
#include <sys/auxv.h>
#include <sys/mman.h>
#include <sys/prctl.h>
#include <ucontext.h>

#include "../need.h"
#include "gate.h"
#include "linux.h"
#include "serve.h"

enum { CODE_32 = 0x23, DATA_32 = 0x2b }; /* Linux's selectors of segments of 4 GiB in user mode */
enum { TRAP_PROTECTION = 13, TRAP_PAGE = 14 };
enum { ERROR_WRITE = 2, ERROR_FETCH = 16, ERROR_KEY = 32, ERROR_INT_80 = 0x80 << 3 | 2 };

static uint64_t own_base; /* of FS, by which the C library finds what is a thread's */
static uint8_t stack[1 << 16] __attribute__((aligned(64)));
/* A signal of this process's own: the tenant begins, or leaves the gate after its call or for it. */
static enum { STOP_NONE, STOP_BEGIN, STOP_GATE, STOP_CALL } stop;
static struct registers *begin;
static volatile sig_atomic_t is_late; /* the turn was over while the tenant was behind the gate */
/* The tenant's registers, in the frame of the signal that stopped it; those of the x87, SSE and AVX as XSAVE writes them. */
static greg_t *general;
static uint8_t *extended;

/* ---- Memory */

static const uint64_t LOWEST = 0x10000, END = (uint64_t)1 << 32; /* Linux maps nothing below unless it is asked to */

static void clear(uint64_t from, uint64_t bytes, int flags) {
    void *at = (void *)(uintptr_t)from;
    flags |= MAP_PRIVATE | MAP_ANONYMOUS | MAP_NORESERVE;
    need(mmap(at, bytes, PROT_NONE, flags, -1, 0) == at, "32-bit addresses are the tenant's");
}

void processor_show(uint32_t page, int file, bool write) {
    void *to = (void *)((uintptr_t)page * PAGE_BYTES);
    int rights = PROT_READ | PROT_EXEC | (write ? PROT_WRITE : 0);
    need(mmap(to, PAGE_BYTES, rights, MAP_SHARED | MAP_FIXED | MAP_POPULATE, file, 0) == to, "a frame is shown");
}

void processor_hide(uint32_t page) {
    clear((uint64_t)page * PAGE_BYTES, PAGE_BYTES, MAP_FIXED);
}

/* ---- Registers */

enum { USER_FLAGS = 0x240cd5, FIXED_FLAGS = 0x202 }; /* of the flags a program in user mode can change only the first */
static const int names[] = {REG_RAX, REG_RCX, REG_RDX, REG_RBX, REG_RSP, REG_RBP, REG_RSI, REG_RDI};

/* What Linux adds to the area of XSAVE is in bytes that no register has: its length, too. */
enum { LINUX_FROM = 464, LINUX_LENGTH = LINUX_FROM + 16, HEADER = 512, MXCSR = 24 };

static uint32_t extended_bytes(void) {
    uint32_t bytes;
    memcpy(&bytes, extended + LINUX_LENGTH, sizeof bytes);
    need(bytes > HEADER && bytes <= MOST_EXTENDED, "the registers of XSAVE have a place");
    return bytes;
}

static void copy_extended(uint8_t *to, const uint8_t *from, uint32_t bytes) {
    memcpy(to, from, LINUX_FROM);
    memcpy(to + HEADER, from + HEADER, bytes - HEADER);
}

/* As a program begins: a header without a component means that all of them are as after a reset. */
static void reset_extended(void) {
    const uint32_t mxcsr = 0x1f80;
    memset(extended + HEADER, 0, 64);
    memcpy(extended + MXCSR, &mxcsr, sizeof mxcsr);
}

/* DS, ES, FS and GS are no part of the frame: they are still the tenant's. */
static void get_segments(uint16_t *to) {
    __asm__ volatile("mov %%ds, %0" : "=r"(to[0]));
    __asm__ volatile("mov %%es, %0" : "=r"(to[1]));
    __asm__ volatile("mov %%fs, %0" : "=r"(to[2]));
    __asm__ volatile("mov %%gs, %0" : "=r"(to[3]));
}

void processor_registers(struct registers *to) {
    for (int i = 0; i < 8; i++) {
        to->general[i] = (uint32_t)general[names[i]];
    }
    to->eip = (uint32_t)general[REG_RIP];
    to->eflags = (uint32_t)general[REG_EFL];
    to->of_linux = linux_state;
    get_segments(to->segments);
    to->extended_bytes = extended_bytes();
    copy_extended(to->extended, extended, to->extended_bytes);
}

/* The registers may be anybody's: Linux checks those of XSAVE when the handler returns. Returns FS's selector. */
static uint16_t set_registers(const struct registers *from) {
    uint16_t segments[4];
    for (int i = 0; i < 8; i++) {
        general[names[i]] = from->general[i];
    }
    general[REG_RIP] = from->eip;
    general[REG_EFL] = (from->eflags & USER_FLAGS) | FIXED_FLAGS;
    general[REG_CSGSFS] = CODE_32 | (greg_t)DATA_32 << 48; /* its last word is SS */
    for (int i = 0; i < 4; i++) {
        segments[i] = from->segments[i] ? DATA_32 : 0;
    }
    __asm__ volatile("mov %0, %%ds; mov %1, %%es; mov %2, %%gs" : : "r"(segments[0]), "r"(segments[1]), "r"(segments[3]));
    linux_state = from->of_linux;
    if (linux_state.thread) {
        __asm__ volatile("wrgsbase %0" : : "r"((uint64_t)linux_state.thread));
    }
    if (from->extended_bytes) {
        if (from->extended_bytes != extended_bytes()) {
            serve_end("its registers are another processor's", 0);
        }
        copy_extended(extended, from->extended, from->extended_bytes);
    } else {
        reset_extended();
    }
    return segments[2];
}

/* ---- What stopped the tenant */

static uint32_t eip(void) {
    return (uint32_t)general[REG_RIP];
}

static void on_linux_call(void) {
    const uint32_t arguments[] = {(uint32_t)general[REG_RBX], (uint32_t)general[REG_RCX], (uint32_t)general[REG_RDX],
                                  (uint32_t)general[REG_RSI], (uint32_t)general[REG_RDI]};
    general[REG_RAX] = linux_call((uint32_t)general[REG_RAX], arguments);
}

/* MOV of a register to GS, with the selector that set_thread_area gave. */
static bool loads_thread(void) {
    const uint8_t *at = (const uint8_t *)(uintptr_t)eip();
    uint32_t prefix = at[0] == 0x66;
    if (!linux_state.thread || at[prefix] != 0x8e || (at[prefix + 1] & 0xf8) != 0xe8) {
        return false;
    }
    __asm__ volatile("wrgsbase %0" : : "r"((uint64_t)linux_state.thread));
    general[REG_RIP] += prefix + 2;
    return true;
}

static void on_call(void) {
    if (linux_state.heap) {
        on_linux_call();
        return;
    }
    struct words words = {(uint32_t)general[REG_RAX], (uint32_t)general[REG_RBX], (uint32_t)general[REG_RCX],
                          (uint32_t)general[REG_RDX], (uint32_t)general[REG_RSI]};
    words = serve_call(words);
    general[REG_RAX] = words.eax;
    general[REG_RBX] = words.ebx;
    general[REG_RCX] = words.ecx;
    general[REG_RDX] = words.edx;
    general[REG_RSI] = words.esi;
}

static void on_page_fault(uint64_t address, uint64_t error) {
    if (error & ERROR_KEY) {
        serve_end("a protection key", eip());
    }
    serve_access(error & ERROR_FETCH ? ACCESS_FETCH : error & ERROR_WRITE ? ACCESS_STORE : ACCESS_LOAD, (uint32_t)address);
}

static void on_exception(uint32_t number) {
    static char what[] = "exception 00";
    what[10] = (char)('0' + number / 10 % 10);
    what[11] = (char)('0' + number % 10);
    serve_end(what, eip());
}

static void on_trap(uint64_t address) {
    uint64_t number = (uint64_t)general[REG_TRAPNO], error = (uint64_t)general[REG_ERR];
    if (number == TRAP_PAGE) {
        on_page_fault(address, error);
    } else if (number == TRAP_PROTECTION && error == ERROR_INT_80) { /* the host has no i386 table of calls */
        general[REG_RIP] += 2;
        on_call();
    } else if (number != TRAP_PROTECTION || error != (LINUX_SELECTOR & ~3) || !loads_thread()) {
        on_exception((uint32_t)number);
    }
}

/* A call by SYSENTER or SYSCALL would return to the host's own code. */
static void on_system_call(void) {
    if ((uint64_t)general[REG_RIP] >= END) {
        serve_end("another system call", 0);
    }
    on_call();
}

static void on_stop(int signal, const siginfo_t *why) {
    if ((general[REG_CSGSFS] & 0xffff) != CODE_32) {
        serve_end("64-bit code", 0);
    } else if (signal == SIGPROF) {
        serve_over();
    } else if (signal == SIGSYS) {
        on_system_call();
    } else {
        on_trap((uint64_t)(uintptr_t)why->si_addr);
    }
}

/* ---- The handler */

/* The C library needs its own base of FS, and aligns little. */
static void take_own_state(void) {
    const uint64_t alignment_check = 0x40000;
    __asm__ volatile("wrfsbase %0" : : "r"(own_base));
    __asm__ volatile("pushfq; notq %0; andq %0, (%%rsp); popfq" : : "r"(alignment_check) : "cc", "memory");
}

/* The tenant is behind the gate, where a turn isn't ended: its registers aren't in a frame. */
static bool is_behind_gate(const greg_t *frame) {
    uint64_t at = (uint64_t)frame[REG_RIP];
    return (frame[REG_CSGSFS] & 0xffff) != CODE_32 && (at >= END || at / PAGE_BYTES == GATE / PAGE_BYTES);
}

/* The frame gets what the tenant has, as if its jump to the gate had been int 0x80. */
static void leave_gate(void) {
    const struct words *words = &gate_state.words;
    const uint32_t values[] = {words->eax,     words->ecx,     words->edx, words->ebx,
                               gate_state.esp, gate_state.ebp, words->esi, gate_state.eip};
    for (int i = 0; i < 8; i++) {
        general[names[i]] = values[i];
    }
    general[REG_RIP] = gate_state.eip;
    general[REG_EFL] = FIXED_FLAGS;
    general[REG_CSGSFS] = CODE_32 | (greg_t)DATA_32 << 48;
}

/* Returns the tenant's FS. */
static uint16_t on_own_stop(ucontext_t *frame, uint16_t fs) {
    if (stop == STOP_BEGIN) {
        fs = set_registers(begin);
        sigemptyset(&frame->uc_sigmask);
    } else {
        fs = gate_fs;
        leave_gate();
        if (stop == STOP_CALL) {
            on_call();
        }
    }
    stop = STOP_NONE;
    return fs;
}

/* On a stack of its own, while all signals are blocked. Its return continues the tenant, or begins it. */
static void on_signal(int signal, siginfo_t *why, void *frame) {
    ucontext_t *all = frame;
    uint16_t fs;
    if (signal == SIGPROF && is_behind_gate(all->uc_mcontext.gregs)) {
        is_late = true;
        return;
    }
    __asm__ volatile("mov %%fs, %0" : "=r"(fs));
    take_own_state();
    general = all->uc_mcontext.gregs;
    extended = (uint8_t *)all->uc_mcontext.fpregs;
    if (stop) {
        fs = on_own_stop(all, fs);
    } else {
        on_stop(signal, why);
    }
    while (serve_is_over() || is_late) {
        is_late = false;
        serve_over();
    }
    __asm__ volatile("mov %0, %%fs" : : "r"(fs)); /* with its base, 0 */
}

/* ---- A run */

void processor_open(void) {
    const unsigned long sets_base = 2;
    need(getauxval(AT_HWCAP2) & sets_base, "the host lets programs set FS's base");
    need(prctl(PR_SET_TSC, PR_TSC_SIGSEGV) == 0, "no clock for tenants");
    clear(LOWEST, END - LOWEST, MAP_FIXED_NOREPLACE);
    __asm__ volatile("rdfsbase %0" : "=r"(own_base));
    gate_open(own_base);
}

void processor_prepare(void) {
    static const int signals[] = {SIGSEGV, SIGBUS, SIGILL, SIGFPE, SIGTRAP, SIGSYS, SIGPROF};
    const stack_t alternate = {.ss_sp = stack, .ss_size = sizeof stack};
    struct sigaction action = {.sa_sigaction = on_signal, .sa_flags = SA_SIGINFO | SA_ONSTACK};
    sigset_t ticks;
    need(sigfillset(&action.sa_mask) == 0 && sigaltstack(&alternate, NULL) == 0, "a stack for signals");
    for (size_t i = 0; i < sizeof signals / sizeof *signals; i++) {
        need(sigaction(signals[i], &action, NULL) == 0, "a handler");
    }
    sigemptyset(&ticks);
    sigaddset(&ticks, SIGPROF); /* none before the tenant runs */
    need(sigprocmask(SIG_BLOCK, &ticks, NULL) == 0, "a signal waits");
}

/* A signal of its own is the first. */
void processor_run(struct registers *from) {
    begin = from;
    stop = STOP_BEGIN;
    __builtin_trap();
}

void processor_stop(bool calls) {
    stop = calls ? STOP_CALL : STOP_GATE;
    __builtin_trap();
}

bool processor_is_late(void) {
    return is_late;
}
