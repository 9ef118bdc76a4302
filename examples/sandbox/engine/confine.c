#define _GNU_SOURCE
#include "confine.h"

#include <fcntl.h>
#include <linux/audit.h>
#include <linux/capability.h>
#include <linux/filter.h>
#include <linux/seccomp.h>
#include <signal.h>
#include <stddef.h>
#include <stdio.h>
#include <sys/mman.h>
#include <sys/prctl.h>
#include <sys/resource.h>
#include <sys/syscall.h>
#include <unistd.h>

#include "../channel.h"
#include "../need.h"

void confine_first(pid_t kernel) {
    need(close_range(SOCKET + 1, ~0U, 0) == 0, "descriptors that were left open are closed");
    need(prctl(PR_SET_PDEATHSIG, SIGKILL) == 0, "the kernel's end is this process's");
    need(getppid() == kernel, "the kernel hasn't ended already");
}

/* The first three descriptors are /dev/null's, and the terminal's signals don't reach the process. */
static void leave_terminal(void) {
    int null = open("/dev/null", O_RDWR | O_CLOEXEC);
    for (int i = 0; i < SOCKET; i++) {
        need(dup2(null, i) == i, "a descriptor leads nowhere");
    }
    need(setsid() > 0 && close(null) == 0, "a session of its own");
}

static void limit(int which, uint64_t most) {
    const struct rlimit both = {most, most};
    need(setrlimit(which, &both) == 0, "a limit is set");
}

/* An engine needs no more memory than at its start. Also root's processes have no rights then. */
void confine_all(void) {
    enum { MORE = 1 << 20, FILES = 16 };
    const uint32_t trap = SECCOMP_RET_TRAP;
    struct __user_cap_header_struct header = {_LINUX_CAPABILITY_VERSION_3, 0};
    const struct __user_cap_data_struct none[2] = {{0, 0, 0}, {0, 0, 0}};
    unsigned long pages = 0;
    need(syscall(SYS_seccomp, SECCOMP_GET_ACTION_AVAIL, 0, &trap) == 0, "the host makes signals of system calls");
    leave_terminal();
    FILE *file = fopen("/proc/self/statm", "re");
    need(file && fscanf(file, "%lu", &pages) == 1, "the size of this process is known");
    fclose(file);
    limit(RLIMIT_AS, (uint64_t)pages * PAGE_BYTES + MORE);
    limit(RLIMIT_NOFILE, FILES);
    limit(RLIMIT_FSIZE, 0);
    limit(RLIMIT_CORE, 0);
    need(syscall(SYS_capset, &header, none) == 0, "this process has no rights of its own");
    need(prctl(PR_SET_NO_NEW_PRIVS, 1, 0, 0, 0) == 0, "no program gives this process more rights");
}

/* ---- System calls */

/* They are for the channel and its pages, the return from signals, and the end. Any other kills the process. */
static const uint32_t calls[] = {SYS_rt_sigreturn, SYS_futex, SYS_mmap, SYS_recvmsg, SYS_close, SYS_exit_group};

static struct sock_filter filter[64];
static unsigned short length;

static void add(struct sock_filter instruction) {
    need(length < sizeof filter / sizeof *filter, "a filter is short");
    filter[length++] = instruction;
}

static void load(size_t from) {
    add((struct sock_filter)BPF_STMT(BPF_LD | BPF_W | BPF_ABS, (uint32_t)from));
}

/* The next one is skipped unless the word is that one. */
static void unless(uint32_t word) {
    add((struct sock_filter)BPF_JUMP(BPF_JMP | BPF_JEQ | BPF_K, word, 0, 1));
}

static void end(uint32_t action) {
    add((struct sock_filter)BPF_STMT(BPF_RET | BPF_K, action));
}

/* Of mmap: what has rights is a file's, and is shared with it. */
static void forbid_new_memory(void) {
    load(offsetof(struct seccomp_data, nr));
    add((struct sock_filter)BPF_JUMP(BPF_JMP | BPF_JEQ | BPF_K, SYS_mmap, 0, 5));
    load(offsetof(struct seccomp_data, args[2]));
    add((struct sock_filter)BPF_JUMP(BPF_JMP | BPF_JEQ | BPF_K, PROT_NONE, 3, 0));
    load(offsetof(struct seccomp_data, args[3]));
    add((struct sock_filter)BPF_JUMP(BPF_JMP | BPF_JSET | BPF_K, MAP_ANONYMOUS | MAP_PRIVATE, 0, 1));
    end(SECCOMP_RET_KILL_PROCESS);
}

void confine(void) {
    load(offsetof(struct seccomp_data, arch));
    add((struct sock_filter)BPF_JUMP(BPF_JMP | BPF_JEQ | BPF_K, AUDIT_ARCH_X86_64, 1, 0));
    end(SECCOMP_RET_TRAP); /* a tenant's call */
    forbid_new_memory();
    load(offsetof(struct seccomp_data, nr));
    for (size_t i = 0; i < sizeof calls / sizeof *calls; i++) {
        unless(calls[i]);
        end(SECCOMP_RET_ALLOW);
    }
    end(SECCOMP_RET_KILL_PROCESS);
    const struct sock_fprog program = {length, filter};
    need(prctl(PR_SET_SECCOMP, SECCOMP_MODE_FILTER, &program) == 0, "the host filters system calls");
}
