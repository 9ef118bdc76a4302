#define _GNU_SOURCE
#include "gate.h"

#include <string.h>
#include <sys/mman.h>

#include "../need.h"
#include "processor.h"
#include "serve.h"

struct gate_state gate_state;
uint16_t gate_fs;
/* For the code below: FS's base for the C library, a stack, and the far pointer to the tenant's 32-bit code. */
uint64_t gate_base, gate_stack[1024] __attribute__((aligned(64)));
struct {
    uint32_t eip;
    uint16_t segment;
} gate_back = {0, 0x23};
void gate_enter(void);

/* The tenant's memory isn't used: any of it may go during the call. */
__asm__(".text\n"
        "gate_enter:\n"
        "    mov %eax, gate_state(%rip)\n"
        "    mov %ebx, gate_state+4(%rip)\n"
        "    mov %ecx, gate_state+8(%rip)\n"
        "    mov %edx, gate_state+12(%rip)\n"
        "    mov %esi, gate_state+16(%rip)\n"
        "    mov %edi, gate_state+20(%rip)\n"
        "    mov %esp, gate_state+24(%rip)\n"
        "    mov %ebp, gate_state+28(%rip)\n"
        "    mov %fs, gate_fs(%rip)\n"
        "    mov gate_base(%rip), %rax\n"
        "    wrfsbase %rax\n"
        "    lea gate_stack+8192(%rip), %rsp\n"
        "    pushq $0x202\n" /* without alignment checks, and strings go up */
        "    popfq\n"
        "    call gate_call\n"
        "    mov gate_fs(%rip), %fs\n"
        "    mov gate_state(%rip), %eax\n"
        "    mov gate_state+4(%rip), %ebx\n"
        "    mov gate_state+8(%rip), %ecx\n"
        "    mov gate_state+12(%rip), %edx\n"
        "    mov gate_state+16(%rip), %esi\n"
        "    mov gate_state+20(%rip), %edi\n"
        "    mov %edi, gate_back(%rip)\n"
        "    mov gate_state+24(%rip), %esp\n"
        "    mov gate_state+28(%rip), %ebp\n"
        "    ljmpl *gate_back(%rip)\n");

void gate_open(uint64_t own_base) {
    static const uint8_t jump[] = {0xff, 0x25, 2, 0, 0, 0, 0x90, 0x90}; /* to the address that follows, which is aligned */
    void (*to)(void) = gate_enter;
    uint8_t *page = (uint8_t *)(uintptr_t)GATE;
    int flags = MAP_PRIVATE | MAP_ANONYMOUS | MAP_FIXED;
    gate_base = own_base;
    need(mmap(page, PAGE_BYTES, PROT_READ | PROT_WRITE, flags, -1, 0) == page, "there is a page for the gate");
    memcpy(page, jump, sizeof jump);
    memcpy(page + sizeof jump, &to, sizeof to);
    need(mprotect(page, PAGE_BYTES, PROT_READ | PROT_EXEC) == 0, "the gate is code");
}

/* If all registers are needed, a signal gets them. */
void gate_call(void) {
    const struct report call = {.kind = REPORT_CALL, .words = gate_state.words};
    if (has_registers(&call)) {
        processor_stop(true);
    }
    gate_state.words = serve_call(gate_state.words);
    if (serve_is_over() || processor_is_late()) {
        processor_stop(false);
    }
}
