/* The way into a process and back. traps.h has the layout of a process's registers. */
    .set VECTORS, 512                   /* of the area that FXSAVE fills */
    .set KERNEL_STACK, 688
    .set EXCEPTIONS, 32
    .set VECTOR_TIMER, 0x40
    .set VECTOR_SPURIOUS, 0xff
    .set USER_DATA, 0x23

/* A handler of 16 bytes for each vector. The processor pushes a code at some exceptions, and the handler a zero at the
 * others, and then the vector. */
    .text
    .globl handlers
    .balign 16
handlers:
    .set number, 0
    .rept 256
    .balign 16
    .if !(number == 8 || (number >= 10 && number <= 14) || number == 17 || number == 21 || number == 29 || number == 30)
    pushq $0
    .endif
    pushq $number
    jmp trap
    .set number, number + 1
    .endr

/* RSP is in the registers of the process that ran here: the processor loaded it from its TSS. At an interrupt of the
 * kernel's own it is on the kernel's stack. */
    .balign 16
trap:
    testb $3, 24(%rsp)                  /* CS: of a process, or the kernel's */
    jz from_kernel
    swapgs
    push %rax
    push %rbx
    push %rcx
    push %rdx
    push %rsi
    push %rdi
    push %rbp
    push %r8
    push %r9
    push %r10
    push %r11
    push %r12
    push %r13
    push %r14
    push %r15
    fxsave64 -VECTORS(%rsp)
    mov KERNEL_STACK - VECTORS(%rsp), %rsp
    push $2                             /* no flag of the process's stays: DF, AC and NT among them */
    popf
    pop %r15
    pop %r14
    pop %r13
    pop %r12
    pop %rbp
    pop %rbx
    ret                                 /* enter_process returns */

/* void enter_process(registers): runs a process until its next trap. */
    .globl enter_process
enter_process:
    push %rbx
    push %rbp
    push %r12
    push %r13
    push %r14
    push %r15
    mov %rsp, KERNEL_STACK(%rdi)
    fxrstor64 (%rdi)
    lea VECTORS(%rdi), %rsp
    swapgs
    mov $USER_DATA, %eax                /* no process leaves a segment to the next */
    mov %eax, %ds
    mov %eax, %es
    xor %eax, %eax
    mov %eax, %fs
    mov %eax, %gs
    pop %r15
    pop %r14
    pop %r13
    pop %r12
    pop %r11
    pop %r10
    pop %r9
    pop %r8
    pop %rbp
    pop %rdi
    pop %rsi
    pop %rdx
    pop %rcx
    pop %rbx
    pop %rax
    add $16, %rsp
    iretq

/* An interrupt that the kernel took as it rested: acknowledged, and that of the timer noted at GS:12. An exception ends
 * the run. */
from_kernel:
    cmpq $EXCEPTIONS, (%rsp)
    jb 2f
    cmpq $VECTOR_SPURIOUS, (%rsp)
    je 1f
    push %rax
    movabs $0xffff8000fee000b0, %rax
    movl $0, (%rax)
    pop %rax
    cmpq $VECTOR_TIMER, (%rsp)
    jne 1f
    movl $1, %gs:12
1:  add $16, %rsp
    iretq
2:  mov %rsp, %rdi
    and $-16, %rsp
    call exception
    .section .note.GNU-stack, "", @progbits
