/* The entry: a PVH note for QEMU's -kernel, 32-bit code, and the step into C in the upper half. The code turns on long
 * mode. The first GiB is mapped three times: at its own addresses, which only this file uses, from DIRECT_AT on with
 * the local APIC, and from IMAGE_AT on (place.h). C gets the command line that QEMU's start info names: EBX has the
 * place of that info, and at its byte 24 is the place of the command line. The other processors begin at `trampoline`,
 * in 16 bits, in a copy below 1 MiB. Then they take the same path. */
#include "wrong.h"
    .set PROCESSORS, 8                  /* MOST_PROCESSORS of processors.h */
    .set STACK_SHIFT, 16
    .set TABLE, 0x23 + 4 * WRONG_HALF   /* present, writable, accessed; of no process */
    .set LARGE, TABLE + 0x80            /* a page of 2 MiB */
    .set DEVICE, LARGE + 0x18           /* not cached */
    .section .note.pvh, "a", @note
    .balign 4
    .long 4, 8, 18                      /* name and value in bytes, XEN_ELFNOTE_PHYS32_ENTRY */
    .asciz "Xen"
    .quad start

    .section .boot.text, "ax"
    .code32
    .globl start
start:
    cli
    cld
    mov $level3_direct, %eax            /* level 4, entries 0 and 256: level 3 of the direct map */
    or $TABLE, %eax
    mov %eax, level4
    mov %eax, level4 + 256 * 8
    mov $level3_image, %eax             /* level 4, entry 511: level 3 of the image */
    or $TABLE, %eax
    mov %eax, level4 + 511 * 8
    mov $level2, %eax                   /* both have the first GiB */
    or $TABLE, %eax
    mov %eax, level3_direct
    mov %eax, level3_image + 510 * 8
    xor %ecx, %ecx                      /* level 2: 512 pages of 2 MiB */
1:  mov %ecx, %eax
    shl $21, %eax
    or $LARGE, %eax
    mov %eax, level2(,%ecx,8)
    inc %ecx
    cmp $512, %ecx
    jne 1b
    mov $level2_apic, %eax              /* the page of 2 MiB with the local APIC, not cached */
    or $TABLE, %eax
    mov %eax, level3_direct + 3 * 8
    movl $0xfee00000 + DEVICE, level2_apic + 503 * 8
    jmp long_mode

other_start:                            /* another processor, after its 16-bit code */
    mov $16, %eax
    mov %eax, %ds
    mov %eax, %es
    mov %eax, %ss

long_mode:
    mov $0x620, %eax                    /* CR4: PAE, OSFXSR, OSXMMEXCPT: the library's code uses SSE */
    mov %eax, %cr4
    mov $level4, %eax
    mov %eax, %cr3
    mov $0xc0000080, %ecx               /* EFER: LME */
    rdmsr
    or $0x100, %eax
    wrmsr
    mov $0x80010023, %eax               /* CR0: PG, WP, NE, MP, PE */
    mov %eax, %cr0
    lgdt boot_gdt_pointer
    ljmp $8, $2f
    .code64
2:  mov $16, %eax
    mov %eax, %ds
    mov %eax, %es
    mov %eax, %ss
    xor %eax, %eax
    mov %eax, %fs
    mov %eax, %gs
    xor %ebp, %ebp
    mov $1, %edi                        /* numbers are in the order in which processors come here */
    lock xadd %edi, next_number(%rip)
    cmp $PROCESSORS, %edi
    jae 4f
    lea 1(%rdi), %rsp
    shl $STACK_SHIFT, %rsp
    movabs $stacks, %rax
    add %rax, %rsp
    test %edi, %edi
    jnz 3f
    mov %ebx, %ebx
    mov 24(%rbx), %rdi
    movabs $0xffff800000000000, %rax
    add %rax, %rdi
    movabs $begin, %rax
    call *%rax
3:  movabs $begin_other, %rax
    call *%rax
4:  hlt
    jmp 4b

    .globl trampoline, trampoline_end
    .code16
trampoline:                             /* CS has the copy's place */
    cli
    cld
    mov %cs, %ax
    mov %ax, %ds
    lgdtl (low_gdt_pointer - trampoline)
    mov %cr0, %eax
    or $1, %eax
    mov %eax, %cr0
    ljmpl $24, $other_start
low_gdt_pointer:
    .word boot_gdt_pointer - boot_gdt - 1
    .long boot_gdt
trampoline_end:
    .code64

    .section .boot.data, "aw"
    .balign 8
boot_gdt:                               /* 8: code of 64 bits; 16: data; 24: code of 32 bits */
    .quad 0, 0x00af9b000000ffff, 0x00cf93000000ffff, 0x00cf9b000000ffff
boot_gdt_pointer:
    .word boot_gdt_pointer - boot_gdt - 1
    .quad boot_gdt
next_number: .long 0

    .section .boot.bss, "aw", @nobits
    .balign 4096
    .globl level4
level4: .skip 4096
level3_direct: .skip 4096
level3_image: .skip 4096
level2: .skip 4096
level2_apic: .skip 4096

    .section .bss
    .balign 4096
stacks: .skip PROCESSORS << STACK_SHIFT
    .section .note.GNU-stack, "", @progbits
