/* The programs, as ELF files, with their names. */
    .section .rodata
    .macro program name
    .balign 8
\name: .incbin "\name\().elf"
\name\()_end:
\name\()_name: .asciz "\name"
    .endm
    .macro entry name
    .quad \name\()_name, \name, \name\()_end
    .endm
    program init
    program hello
    program tree
    program giver
    program taker
    program stray
    program greedy
    program spinner
    program parent
    program stress
    program team
    program family
    program hostile
    program neighbor
    program wide
    .balign 8
    .globl programs
programs:                               /* in the order of calls.h */
    entry init
    entry hello
    entry tree
    entry giver
    entry taker
    entry stray
    entry greedy
    entry spinner
    entry parent
    entry stress
    entry team
    entry family
    entry hostile
    entry neighbor
    entry wide
    .section .note.GNU-stack, "", @progbits
