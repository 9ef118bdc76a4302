#include "probe.h"
#include "raw.h"
#include "trial.h"

/* Instructions that a guest may not execute. ECX is the address of a place in a page that the guest may write. */
static const struct {
    uint8_t count, bytes[7];
} kernels_own[] = {
    {1, {0xf4}},                   /* hlt */
    {1, {0xfa}},                   /* cli */
    {1, {0xfb}},                   /* sti */
    {2, {0xe4, 0x21}},             /* in 33 */
    {2, {0xe6, 0xf4}},             /* out 244 */
    {1, {0x6c}},                   /* insb */
    {1, {0x6e}},                   /* outsb */
    {3, {0x0f, 0x20, 0xd8}},       /* mov cr3, eax */
    {3, {0x0f, 0x22, 0xd8}},       /* mov eax, cr3 */
    {3, {0x0f, 0x22, 0xc0}},       /* mov eax, cr0 */
    {3, {0x0f, 0x22, 0xe0}},       /* mov eax, cr4 */
    {3, {0x0f, 0x21, 0xf8}},       /* mov dr7, eax */
    {3, {0x0f, 0x23, 0xf8}},       /* mov eax, dr7 */
    {2, {0x0f, 0x06}},             /* clts */
    {3, {0x0f, 0x01, 0xe0}},       /* smsw eax */
    {3, {0x0f, 0x01, 0xf0}},       /* lmsw eax */
    {3, {0x0f, 0x01, 0x01}},       /* sgdt (ecx) */
    {3, {0x0f, 0x01, 0x09}},       /* sidt (ecx) */
    {3, {0x0f, 0x01, 0x11}},       /* lgdt (ecx) */
    {3, {0x0f, 0x01, 0x19}},       /* lidt (ecx) */
    {3, {0x0f, 0x00, 0xc0}},       /* sldt eax */
    {3, {0x0f, 0x00, 0xc8}},       /* str eax */
    {3, {0x0f, 0x00, 0xd0}},       /* lldt ax */
    {3, {0x0f, 0x00, 0xd8}},       /* ltr ax */
    {3, {0x0f, 0x01, 0x39}},       /* invlpg (ecx) */
    {2, {0x0f, 0x08}},             /* invd */
    {2, {0x0f, 0x09}},             /* wbinvd */
    {2, {0x0f, 0x30}},             /* wrmsr */
    {2, {0x0f, 0x32}},             /* rdmsr */
    {2, {0x0f, 0x31}},             /* rdtsc */
    {2, {0x0f, 0x33}},             /* rdpmc */
    {3, {0x0f, 0x01, 0xf9}},       /* rdtscp */
    {3, {0x0f, 0x01, 0xfd}},       /* rdpru */
    {3, {0x0f, 0x01, 0xd0}},       /* xgetbv */
    {2, {0x0f, 0xa2}},             /* cpuid */
    {2, {0x0f, 0x05}},             /* syscall */
    {2, {0x0f, 0x34}},             /* sysenter */
    {2, {0xcd, 0x80}},             /* int 128 */
    {1, {0xcc}},                   /* int3 */
    {1, {0xf1}},                   /* icebp */
    {1, {0xcf}},                   /* iret */
    {2, {0x0f, 0x0b}},             /* ud2 */
    {3, {0x0f, 0x01, 0xd8}},       /* vmrun */
    {3, {0x0f, 0x01, 0xda}},       /* vmload */
    {3, {0x0f, 0x01, 0xdb}},       /* vmsave */
    {3, {0x0f, 0x01, 0xdc}},       /* stgi */
    {3, {0x0f, 0x01, 0xdd}},       /* clgi */
    {3, {0x0f, 0x01, 0xde}},       /* skinit */
    {3, {0x0f, 0x01, 0xc8}},       /* monitor */
    {3, {0x0f, 0x01, 0xc9}},       /* mwait */
    {3, {0x0f, 0x01, 0xd1}},       /* xsetbv */
    {2, {0xd9, 0xee}},             /* fldz */
    {3, {0x0f, 0xef, 0xc0}},       /* pxor mm0, mm0 */
    {3, {0x0f, 0x57, 0xc0}},       /* xorps xmm0, xmm0 */
    {7, {0xea, 0, 0, 0, 0x40, 8}}, /* far jump to 8:40000000 */
    {2, {0x8e, 0xd9}},             /* mov cx, ds */
};

enum { COUNT = sizeof kernels_own / sizeof *kernels_own, ROOM = 16, EXIT_BREAKPOINT = 0x43, JUMP = 0xeb, BACK = 0xfe };

/* Puts an instruction at the start of the code, followed by a jump to itself, in both memories. */
static void put_instruction(uint32_t i) {
    for (uint32_t at = 0; at < ROOM; at++) {
        uint8_t behind = at == kernels_own[i].count ? JUMP : BACK;
        uint8_t byte = at < kernels_own[i].count ? kernels_own[i].bytes[at] : behind;
        raw[RAW_STUB * FRAME + at] = model[RAW_STUB * FRAME + at] = byte;
    }
}

void try_instructions(void) {
    begin_raw();
    let_slice_pass(); /* an interrupt is pending, as it may be after any guest */
    for (uint32_t i = 0; i < COUNT; i++) {
        put_instruction(i);
        open_probe(RAW_DIRECTORY, 0, STUB_AT + FRAME + 8, 0);
        start_slice();
        uint64_t exit = svm_run(probe(), RAW_IDENTIFIER);
        bool in_place = svm_eip(probe()) == STUB_AT || exit == EXIT_BREAKPOINT;
        if (exit == EXIT_INTERRUPT || exit == EXIT_CALL || !in_place) {
            say("instruction %u: exit %x at %x\n", i, (uint32_t)exit, svm_eip(probe()));
            fail("an instruction of the kernel's ends in an exit of its own");
        }
        compare_raw();
    }
    say("instructions: %u that are the kernel's own end in an exit\n", (uint32_t)COUNT);
}
