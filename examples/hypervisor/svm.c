/* AMD's SVM with nested paging, for guests in 32-bit user mode. */
#include "svm.h"

/* Places in a VMCB: AMD64 Architecture Programmer's Manual, volume 2, appendix B. */
enum {
    INTERCEPT_CR = 0x000,
    INTERCEPT_DR = 0x004,
    INTERCEPT_EXCEPTIONS = 0x008,
    INTERCEPT_FIRST = 0x00c,
    INTERCEPT_SECOND = 0x010,
    IO_MAP = 0x040,
    MSR_MAP = 0x048,
    ASID = 0x058,
    TLB_CONTROL = 0x05c,
    VIRTUAL_INTERRUPTS = 0x060,
    EXIT_CODE = 0x070,
    EXIT_FIRST = 0x078,
    EXIT_SECOND = 0x080,
    NESTED_ON = 0x090,
    NESTED_CR3 = 0x0b0,
    SAVE = 0x400,
    SAVE_ES = SAVE + 0x00,
    SAVE_CS = SAVE + 0x10,
    SAVE_SS = SAVE + 0x20,
    SAVE_DS = SAVE + 0x30,
    SAVE_TR = SAVE + 0x90,
    SAVE_CPL = SAVE + 0xcb,
    SAVE_EFER = SAVE + 0xd0,
    SAVE_CR4 = SAVE + 0x148,
    SAVE_CR3 = SAVE + 0x150,
    SAVE_CR0 = SAVE + 0x158,
    SAVE_DR7 = SAVE + 0x160,
    SAVE_DR6 = SAVE + 0x168,
    SAVE_RFLAGS = SAVE + 0x170,
    SAVE_RIP = SAVE + 0x178,
    SAVE_RSP = SAVE + 0x1d8,
    SAVE_RAX = SAVE + 0x1f8,
    SAVE_PAT = SAVE + 0x268,
};

enum { MSR_EFER = 0xc0000080, MSR_VM_CR = 0xc0010114, MSR_HOST_SAVE = 0xc0010117, EFER_SVME = 1 << 12 };

void enter_guest(void *vmcb, void *more, void *host);

/* Each processor's own data. */
static struct own {
    uint8_t host_save[FRAME], host_vmcb[FRAME];
    uint64_t runs;
    bool forgets_all;
} __attribute__((aligned(4096))) own[MOST_PROCESSORS];

static _Alignas(FRAME) uint8_t all_ones[3 * FRAME];
static _Alignas(FRAME) uint64_t nested4[512], nested3[512], nested2[512], nested1[8][512];
static uint32_t identifiers;

static void set8(struct guest_cpu *cpu, int at, uint8_t value) {
    cpu->vmcb[at] = value;
}

static void set32(struct guest_cpu *cpu, int at, uint32_t value) {
    *(volatile uint32_t *)(cpu->vmcb + at) = value;
}

static void set64(struct guest_cpu *cpu, int at, uint64_t value) {
    *(volatile uint64_t *)(cpu->vmcb + at) = value;
}

static uint64_t get64(struct guest_cpu *cpu, int at) {
    return *(volatile uint64_t *)(cpu->vmcb + at);
}

static void cpuid(uint32_t leaf, uint32_t out[4]) {
    __asm__ volatile("cpuid" : "=a"(out[0]), "=b"(out[1]), "=c"(out[2]), "=d"(out[3]) : "a"(leaf), "c"(0));
}

void svm_start(void) {
    uint32_t out[4];
    cpuid(0x80000000, out);
    need(out[0] >= 0x8000000a, "the processor has SVM's leaf");
    cpuid(0x80000001, out);
    need(out[2] & 4, "the processor has SVM");
    need(!(read_msr(MSR_VM_CR) & 16), "SVM is not switched off");
    cpuid(0x8000000a, out);
    need(out[3] & 1, "the processor has nested paging");
    need(out[1] > 1, "the processor has an identifier for a guest");
    identifiers = out[1];
    write_msr(MSR_EFER, read_msr(MSR_EFER) | EFER_SVME);
    write_msr(MSR_HOST_SAVE, (uint64_t)own[this_processor()].host_save);
    memset(all_ones, 0xff, sizeof all_ones);
    __asm__ volatile("vmsave %0" : : "a"(own[this_processor()].host_vmcb) : "memory");
}

void svm_memory(uint8_t *block, uint32_t frames, bool writes_first) {
    enum { PRESENT = 1, WRITE = 2, USER = 4 };
    need(((uint64_t)block & (FRAME - 1)) == 0 && frames <= 4096, "a memory of at most 4,096 frames begins at a page");
    memset(nested1, 0, sizeof nested1);
    nested4[0] = (uint64_t)nested3 | PRESENT | WRITE | USER;
    nested3[0] = (uint64_t)nested2 | PRESENT | WRITE | USER;
    for (uint32_t i = 0; i < 8; i++) {
        nested2[i] = (uint64_t)nested1[i] | PRESENT | WRITE | USER;
    }
    for (uint32_t frame = 0; frame < frames; frame++) {
        nested1[frame / 512][frame % 512] =
            (uint64_t)(block + (size_t)frame * FRAME) | PRESENT | USER | (frame || writes_first ? WRITE : 0);
    }
    for (uint32_t i = 0; i < MOST_PROCESSORS; i++) {
        own[i].forgets_all = true;
    }
}

uint32_t svm_most_identifiers(void) {
    return identifiers - 1; /* 0 is the host's */
}

void svm_forget_page(uint32_t identifier, uint32_t page) {
    __asm__ volatile("invlpga %0, %1" : : "a"((uint64_t)page << 12), "c"(identifier) : "memory");
}

void svm_forget_all(void) {
    own[this_processor()].forgets_all = true;
}

static void segment(struct guest_cpu *cpu, int at, uint16_t selector, uint16_t kind) {
    set32(cpu, at, selector | (uint32_t)kind << 16);
    set32(cpu, at + 4, 0xffffffff);
    set64(cpu, at + 8, 0);
}

void svm_open(struct guest_cpu *cpu, uint32_t directory, uint32_t eip, uint32_t esp) {
    enum { CODE = 0xcfb, DATA = 0xcf3, TASK = 0x08b };
    memset(cpu, 0, sizeof *cpu);
    set32(cpu, INTERCEPT_CR, 0xffffffff);
    set32(cpu, INTERCEPT_DR, 0xffffffff);
    set32(cpu, INTERCEPT_EXCEPTIONS, 0xffffffff);
    /* All except: a virtual interrupt 4, a selective write of CR0 5, PUSHF 16, POPF 17, PAUSE 23. */
    set32(cpu, INTERCEPT_FIRST, ~(1u << 4 | 1u << 5 | 1u << 16 | 1u << 17 | 1u << 23));
    set32(cpu, INTERCEPT_SECOND, 0x7fff); /* all, up to RDPRU, which has bit 14 */
    set64(cpu, IO_MAP, (uint64_t)all_ones);
    set64(cpu, MSR_MAP, (uint64_t)all_ones);
    set32(cpu, VIRTUAL_INTERRUPTS + 0, 1u << 24); /* the guest's IF masks no interrupt of ours */
    set64(cpu, NESTED_ON, 1);
    set64(cpu, NESTED_CR3, (uint64_t)nested4);
    segment(cpu, SAVE_CS, 0x0b, CODE);
    segment(cpu, SAVE_DS, 0x13, DATA);
    segment(cpu, SAVE_ES, 0x13, DATA);
    segment(cpu, SAVE_SS, 0x13, DATA);
    segment(cpu, SAVE_TR, 0x18, TASK);
    set32(cpu, SAVE_TR + 4, 0);
    set8(cpu, SAVE_CPL, 3);
    set64(cpu, SAVE_EFER, EFER_SVME);  /* as VMRUN requires; no long mode */
    set64(cpu, SAVE_CR0, 0x8001003d);  /* PG, WP, NE, ET, TS, EM, PE: no FPU, no SSE */
    set64(cpu, SAVE_CR3, (uint64_t)directory * FRAME);
    set64(cpu, SAVE_CR4, 0);           /* no PSE, no PAE */
    set64(cpu, SAVE_DR6, 0xffff0ff0);
    set64(cpu, SAVE_DR7, 0x400);
    set64(cpu, SAVE_RFLAGS, 2);
    set64(cpu, SAVE_RIP, eip);
    set64(cpu, SAVE_RSP, esp);
    set64(cpu, SAVE_PAT, 0x0007040600070406);
}

uint64_t svm_run(struct guest_cpu *cpu, uint32_t identifier) {
    struct own *mine = &own[this_processor()];
    set32(cpu, ASID, identifier);
    set8(cpu, TLB_CONTROL, mine->forgets_all);
    mine->forgets_all = false;
    mine->runs++;
    enter_guest(cpu->vmcb, &cpu->more, mine->host_vmcb);
    __asm__ volatile("" : : : "memory");
    return get64(cpu, EXIT_CODE);
}

uint32_t svm_directory(struct guest_cpu *cpu) {
    return (uint32_t)(get64(cpu, SAVE_CR3) / FRAME);
}

uint32_t svm_fault_code(struct guest_cpu *cpu) {
    return (uint32_t)get64(cpu, EXIT_FIRST);
}

uint32_t svm_fault_address(struct guest_cpu *cpu) {
    return (uint32_t)get64(cpu, EXIT_SECOND);
}

uint32_t svm_eip(struct guest_cpu *cpu) {
    return (uint32_t)get64(cpu, SAVE_RIP);
}

void svm_set_eip(struct guest_cpu *cpu, uint32_t eip) {
    set64(cpu, SAVE_RIP, eip);
}

uint32_t svm_eax(struct guest_cpu *cpu) {
    return (uint32_t)get64(cpu, SAVE_RAX);
}

void svm_set_eax(struct guest_cpu *cpu, uint32_t eax) {
    set64(cpu, SAVE_RAX, eax);
}

void svm_past_call(struct guest_cpu *cpu) {
    enum { VMMCALL_BYTES = 3 };
    svm_set_eip(cpu, svm_eip(cpu) + VMMCALL_BYTES);
}

uint64_t svm_runs(void) {
    uint64_t runs = 0;
    for (uint32_t i = 0; i < MOST_PROCESSORS; i++) {
        runs += own[i].runs;
    }
    return runs;
}
