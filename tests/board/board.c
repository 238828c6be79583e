/* What stands around the play on a machine without an operating system: the start, a line of text and the end by semihosting, in which
 * an emulator does what the program asks. For Cortex-M33 (mps2-an505), RV32 (virt, machine mode) and AArch64 (virt, EL1). */
#include <stdint.h>

int main(void);
void say(const char *line);
void board_main(void);

/* The operations of semihosting, and why a program ends. */
#define WRITE0 4
#define EXIT 24
#define ENDED_WELL 0x20026u
#define ENDED_BADLY 0x20023u

static void semihost(long operation, const void *argument) {
#if defined __arm__
    register long r0 __asm__("r0") = operation;
    register const void *r1 __asm__("r1") = argument;
    __asm__ volatile("bkpt 0xab" : "+r"(r0) : "r"(r1) : "memory");
#elif defined __riscv
    register long a0 __asm__("a0") = operation;
    register const void *a1 __asm__("a1") = argument;
    __asm__ volatile("call semihost_riscv" : "+r"(a0) : "r"(a1) : "ra", "memory");
#elif defined __aarch64__
    register long x0 __asm__("x0") = operation;
    register const void *x1 __asm__("x1") = argument;
    __asm__ volatile("hlt 0xf000" : "+r"(x0) : "r"(x1) : "memory");
#endif
}

void say(const char *line) {
    semihost(WRITE0, line);
}

/* The memory of the program is loaded whole, zeros too (board.ld), so that nothing is copied or cleared first. */
void board_main(void) {
    uintptr_t why = main() == 0 ? ENDED_WELL : ENDED_BADLY;
#if defined __aarch64__
    uint64_t block[2];
    block[0] = why;
    block[1] = why != ENDED_WELL;
    semihost(EXIT, block);
#else
    semihost(EXIT, (const void *)why);
#endif
    for (;;) {
    }
}

#if defined __arm__
extern uint8_t board_stack[];

static void stopped(void) {
    say("a fault of the processor\n");
    semihost(EXIT, (const void *)(uintptr_t)ENDED_BADLY);
    for (;;) {
    }
}

__attribute__((section(".start"), used)) static const uintptr_t vectors[16] = {
    (uintptr_t)board_stack, (uintptr_t)board_main, (uintptr_t)stopped, (uintptr_t)stopped,
    (uintptr_t)stopped,     (uintptr_t)stopped,    (uintptr_t)stopped, (uintptr_t)stopped,
};
#elif defined __riscv
__attribute__((used)) void board_fault(void);

void board_fault(void) {
    say("a fault of the processor\n");
    semihost(EXIT, (const void *)(uintptr_t)ENDED_BADLY);
    for (;;) {
    }
}

/* The three instructions of semihosting are known by their form: none is compressed, and they lie in one page. */
__asm__(".pushsection .start, \"ax\"\n"
        ".option push\n"
        ".option norvc\n"
        ".option norelax\n"
        ".option arch, +zicsr\n"
        ".globl _start\n"
        "_start:\n"
        "    la sp, board_stack\n"
        "    la t0, 1f\n"
        "    csrw mtvec, t0\n"
        "    call board_main\n"
        "1:  call board_fault\n"
        ".globl semihost_riscv\n"
        "semihost_riscv:\n"
        "    slli zero, zero, 0x1f\n"
        "    ebreak\n"
        "    srai zero, zero, 7\n"
        "    ret\n"
        ".option pop\n"
        ".popsection\n");
#elif defined __aarch64__
/* Memory as any system has it, so that an address needs no alignment: one gigabyte of devices, and one of memory from 0x40000000 on. */
__attribute__((used, aligned(4096))) static uint64_t table[512] = {0x401u | 0u << 2, 0x40000000u | 0x701u | 1u << 2};

__asm__(".pushsection .start, \"ax\"\n"
        ".globl _start\n"
        "_start:\n"
        "    ldr x0, =board_stack\n"
        "    mov sp, x0\n"
        "    ldr x0, =table\n"
        "    msr ttbr0_el1, x0\n"
        "    mov x0, #0xff00\n" /* attribute 0: device, 1: memory */
        "    msr mair_el1, x0\n"
        "    ldr x0, =0x803519\n" /* 39 bits of address, pages of 4 KiB, no second table */
        "    msr tcr_el1, x0\n"
        "    isb\n"
        "    mrs x0, sctlr_el1\n"
        "    mov x1, #0x1005\n"
        "    orr x0, x0, x1\n"
        "    bic x0, x0, #2\n"
        "    msr sctlr_el1, x0\n"
        "    isb\n"
        "    b board_main\n"
        ".popsection\n");
#endif
