/* SPDX-License-Identifier: MIT */
/* The example's machine on qemu's aarch64 board `virt`: start code, the map of memory, a timer whose interrupts count periods, and
   text by semihosting. Interrupts have a stack of their own, and only count: no step of the engine is made in one. Their code uses
   no vector registers, so it needn't save those, which the engine's code uses. */
#include "machine.h"

#include <stdint.h>

unsigned char stack[STACK_BYTES] __attribute__((aligned(16)));
_Static_assert(STACK_BYTES == 16384, "the start code has this number");
static unsigned char interrupt_stack[1024] __attribute__((aligned(16), used));

/* At reset the vector registers are off. The program runs on the stack pointer SP_EL0, interrupts on SP_EL1. */
__asm__(".section .start, \"ax\"\n"
        ".globl _start\n"
        "_start:\n"
        "    mov x0, #0x300000\n"
        "    msr cpacr_el1, x0\n"
        "    ldr x0, =vectors\n"
        "    msr vbar_el1, x0\n"
        "    isb\n"
        "    ldr x0, =interrupt_stack + 1024\n"
        "    mov sp, x0\n"
        "    msr spsel, #0\n"
        "    ldr x0, =stack + 16384\n"
        "    mov sp, x0\n"
        "    ldr x0, =bss_begins\n"
        "    ldr x1, =bss_ends\n"
        "1:  cmp x0, x1\n"
        "    b.hs 2f\n"
        "    str xzr, [x0], #8\n"
        "    b 1b\n"
        "2:  bl map_memory\n"
        "    bl control_main\n"
        ".ltorg\n"
        ".text\n");

/* The vectors: the second is an interrupt while the program runs; no other is expected. */
__asm__(".balign 2048\n"
        "vectors:\n"
        "    b unexpected\n"
        "    .balign 128\n"
        "    stp x0, x1, [sp, #-160]!\n"
        "    stp x2, x3, [sp, #16]\n"
        "    stp x4, x5, [sp, #32]\n"
        "    stp x6, x7, [sp, #48]\n"
        "    stp x8, x9, [sp, #64]\n"
        "    stp x10, x11, [sp, #80]\n"
        "    stp x12, x13, [sp, #96]\n"
        "    stp x14, x15, [sp, #112]\n"
        "    stp x16, x17, [sp, #128]\n"
        "    stp x18, x30, [sp, #144]\n"
        "    bl interrupted\n"
        "    b go_on\n"
        "    .rept 14\n"
        "    .balign 128\n"
        "    b unexpected\n"
        "    .endr\n"
        "go_on:\n"
        "    ldp x2, x3, [sp, #16]\n"
        "    ldp x4, x5, [sp, #32]\n"
        "    ldp x6, x7, [sp, #48]\n"
        "    ldp x8, x9, [sp, #64]\n"
        "    ldp x10, x11, [sp, #80]\n"
        "    ldp x12, x13, [sp, #96]\n"
        "    ldp x14, x15, [sp, #112]\n"
        "    ldp x16, x17, [sp, #128]\n"
        "    ldp x18, x30, [sp, #144]\n"
        "    ldp x0, x1, [sp], #160\n"
        "    eret\n");

/* Maps the devices below 0x40000000 and the memory above as such. Without it all memory counts as a device's, in which the engine's
   unaligned accesses fault on a real machine. */
void map_memory(void) {
    static uint64_t blocks[512] __attribute__((aligned(4096)));
    uint64_t control;
    blocks[0] = 0x0 | 1ull << 54 | 1ull << 53 | 1 << 10 | 0 << 2 | 1;
    blocks[1] = 0x40000000 | 1 << 10 | 3 << 8 | 1 << 2 | 1;
    __asm__ volatile("msr mair_el1, %0" ::"r"(0xff00ull));
    __asm__ volatile("msr tcr_el1, %0" ::"r"(25ull | 1 << 8 | 1 << 10 | 3 << 12 | 1 << 23));
    __asm__ volatile("msr ttbr0_el1, %0" ::"r"((uintptr_t)blocks));
    __asm__ volatile("tlbi vmalle1\n dsb sy\n isb" ::: "memory");
    __asm__ volatile("mrs %0, sctlr_el1" : "=r"(control));
    __asm__ volatile("msr sctlr_el1, %0\n isb" ::"r"((control & ~2ull) | 1 << 12 | 1 << 2 | 1) : "memory");
}

/* The controller of interrupts (GIC, version 2), and the timer's number there. */
static volatile uint32_t *const distributor = (volatile uint32_t *)0x08000000;
static volatile uint32_t *const interface = (volatile uint32_t *)0x08010000;
enum { TIMER = 27 };

static volatile uint32_t periods;
static uint64_t period;

__attribute__((target("general-regs-only"))) void interrupted(void) {
    uint32_t which = interface[3];
    if ((which & 0x3ff) == TIMER) {
        __asm__ volatile("msr cntv_tval_el0, %0" ::"r"(period));
        periods = periods + 1;
    }
    interface[4] = which;
}

void begin_periods(void) {
    __asm__ volatile("mrs %0, cntfrq_el0" : "=r"(period));
    period /= 10000;
    distributor[0] = 1;
    distributor[0x100 / 4] = 1u << TIMER;
    interface[1] = 0xff;
    interface[0] = 1;
    __asm__ volatile("msr cntv_tval_el0, %0\n msr cntv_ctl_el0, %1\n isb" ::"r"(period), "r"(1ull));
    __asm__ volatile("msr daifclr, #2" ::: "memory");
}

void wait_for_period(void) {
    static uint32_t seen;
    __asm__ volatile("msr daifset, #2" ::: "memory");
    while (periods == seen) /* an interrupt ends wfi even while it is kept off, and is taken afterwards */
        __asm__ volatile("wfi\n msr daifclr, #2\n isb\n msr daifset, #2" ::: "memory");
    __asm__ volatile("msr daifclr, #2" ::: "memory");
    seen++;
}

static uint64_t ask_host(uint64_t operation, uint64_t argument) {
    register uint64_t r0 __asm__("x0") = operation;
    register uint64_t r1 __asm__("x1") = argument;
    __asm__ volatile("hlt #0xf000" : "+r"(r0) : "r"(r1) : "memory");
    return r0;
}

void say(const char *text) {
    ask_host(4, (uint64_t)text);
}

_Noreturn void leave(int status) {
    uint64_t why[2] = {0x20026, (uint64_t)status};
    for (;;)
        ask_host(0x18, (uint64_t)why);
}

void unexpected(void) {
    say("an exception that no one expects\n");
    leave(1);
}
