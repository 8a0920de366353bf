/* SPDX-License-Identifier: MIT */
/* The example's machine on x86-64: a program with no C library, which asks Linux only to sleep, to write and to end it. */
#include "machine.h"

unsigned char stack[STACK_BYTES] __attribute__((aligned(16)));
_Static_assert(STACK_BYTES == 16384, "the start code has this number");

__asm__(".globl _start\n"
        "_start:\n"
        "    lea stack+16384(%rip), %rsp\n"
        "    call control_main\n");

static long ask_linux(long number, long a, long b, long c) {
    long result;
    __asm__ volatile("syscall" : "=a"(result) : "a"(number), "D"(a), "S"(b), "d"(c) : "rcx", "r11", "memory");
    return result;
}

void begin_periods(void) {
}

void wait_for_period(void) {
    static const long time[2] = {0, 100000};
    ask_linux(35, (long)time, 0, 0); /* nanosleep */
}

void say(const char *text) {
    long length = 0;
    while (text[length] != 0)
        length++;
    ask_linux(1, 1, (long)text, length); /* write */
}

_Noreturn void leave(int status) {
    for (;;)
        ask_linux(60, status, 0, 0); /* exit */
}
