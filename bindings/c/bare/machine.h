/* SPDX-License-Identifier: MIT */
/* What the example asks of its machine: virt.c is for qemu's aarch64 board `virt`, linux.c for x86-64, as a program that Linux
   starts. Each begins at _start, sets the stack, and calls control_main. */
#ifndef MACHINE_H
#define MACHINE_H

enum { STACK_BYTES = 16384 };

/* The stack, of which the highest byte is used first. */
extern unsigned char stack[STACK_BYTES];

/* Begins to count periods of the loop, of 100 microseconds each. */
void begin_periods(void);

/* Waits until the next period begins. */
void wait_for_period(void);

/* Shows the text to the machine's user. */
void say(const char *text);

/* Ends the program with this status. */
_Noreturn void leave(int status);

/* The example. */
_Noreturn void control_main(void);

#endif
