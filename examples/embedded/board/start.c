/*
 * From reset to main, on a Cortex-M and, for the tests, on a 32-bit RISC-V: the
 * floating-point unit switched on, and the memory cleared. No variable has an initial
 * value but 0; memory.ld sees to it.
 */
#include <stdint.h>

#include "semihosting.h"

extern uint32_t clear_from[], clear_to[], stack_top[];
int main(void);

/* The unit is off after reset. It then rounds to nearest and keeps subnormal numbers (FPSCR
   is 0), as the library asks for. */
static void switch_floats_on(void)
{
#if defined(__ARM_FP)
    *(volatile uint32_t *)0xE000ED88 |= 0xFu << 20; /* CPACR: full access to coprocessors 10 and 11 */
    __asm__ volatile("dsb\n isb");
#endif
}

void reset(void)
{
    switch_floats_on();
    for (uint32_t *at = clear_from; at < clear_to; at++) {
        *at = 0;
    }
    leave(main());
}

#ifdef __riscv
__asm__(".pushsection .text.start\n.global _start\n_start:\n la sp, stack_top\n j reset\n.popsection");
#else
static void fault(void)
{
    say("a fault\n");
    leave(99);
}

/* What a Cortex-M finds at address 0: the stack, then reset and the other fourteen exceptions. */
__attribute__((section(".vectors"), used)) const struct {
    const void *stack;
    void (*handlers[15])(void);
} _start = {stack_top, {reset, fault, fault, fault, fault, fault, 0, 0, 0, 0, fault, fault, 0, fault, fault}};
#endif
