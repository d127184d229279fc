#include "semihosting.h"

#ifdef __riscv
__asm__(".pushsection .text.semihosting\n.balign 16\n.global semihosting\n.option push\n.option norvc\n"
        "semihosting:\n slli zero, zero, 0x1f\n ebreak\n srai zero, zero, 7\n ret\n"
        ".option pop\n.popsection");
#else
__asm__(".pushsection .text.semihosting\n.balign 4\n.thumb\n.global semihosting\n.thumb_func\n"
        "semihosting:\n bkpt 0xAB\n bx lr\n"
        ".popsection");
#endif

void say(const char *text)
{
    semihosting(0x04, text); /* SYS_WRITE0 */
}

void say_number(int64_t number)
{
    char digits[24], *at = digits + sizeof digits - 1;
    uint64_t left = number < 0 ? 0 - (uint64_t)number : (uint64_t)number;
    *at = '\0';
    do {
        *--at = (char)('0' + left % 10);
        left /= 10;
    } while (left != 0);
    if (number < 0) {
        *--at = '-';
    }
    say(at);
}

void leave(int status)
{
    uintptr_t block[2] = {0x20026, (uintptr_t)status}; /* the application ended */
    semihosting(0x20, block);                          /* SYS_EXIT_EXTENDED */
    for (;;) {
    }
}
