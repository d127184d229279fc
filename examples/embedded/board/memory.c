/*
 * All that the library takes from outside on a Cortex-M, beside what the compiler's own libgcc has.
 * A C library has both as well. What the library moves is nearly always words of four bytes.
 */
#include <stddef.h>
#include <stdint.h>

void *memcpy(void *to, const void *from, size_t count);
void *memset(void *to, int byte, size_t count);

/* A word that may stand where bytes stood. */
typedef uint32_t __attribute__((may_alias)) word;

void *memcpy(void *to, const void *from, size_t count)
{
    unsigned char *a = to;
    const unsigned char *b = from;
    if ((((uintptr_t)a | (uintptr_t)b) & 3) == 0) {
        for (; count >= 4; count -= 4, a += 4, b += 4) {
            *(word *)a = *(const word *)b;
        }
    }
    while (count-- > 0) {
        *a++ = *b++;
    }
    return to;
}

void *memset(void *to, int byte, size_t count)
{
    unsigned char *a = to;
    if (((uintptr_t)a & 3) == 0) {
        for (; count >= 4; count -= 4, a += 4) {
            *(word *)a = 0x01010101u * (unsigned char)byte;
        }
    }
    while (count-- > 0) {
        *a++ = (unsigned char)byte;
    }
    return to;
}
