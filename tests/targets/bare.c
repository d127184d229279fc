/* The platform without an operating system, by semihosting: examples/embedded/board starts it. */
#include "../../examples/embedded/board/semihosting.h"
#include "platform.h"

enum { OPEN = 0x01, CLOSE = 0x02, READ = 0x06, LENGTH = 0x0C, COMMAND_LINE = 0x15 };

long load(const char *name, char *to, size_t room)
{
    uintptr_t open[3] = {(uintptr_t)name, 1, strlen(name)}; /* 1: "rb" */
    long file = semihosting(OPEN, open);
    if (file < 0) {
        return -1;
    }
    uintptr_t block[3] = {(uintptr_t)file, (uintptr_t)to, 0};
    long length = semihosting(LENGTH, block);
    long left = -1;
    if (length >= 0 && (size_t)length <= room) {
        block[2] = (uintptr_t)length;
        left = semihosting(READ, block);
    }
    semihosting(CLOSE, block);
    return left == 0 ? length : -1;
}

int memcmp(const void *one, const void *other, size_t count)
{
    const unsigned char *a = one, *b = other;
    while (count > 0 && *a == *b) {
        a++;
        b++;
        count--;
    }
    return count == 0 ? 0 : *a - *b;
}

size_t strlen(const char *text)
{
    size_t length = 0;
    while (text[length] != '\0') {
        length++;
    }
    return length;
}

/* Runs the program with the words of the command line after its name. */
int main(void)
{
    static char line[2048];
    static char *names[64];
    uintptr_t block[2] = {(uintptr_t)line, sizeof line};
    int count = 0;
    semihosting(COMMAND_LINE, block);
    for (char *at = line; *at != '\0' && count < 64; count++) {
        names[count] = at;
        while (*at != '\0' && *at != ' ') {
            at++;
        }
        while (*at == ' ') {
            *at++ = '\0';
        }
    }
    return program(count - 1, names + 1);
}
