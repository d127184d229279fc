/* The platform on Linux. */
#include <inttypes.h>
#include <stdio.h>

#include "platform.h"

void say(const char *text)
{
    fputs(text, stdout);
}

void say_number(int64_t number)
{
    printf("%" PRId64, number);
}

long load(const char *name, char *to, size_t room)
{
    FILE *file = fopen(name, "rb");
    if (file == NULL) {
        return -1;
    }
    size_t length = fread(to, 1, room, file);
    int whole = !ferror(file) && fgetc(file) == EOF;
    fclose(file);
    return whole ? (long)length : -1;
}

int main(int count, char **names)
{
    return program(count - 1, names + 1);
}
