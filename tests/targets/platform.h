/* What a test program takes from the machine that it runs on: stdio on Linux (hosted.c),
   semihosting without an operating system (bare.c). */
#ifndef PLATFORM_H
#define PLATFORM_H

#include <stddef.h>
#include <stdint.h>

/* Of a C library, or of bare.c and examples/embedded/board where there is none. */
void *memcpy(void *to, const void *from, size_t count);
void *memset(void *to, int byte, size_t count);
int memcmp(const void *one, const void *other, size_t count);
size_t strlen(const char *text);

/* Prints a text, and a number in decimal. */
void say(const char *text);
void say_number(int64_t number);

/* Reads a file to `to` and gives back its bytes; or -1 where it cannot be read, or is longer than
   `room`. */
long load(const char *name, char *to, size_t room);

/* The program, called with the words of its command line after its name; what it
   gives back is its exit status. */
int program(int count, char **names);

#endif
