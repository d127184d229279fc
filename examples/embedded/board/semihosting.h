/* Semihosting: a debugger or an emulator prints and reads files for a program that has no operating
   system. */
#ifndef SEMIHOSTING_H
#define SEMIHOSTING_H

#include <stdint.h>

/* An operation by its number, with the block of words that it takes; gives back what the operation
   does. */
long semihosting(long operation, const void *block);

/* Prints a text. */
void say(const char *text);

/* Prints a number in decimal. */
void say_number(int64_t number);

/* Ends the program with an exit status. */
void leave(int status);

#endif
