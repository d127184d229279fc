/* What the header takes from <stddef.h>, for the toolchain's clang, which has no headers of its
   own. */
#ifndef POLGAMIR_FREESTANDING_STDDEF_H
#define POLGAMIR_FREESTANDING_STDDEF_H

typedef __SIZE_TYPE__ size_t;
#define NULL ((void *)0)
#define offsetof(type, field) __builtin_offsetof(type, field)

#endif
