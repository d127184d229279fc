/* What the header takes from <stdint.h>, for the toolchain's clang, which has no headers of its
   own. */
#ifndef POLGAMIR_FREESTANDING_STDINT_H
#define POLGAMIR_FREESTANDING_STDINT_H

typedef __UINT32_TYPE__ uint32_t;
typedef __INT64_TYPE__ int64_t;
typedef __UINT64_TYPE__ uint64_t;

#endif
