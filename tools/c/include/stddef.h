/* What the C programs here use of the standard headers, for the kit's clang, which has none. Only tools/c/build takes these. */
#ifndef STDDEF_H
#define STDDEF_H

typedef __SIZE_TYPE__ size_t;
#define NULL ((void *)0)

#endif
