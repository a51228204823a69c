/* As stddef.h here. */
#ifndef STDIO_H
#define STDIO_H

#include <stddef.h>

typedef struct file FILE;
extern FILE *stderr;
int printf(const char *format, ...);
int fprintf(FILE *file, const char *format, ...);

#endif
