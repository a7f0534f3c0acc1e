/* What the command needs of C's library where there is none; ../libc.c has it. */
#ifndef WEB_STDLIB_H
#define WEB_STDLIB_H
#include <stddef.h>
void *malloc(size_t size);
void *calloc(size_t count, size_t size);
void *realloc(void *old, size_t size);
void free(void *old);
void exit(int status) __attribute__((noreturn));
void qsort(void *base, size_t count, size_t size, int (*order)(const void *, const void *));
unsigned long long strtoull(const char *text, char **end, int base);
#endif
