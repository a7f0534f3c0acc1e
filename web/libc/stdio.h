/* What the command needs of C's library where there is none; ../libc.c has it. */
#ifndef WEB_STDIO_H
#define WEB_STDIO_H
#include <stdarg.h>
#include <stddef.h>
int vsnprintf(char *to, size_t room, const char *form, va_list words);
int snprintf(char *to, size_t room, const char *form, ...);
#endif
