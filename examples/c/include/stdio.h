/* Characters and formatted text, in and out. There are no files, and no floating point. */
#ifndef STDIO_H
#define STDIO_H

#include <stdarg.h>
#include <stddef.h>

#define EOF (-1)

#ifdef __cplusplus
extern "C" {
#endif

int getchar(void);
int putchar(int character);
int puts(const char *text);

__attribute__((format(printf, 1, 2))) int printf(const char *form, ...);
__attribute__((format(printf, 2, 3))) int sprintf(char *to, const char *form, ...);
__attribute__((format(printf, 3, 4))) int snprintf(char *to, size_t room, const char *form, ...);
int vprintf(const char *form, va_list arguments);
int vsnprintf(char *to, size_t room, const char *form, va_list arguments);

#ifdef __cplusplus
}
#endif

#endif
