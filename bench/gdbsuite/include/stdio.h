#ifndef STDIO_H
#define STDIO_H
#include <stddef.h>
#include <stdarg.h>
#define EOF (-1)
#define BUFSIZ 512
#define _IONBF 2
typedef struct { int unused; } FILE;
extern FILE *stdin, *stdout, *stderr;
int printf(const char *, ...), fprintf(FILE *, const char *, ...), sprintf(char *, const char *, ...);
int snprintf(char *, size_t, const char *, ...), vsnprintf(char *, size_t, const char *, va_list), vsprintf(char *, const char *, va_list);
int vprintf(const char *, va_list), vfprintf(FILE *, const char *, va_list);
int puts(const char *), fputs(const char *, FILE *), putchar(int), fputc(int, FILE *), putc(int, FILE *), getchar(void), fflush(FILE *);
int setvbuf(FILE *, char *, int, size_t);
void perror(const char *), setbuf(FILE *, char *);
#endif
