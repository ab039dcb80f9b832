#ifndef STDLIB_H
#define STDLIB_H
#include <stddef.h>
#define EXIT_SUCCESS 0
#define EXIT_FAILURE 1
#define RAND_MAX 0x7fffffff
void *malloc(size_t), *calloc(size_t, size_t), *realloc(void *, size_t), free(void *);
void exit(int) __attribute__((noreturn)), abort(void) __attribute__((noreturn)), srand(unsigned);
int atoi(const char *), abs(int), rand(void), atexit(void (*)(void)), setenv(const char *, const char *, int);
long atol(const char *);
char *getenv(const char *);
#endif
