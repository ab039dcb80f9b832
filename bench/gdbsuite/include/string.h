#ifndef STRING_H
#define STRING_H
#include <stddef.h>
void *memset(void *, int, size_t), *memcpy(void *, const void *, size_t), *memmove(void *, const void *, size_t);
int memcmp(const void *, const void *, size_t), strcmp(const char *, const char *), strncmp(const char *, const char *, size_t);
size_t strlen(const char *);
char *strcpy(char *, const char *), *strncpy(char *, const char *, size_t), *strcat(char *, const char *), *strdup(const char *);
char *strchr(const char *, int), *strrchr(const char *, int), *strerror(int);
#endif
