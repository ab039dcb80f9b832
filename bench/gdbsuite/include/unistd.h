#ifndef UNISTD_H
#define UNISTD_H
#include <stddef.h>
#include <sys/types.h>
unsigned sleep(unsigned), alarm(unsigned);
int usleep(unsigned), getpid(void), getppid(void), close(int);
long write(int, const void *, size_t), read(int, void *, size_t);
void _exit(int) __attribute__((noreturn));
#endif
