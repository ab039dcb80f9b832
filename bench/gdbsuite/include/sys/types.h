#ifndef TYPES_H
#define TYPES_H
typedef int pid_t;
typedef int ssize_t;
typedef long off_t;
typedef long time_t;
#endif
