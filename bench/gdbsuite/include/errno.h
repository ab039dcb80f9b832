#ifndef ERRNO_H
#define ERRNO_H
extern int errno;
#define EINTR 4
#define ENOMEM 12
#define EINVAL 22
#endif
