#ifndef TIME_H
#define TIME_H
#include <sys/types.h>
struct timeval { long tv_sec, tv_usec; };
int gettimeofday(struct timeval *, void *);
#endif
