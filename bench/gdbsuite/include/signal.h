#ifndef SIGNAL_H
#define SIGNAL_H
typedef void (*sighandler_t)(int);
sighandler_t signal(int, sighandler_t);
#define SIGINT 2
#define SIGABRT 6
#define SIGFPE 8
#define SIGUSR1 10
#define SIGSEGV 11
#define SIGALRM 14
#define SIGTERM 15
#endif
