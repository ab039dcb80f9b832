/* What the programs of gdb's test suite need of a C library. Nothing is written and nothing is read: tests that look at input or output
   of a program do not run here. */
#include <stdarg.h>
#include <stdio.h>
#include <stdlib.h>
#include <string.h>
#include <unistd.h>
#include <errno.h>
#include <signal.h>
#include <sys/time.h>

int main(int, char **, char **);

int errno;
FILE *stdin, *stdout, *stderr;
char **environ;

void _exit(int status) { for (;;); }
void exit(int status) { _exit(status); }
void abort(void) { _exit(134); }

void enter(void)
{
    static char *arguments[] = { "program", 0 }, *variables[] = { 0 };
    environ = variables;
    exit(main(1, arguments, variables));
}

/* Memory */

extern char heap_start[];
static char *heap = heap_start;

void *malloc(size_t size)
{
    size_t *place = (size_t *) (((unsigned long) heap + 15) & ~7ul);
    heap = (char *) place + size;
    place[-1] = size;
    return place;
}
void free(void *place) { }
void *calloc(size_t count, size_t size) { return memset(malloc(count * size), 0, count * size); }
void *realloc(void *place, size_t size)
{
    void *made = malloc(size);
    if (place)
        memcpy(made, place, ((size_t *) place)[-1] < size ? ((size_t *) place)[-1] : size);
    return made;
}

void *memset(void *place, int byte, size_t size)
{
    for (char *at = place; size--;)
        *at++ = byte;
    return place;
}
void *memcpy(void *place, const void *from, size_t size)
{
    const char *source = from;
    for (char *at = place; size--;)
        *at++ = *source++;
    return place;
}
void *memmove(void *place, const void *from, size_t size)
{
    if (place <= from)
        return memcpy(place, from, size);
    while (size--)
        ((char *) place)[size] = ((const char *) from)[size];
    return place;
}
int memcmp(const void *first, const void *second, size_t size)
{
    const unsigned char *one = first, *other = second;
    for (; size--; one++, other++)
        if (*one != *other)
            return *one - *other;
    return 0;
}

/* Strings */

size_t strlen(const char *text)
{
    const char *end = text;
    while (*end)
        end++;
    return end - text;
}
char *strcpy(char *place, const char *text) { return memcpy(place, text, strlen(text) + 1); }
char *strncpy(char *place, const char *text, size_t size)
{
    size_t length = strlen(text);
    memset(place, 0, size);
    return memcpy(place, text, length < size ? length : size);
}
char *strcat(char *place, const char *text) { strcpy(place + strlen(place), text); return place; }
int strcmp(const char *first, const char *second)
{
    while (*first && *first == *second)
        first++, second++;
    return (unsigned char) *first - (unsigned char) *second;
}
int strncmp(const char *first, const char *second, size_t size)
{
    for (; size && *first && *first == *second; size--)
        first++, second++;
    return size ? (unsigned char) *first - (unsigned char) *second : 0;
}
char *strchr(const char *text, int byte)
{
    for (; *text != (char) byte; text++)
        if (!*text)
            return 0;
    return (char *) text;
}
char *strrchr(const char *text, int byte)
{
    char *found = 0;
    do
        if (*text == (char) byte)
            found = (char *) text;
    while (*text++);
    return found;
}
char *strdup(const char *text) { return strcpy(malloc(strlen(text) + 1), text); }
char *strerror(int number) { return "error"; }
char *getenv(const char *name) { return 0; }
int setenv(const char *name, const char *value, int over) { return 0; }

/* Numbers */

int atoi(const char *text)
{
    int number = 0, sign = *text == '-' ? text++, -1 : 1;
    while (*text >= '0' && *text <= '9')
        number = 10 * number + *text++ - '0';
    return sign * number;
}
long atol(const char *text) { return atoi(text); }
int abs(int number) { return number < 0 ? -number : number; }

static unsigned seed = 1;
void srand(unsigned start) { seed = start; }
int rand(void) { return (seed = seed * 1103515245 + 12345) >> 1 & RAND_MAX; }

/* gcc calls these for 64-bit numbers. */
unsigned long long __udivmoddi4(unsigned long long first, unsigned long long second, unsigned long long *rest)
{
    unsigned long long quotient = 0, left = 0;
    for (int bit = 63; bit >= 0; bit--) {
        left = left << 1 | (first >> bit & 1);
        if (left >= second) {
            left -= second;
            quotient |= 1ull << bit;
        }
    }
    if (rest)
        *rest = left;
    return quotient;
}
unsigned long long __udivdi3(unsigned long long first, unsigned long long second) { return __udivmoddi4(first, second, 0); }
unsigned long long __umoddi3(unsigned long long first, unsigned long long second)
{
    unsigned long long rest;
    __udivmoddi4(first, second, &rest);
    return rest;
}
long long __divdi3(long long first, long long second)
{
    unsigned long long quotient = __udivdi3(first < 0 ? -first : first, second < 0 ? -second : second);
    return (first < 0) == (second < 0) ? quotient : -quotient;
}
long long __moddi3(long long first, long long second) { return first - second * __divdi3(first, second); }

/* Output, which goes nowhere but into memory */

static int format(char *place, size_t size, const char *text, va_list values)
{
    size_t count = 0;
#define PUT(byte) do { if (count + 1 < size) place[count] = (byte); count++; } while (0)
    for (; *text; text++) {
        if (*text != '%') {
            PUT(*text);
            continue;
        }
        int is_long = 0, width = 0;
        char pad = ' ';
        while (strchr("-+ #0123456789.", *++text) && *text) {
            if (*text == '0' && !width)
                pad = '0';
            else if (*text >= '0' && *text <= '9')
                width = 10 * width + *text - '0';
        }
        while (*text == 'l' || *text == 'h' || *text == 'z')
            is_long += *text++ == 'l';
        if (*text == 's') {
            for (const char *from = va_arg(values, const char *); from && *from; from++)
                PUT(*from);
        } else if (*text == 'c') {
            PUT(va_arg(values, int));
        } else if (*text && strchr("dioxXup", *text)) {
            int is_signed = *text == 'd' || *text == 'i';
            unsigned base = strchr("xXp", *text) ? 16 : *text == 'o' ? 8 : 10;
            unsigned long long number = is_long > 1 ? va_arg(values, unsigned long long)
                : is_signed ? (unsigned long long) (long long) va_arg(values, int) : va_arg(values, unsigned);
            char digits[24];
            int length = 0, is_negative = is_signed && (long long) number < 0;
            if (is_negative)
                number = -number;
            do
                digits[length++] = "0123456789abcdef"[number % base];
            while (number /= base);
            for (int fill = width - length - is_negative; fill > 0; fill--)
                PUT(pad);
            if (is_negative)
                PUT('-');
            while (length)
                PUT(digits[--length]);
        } else if (*text) {
            PUT(*text);
        } else
            break;
    }
    if (size)
        place[count < size ? count : size - 1] = 0;
    return count;
}

int vsnprintf(char *place, size_t size, const char *text, va_list values) { return format(place, size, text, values); }
int vsprintf(char *place, const char *text, va_list values) { return format(place, 1 << 20, text, values); }
int snprintf(char *place, size_t size, const char *text, ...)
{
    va_list values;
    va_start(values, text);
    return format(place, size, text, values);
}
int sprintf(char *place, const char *text, ...)
{
    va_list values;
    va_start(values, text);
    return format(place, 1 << 20, text, values);
}
int printf(const char *text, ...) { return strlen(text); }
int fprintf(FILE *file, const char *text, ...) { return strlen(text); }
int vprintf(const char *text, va_list values) { return strlen(text); }
int vfprintf(FILE *file, const char *text, va_list values) { return strlen(text); }
int puts(const char *text) { return 1; }
int fputs(const char *text, FILE *file) { return 1; }
int putchar(int byte) { return byte; }
int fputc(int byte, FILE *file) { return byte; }
int putc(int byte, FILE *file) { return byte; }
int getchar(void) { return EOF; }
int fflush(FILE *file) { return 0; }
void perror(const char *text) { }
void setbuf(FILE *file, char *buffer) { }
int setvbuf(FILE *file, char *buffer, int mode, size_t size) { return 0; }

/* The system */

unsigned sleep(unsigned seconds)
{
    for (volatile unsigned turn = 0; turn < 100 * seconds; turn++);
    return 0;
}
int usleep(unsigned time) { return 0; }
unsigned alarm(unsigned seconds) { return 0; }
int getpid(void) { return 1; }
int getppid(void) { return 1; }
long write(int file, const void *content, size_t size) { return size; }
long read(int file, void *content, size_t size) { return 0; }
int close(int file) { return 0; }
int atexit(void (*function)(void)) { return 0; }
int gettimeofday(struct timeval *time, void *zone) { return 0; }
void __assert_fail(void) { abort(); }
sighandler_t signal(int number, sighandler_t handler) { return 0; }
