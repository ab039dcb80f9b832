// Refuses requests for memory of the program that it is put before by LD_PRELOAD. REFUSE in the environment says which: a number, that
// one alone, counted from 1; or `room`, each one after the program has written those four bytes. Where the program ends it reports on
// standard error how many requests there were before each `>` and each `holds` that was written, in all, and after `room`, and how
// many were refused.
#include <errno.h>
#include <stdio.h>
#include <stdlib.h>
#include <string.h>
#include <sys/syscall.h>
#include <unistd.h>

extern void *__libc_malloc(size_t);
extern void *__libc_calloc(size_t, size_t);
extern void *__libc_realloc(void *, size_t);
extern void *__libc_memalign(size_t, size_t);

enum { MOST_MARKS = 1024 };

static long asked, after_room, refused, number, marks[MOST_MARKS];
static int mark_count, refuses_all, is_room;

__attribute__((constructor)) static void begin(void) {
    const char *word = getenv("REFUSE");
    refuses_all = word && strcmp(word, "room") == 0;
    number = word ? atol(word) : 0;
    asked = 0;
}

static int is_refused(void) {
    asked++;
    after_room += is_room;
    int is = asked == number || (refuses_all && is_room);
    refused += is;
    if (is) errno = ENOMEM;
    return is;
}

void *malloc(size_t size) { return is_refused() ? NULL : __libc_malloc(size); }

void *calloc(size_t count, size_t size) { return is_refused() ? NULL : __libc_calloc(count, size); }

void *realloc(void *old, size_t size) { return is_refused() ? NULL : __libc_realloc(old, size); }

void *memalign(size_t alignment, size_t size) { return is_refused() ? NULL : __libc_memalign(alignment, size); }

void *aligned_alloc(size_t alignment, size_t size) { return memalign(alignment, size); }

int posix_memalign(void **place, size_t alignment, size_t size) {
    void *made = memalign(alignment, size);
    if (!made) return ENOMEM;
    *place = made;
    return 0;
}

static int is_text(const void *bytes, size_t size, const char *text) {
    return size == strlen(text) && memcmp(bytes, text, size) == 0;
}

ssize_t write(int file, const void *bytes, size_t size) {
    if (is_text(bytes, size, "room")) is_room = 1;
    if (mark_count < MOST_MARKS && (is_text(bytes, size, ">") || is_text(bytes, size, "holds"))) marks[mark_count++] = asked;
    return syscall(SYS_write, file, bytes, size);
}

ssize_t __write(int file, const void *bytes, size_t size) { return write(file, bytes, size); }

__attribute__((destructor)) static void end(void) {
    static char report[32 * MOST_MARKS];
    int length = sprintf(report, "marks");
    for (int i = 0; i < mark_count; i++) length += sprintf(report + length, " %ld", marks[i]);
    length += sprintf(report + length, "\nrequests %ld room %ld refused %ld\n", asked, after_room, refused);
    if (syscall(SYS_write, 2, report, length) != length) _exit(71);
}
