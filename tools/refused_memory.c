// Loaded before a program, it refuses one of the program's requests for memory: that of the number REFUSED, counted from 1. At the
// program's end it writes how many there were into the file COUNTED, where one is named.
#define _GNU_SOURCE
#include <errno.h>
#include <stdio.h>
#include <stdlib.h>

extern void *__libc_malloc(size_t size);
extern void *__libc_realloc(void *old, size_t size);

static long count;

static int is_refused(void) {
    static long number = -1;
    if (number < 0) {
        const char *text = getenv("REFUSED");
        number = text ? atol(text) : 0;
    }
    count++;
    if (count == number)
        errno = ENOMEM;
    return count == number;
}

void *malloc(size_t size) { return is_refused() ? NULL : __libc_malloc(size); }

void *realloc(void *old, size_t size) { return is_refused() ? NULL : __libc_realloc(old, size); }

__attribute__((destructor)) static void tell(void) {
    const char *path = getenv("COUNTED");
    if (path) {
        long all = count;
        FILE *out = fopen(path, "w");
        if (out) {
            fprintf(out, "%ld\n", all);
            fclose(out);
        }
    }
}
