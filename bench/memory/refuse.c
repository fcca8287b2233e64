/* Refuses one request for memory of a program, by its number over all of them, counted from 1: a library that is loaded in front of
 * the program's own (LD_PRELOAD). REFUSE is the number, and the file REFUSED is made when that request comes. */
#define _GNU_SOURCE
#include <errno.h>
#include <fcntl.h>
#include <stdatomic.h>
#include <stddef.h>
#include <stdlib.h>
#include <unistd.h>

extern void *__libc_malloc(size_t size);
extern void *__libc_calloc(size_t count, size_t size);
extern void *__libc_realloc(void *old, size_t size);

static atomic_long requests;
static atomic_int begun;

/* What is asked for before this, while the system loads the program, isn't counted. */
__attribute__((constructor)) static void begin(void) {
    begun = 1;
}

/* Whether this request is the one. */
static int is_refused(void) {
    const char *number = begun ? getenv("REFUSE") : NULL;
    if (number == NULL || atomic_fetch_add(&requests, 1) + 1 != atol(number)) {
        return 0;
    }
    const char *told = getenv("REFUSED");
    int file = told == NULL ? -1 : open(told, O_WRONLY | O_CREAT, 0600);
    if (file >= 0) {
        close(file);
    }
    errno = ENOMEM;
    return 1;
}

void *malloc(size_t size) {
    return is_refused() ? NULL : __libc_malloc(size);
}

void *calloc(size_t count, size_t size) {
    return is_refused() ? NULL : __libc_calloc(count, size);
}

void *realloc(void *old, size_t size) {
    return is_refused() ? NULL : __libc_realloc(old, size);
}
