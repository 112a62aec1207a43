/* Refuses one allocation of a program: the one whose number REFUSE_AT says, counted from 1. It is loaded before the program by
 * LD_PRELOAD. What the C library takes from itself isn't counted. */
#include <stddef.h>
#include <stdlib.h>

extern void *__libc_malloc(size_t size);
extern void *__libc_realloc(void *at, size_t size);

static unsigned long allocations;

static int is_refused(void) {
    const char *at = getenv("REFUSE_AT");
    allocations++;
    return at != NULL && strtoul(at, NULL, 10) == allocations;
}

void *malloc(size_t size) {
    return is_refused() ? NULL : __libc_malloc(size);
}

void *realloc(void *at, size_t size) {
    return is_refused() ? NULL : __libc_realloc(at, size);
}
