/* The heap of a session, over the C library's, for a program that has none of its own.
 *
 * This file is outside the proof. The three functions are weak: in libreis.a those of a program come in their place. */
#include "reis_heap.h"

#include <stdlib.h>

#pragma weak rattle_alloc
#pragma weak rattle_realloc
#pragma weak rattle_dealloc

/* What is pointed at where there is no block. */
static char nowhere;

static struct reis_block block_at(void *at) {
    struct reis_block block = {at != NULL, at != NULL ? at : &nowhere};
    return block;
}

/* A block of no byte is one too. */
static size_t at_least(size_t size, size_t align) {
    return size > 0 ? size : align;
}

struct reis_block rattle_alloc(size_t size, size_t align) {
    return block_at(malloc(at_least(size, align)));
}

/* realloc keeps as many bytes as both blocks have. */
struct reis_block rattle_realloc(void *at, size_t keep, size_t size, size_t align) {
    (void)keep;
    return block_at(realloc(at, at_least(size, align)));
}

void rattle_dealloc(void *at) {
    free(at);
}
