/* The heap of libreis, for a program that wants another one than malloc, realloc and free.
 *
 * libreis.a defines these three as weak symbols over the C library's heap. A program that defines all three itself, in C or
 * with C linkage, and is linked to libreis.a, has its own in their place. libreis.so keeps its own.
 *
 * All three belong to one allocator. They are called on the thread that makes the call of libreis, and call nothing of libreis.
 */
#ifndef REIS_HEAP_H
#define REIS_HEAP_H

#include <stddef.h>
#include <stdint.h>

#ifdef __cplusplus
extern "C" {
#endif

/* `found` is 1, and the block is at `at`; or it is 0, there is no memory, and `at` is anything but NULL. */
struct reis_block {
    uint64_t found;
    void *at;
};

/* A new block of so many bytes, which may be 0. `align` is a power of two, at most 16: each block has to stand at a multiple
 * of it. */
struct reis_block rattle_alloc(size_t size, size_t align);

/* Makes the block at `at` one of `size` bytes, and keeps what stands in its first `keep` bytes. It may move. `align` is that
 * of the block. Where there is no memory the block stays as it was. */
struct reis_block rattle_realloc(void *at, size_t keep, size_t size, size_t align);

/* Takes back a block. It isn't told its size. */
void rattle_dealloc(void *at);

#ifdef __cplusplus
}
#endif

#endif
