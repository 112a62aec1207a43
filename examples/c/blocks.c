#include "blocks.h"

#include "reis_heap.h"

#include <stdbool.h>
#include <stdio.h>
#include <stdlib.h>
#include <string.h>

enum { MOST_BLOCKS = 4096, FENCE = 32, IN_FENCE = 0x5a, FRESH = 0xc3, GONE = 0xd7 };

/* A block, between two fences; in `whole` is all of it. Its place is a multiple of its alignment, and of no more than that where
 * malloc lets it be. */
struct block {
    unsigned char *at;
    size_t size;
    size_t align;
    unsigned char *whole;
};

static struct block blocks[MOST_BLOCKS];
static size_t count, bytes, peak, refused, asked, wrong;
static char nowhere;

void blocks_refuse(size_t number) {
    refused = number;
    asked = 0;
    peak = bytes;
}

size_t blocks_asked(void) {
    return asked;
}

size_t blocks_peak(void) {
    return peak;
}

size_t blocks_here(void) {
    return count;
}

size_t blocks_wrong(void) {
    return wrong;
}

/* Counts what is wrong, and says it. */
static void expect(bool good, const char *what) {
    if (good)
        return;
    wrong++;
    fprintf(stderr, "heap: %s\n", what);
}

static struct reis_block found(const struct block *block) {
    struct reis_block result = {block != NULL, block == NULL ? (void *)&nowhere : block->at};
    return result;
}

/* A new block; NULL where it is refused, or there is no memory. */
static struct block *make(size_t size, size_t align) {
    bool good = align > 0 && align <= 16 && (align & (align - 1)) == 0;
    expect(good, "an alignment that isn't a power of two up to 16");
    unsigned char *whole = ++asked == refused || !good || count == MOST_BLOCKS ? NULL : malloc(FENCE + size + 16 + FENCE);
    if (whole == NULL)
        return NULL;
    struct block *block = &blocks[count++];
    *block = (struct block){whole + FENCE + align % 16, size, align, whole};
    memset(whole, IN_FENCE, FENCE + size + 16 + FENCE);
    memset(block->at, FRESH, size);
    bytes += size;
    peak = bytes > peak ? bytes : peak;
    return block;
}

/* The block that begins there; NULL where none does. */
static struct block *block_at(const void *at) {
    for (size_t i = count; i > 0; i--) {
        if (blocks[i - 1].at == at)
            return &blocks[i - 1];
    }
    expect(false, "a block that isn't there");
    return NULL;
}

/* Whether nothing was written beside the block. */
static bool is_fenced(const struct block *block) {
    bool good = true;
    for (const unsigned char *at = block->whole; at < block->at; at++)
        good = good && *at == IN_FENCE;
    for (const unsigned char *at = block->at + block->size; at < block->whole + FENCE + block->size + 16 + FENCE; at++)
        good = good && *at == IN_FENCE;
    return good;
}

/* Takes a block back; what it held is spoilt. */
static void take_back(struct block *block) {
    expect(is_fenced(block), "a byte was written in front of a block, or behind it");
    memset(block->at, GONE, block->size);
    bytes -= block->size;
    free(block->whole);
    *block = blocks[--count];
}

struct reis_block rattle_alloc(size_t size, size_t align) {
    return found(make(size, align));
}

/* It moves each time, and keeps no byte more than it is asked to. */
struct reis_block rattle_realloc(void *at, size_t keep, size_t size, size_t align) {
    struct block *old = block_at(at);
    struct block *block = old == NULL ? NULL : make(size, align);
    if (block == NULL)
        return found(NULL);
    expect(align == old->align, "another alignment than the block's");
    expect(keep <= old->size && keep <= size, "more bytes to keep than there are");
    memcpy(block->at, old->at, keep);
    void *place = block->at;
    take_back(old);
    return found(block_at(place));
}

void rattle_dealloc(void *at) {
    struct block *block = block_at(at);
    if (block != NULL)
        take_back(block);
}
