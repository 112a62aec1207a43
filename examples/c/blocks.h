/* A heap for the tests, in place of the library's: it knows of each block its place, its size and its alignment, checks each
 * call, and can refuse one. */
#ifndef BLOCKS_H
#define BLOCKS_H

#include <stddef.h>

/* From here the call of that number that asks for memory is refused, counted from 1; none for 0. */
void blocks_refuse(size_t number);

/* How many calls asked for memory since then. */
size_t blocks_asked(void);

/* The most bytes that there were at once since then. */
size_t blocks_peak(void);

/* How many blocks there are. */
size_t blocks_here(void);

/* How many calls were wrong: an alignment that is none, a block that isn't there, more bytes to keep than there are, a byte
 * written in front of a block or behind it. */
size_t blocks_wrong(void);

#endif
