/* Messages of the protocol, written and read as docs/PROTOCOL.md says, for clients that the tests play. */
#ifndef WIRE_H
#define WIRE_H

#include <stdbool.h>
#include <stddef.h>
#include <stdint.h>

/* The connection, and the first id that its server gives behind it. */
#define CONNECTION 0xff00000000000000u
#define FIRST_SEAT 0xff00000000000001u

enum { MOST_STREAM = 65536 };

/* Messages, one behind another. */
struct stream {
    uint8_t bytes[MOST_STREAM];
    size_t count;
};

/* Adds a message to an object, of an opcode, with its arguments by their kinds, a letter each:
 * w a number of four bytes, f a float, l one of eight bytes, t a text, n no text. */
void add(struct stream *stream, uint64_t object, uint32_t opcode, const char *kinds, ...);

/* Adds what a client says in a handshake: the interfaces of a list that ends with NULL, what it is, its name, and that it is done. */
void add_handshake(struct stream *stream, const char *const *interfaces, uint32_t context_type, const char *name);

/* Adds what a server says in one, with that serial: its greeting, these interfaces, and the connection. */
void add_welcome(struct stream *stream, const char *const *interfaces, uint32_t serial);

/* Each interface that the server has, in its order. */
extern const char *const all_interfaces[];

/* The version that the server has of an interface. */
uint32_t version_of(const char *interface);

/* One message: the length of the whole, or 0 where these bytes don't begin with a whole one. */
size_t whole_message(const uint8_t *bytes, size_t count);

/* A number of four or of eight bytes at a place. */
uint32_t word_at(const uint8_t *bytes);
uint64_t long_at(const uint8_t *bytes);

#endif
