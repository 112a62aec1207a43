/* A connection with a client over a socket. It passes descriptors with the bytes: a handle is the number of one. */
#ifndef PEER_H
#define PEER_H

#include "reis.h"

#include <stdbool.h>

struct peer {
    int socket;
    reis_connection connection;
};

/* Starts a connection on the socket, with flags as reis_connection_start has them. The socket is closed where that fails. */
reis_answer peer_open(struct peer *peer, int socket, uint32_t serial, uint32_t flags);

/* Reads what the socket has, and hands it in. Whether it can go on. */
bool peer_read(struct peer *peer, uint64_t time);

/* Writes what waits, as much as the socket takes. Whether it can go on. */
bool peer_write(struct peer *peer);

/* Whether something waits to be written. */
bool peer_waits(struct peer *peer);

reis_end peer_end(struct peer *peer);

void peer_close(struct peer *peer);

#endif
