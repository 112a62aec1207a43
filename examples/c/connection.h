/* One client of a server: its socket and its session. */
#ifndef CONNECTION_H
#define CONNECTION_H

#include "reis.h"

#include <stdbool.h>

struct connection {
    int socket;
    reis_session session;
};

/* How a transfer came out. */
enum transfer {
    TRANSFER_DONE,
    TRANSFER_WAITS, /* the socket has nothing, or takes nothing, for now */
    TRANSFER_FAILED /* nothing more can be read, or written */
};

/* Starts a session over the socket, which the connection owns from now on. What reis_session_start answers; where it isn't
 * REIS_OK the socket is closed. */
reis_answer connection_open(struct connection *connection, int socket, uint32_t serial, uint64_t capabilities);

/* Reads one piece, and feeds it to the session; the end of the input too. It is called while the session goes on. Descriptors
 * that came with the piece are closed. */
enum transfer connection_read(struct connection *connection, uint64_t time);

/* Writes what waits, until nothing does. */
enum transfer connection_write(struct connection *connection);

/* Whether connection_write left replies that the socket didn't take. */
bool connection_has_replies(struct connection *connection);

/* How the session ended, or REIS_END_GOES_ON. */
reis_end connection_end(struct connection *connection);

/* Frees the session, and closes the socket. */
void connection_close(struct connection *connection);

#endif
