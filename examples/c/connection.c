#include "connection.h"

#include <errno.h>
#include <sys/socket.h>
#include <unistd.h>

reis_answer connection_open(struct connection *connection, int socket, uint32_t serial, uint64_t capabilities) {
    connection->socket = socket;
    connection->session = (reis_session){0};
    reis_answer answer = reis_session_start(&connection->session, serial, capabilities, REIS_NO_PIECE_LIMIT);
    if (answer != REIS_OK)
        close(socket);
    return answer;
}

/* Whether a transfer is to be tried again when the socket is ready. */
static bool waits(void) {
    return errno == EAGAIN || errno == EWOULDBLOCK || errno == EINTR;
}

/* No request of a client takes a descriptor, so none is asked for: the kernel closes each that came with the bytes, and this
 * process never has it. */
enum transfer connection_read(struct connection *connection, uint64_t time) {
    static uint8_t piece[REIS_MOST_BYTES];
    ssize_t count = recv(connection->socket, piece, sizeof piece, MSG_DONTWAIT);
    if (count < 0)
        return waits() ? TRANSFER_WAITS : TRANSFER_FAILED;
    reis_answer answer = count == 0
        ? reis_session_end_of_input(&connection->session)
        : reis_session_feed(&connection->session, piece, (size_t)count, NULL, 0, time);
    return answer == REIS_OK ? TRANSFER_DONE : TRANSFER_FAILED;
}

/* What the session lends is written from where it lies: what the socket doesn't take waits there. */
enum transfer connection_write(struct connection *connection) {
    const uint8_t *bytes;
    const uint32_t *handles;
    size_t count, handle_count;
    while (reis_session_unsent(&connection->session, &bytes, &count, &handles, &handle_count) == REIS_OK && count > 0) {
        ssize_t sent = send(connection->socket, bytes, count, MSG_DONTWAIT | MSG_NOSIGNAL);
        if (sent < 0)
            return waits() ? TRANSFER_WAITS : TRANSFER_FAILED;
        reis_session_sent(&connection->session, (size_t)sent, 0);
    }
    return TRANSFER_DONE;
}

bool connection_has_replies(struct connection *connection) {
    const uint8_t *bytes;
    const uint32_t *handles;
    size_t count, handle_count;
    return reis_session_unsent(&connection->session, &bytes, &count, &handles, &handle_count) == REIS_OK && count > 0;
}

reis_end connection_end(struct connection *connection) {
    reis_end end = REIS_END_GOES_ON;
    reis_session_end(&connection->session, &end);
    return end;
}

void connection_close(struct connection *connection) {
    reis_session_free(&connection->session);
    close(connection->socket);
}
