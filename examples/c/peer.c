#include "peer.h"

#include <errno.h>
#include <string.h>
#include <sys/socket.h>
#include <unistd.h>

reis_answer peer_open(struct peer *peer, int socket, uint32_t serial, uint32_t flags) {
    peer->socket = socket;
    peer->connection = (reis_connection){0};
    reis_answer answer = reis_connection_start(&peer->connection, serial, flags);
    if (answer != REIS_OK)
        close(socket);
    return answer;
}

/* Whether a transfer is to be tried again when the socket is ready. */
static bool waits(void) {
    return errno == EAGAIN || errno == EWOULDBLOCK || errno == EINTR;
}

/* No request of a client takes a descriptor, so none is asked for, and the kernel closes each that comes. */
bool peer_read(struct peer *peer, uint64_t time) {
    static uint8_t piece[REIS_MOST_BYTES];
    ssize_t count = recv(peer->socket, piece, sizeof piece, MSG_DONTWAIT);
    if (count < 0)
        return waits();
    reis_answer answer = count == 0
        ? reis_connection_end_of_input(&peer->connection)
        : reis_connection_feed(&peer->connection, piece, (size_t)count, NULL, 0, time);
    return answer == REIS_OK;
}

/* Sends bytes, and with the first of them all handles that wait. */
static ssize_t send_all(int socket, const uint8_t *bytes, size_t count, const uint32_t *handles, size_t handle_count) {
    union {
        struct cmsghdr header;
        uint8_t room[CMSG_SPACE(sizeof(int) * REIS_MOST_HANDLES)];
    } control;
    struct iovec piece = {(void *)bytes, count};
    struct msghdr message = {.msg_iov = &piece, .msg_iovlen = 1};
    if (handle_count > 0) {
        memset(&control, 0, sizeof control);
        control.header.cmsg_level = SOL_SOCKET;
        control.header.cmsg_type = SCM_RIGHTS;
        control.header.cmsg_len = CMSG_LEN(sizeof(int) * handle_count);
        memcpy(CMSG_DATA(&control.header), handles, sizeof(int) * handle_count);
        message.msg_control = &control;
        message.msg_controllen = CMSG_SPACE(sizeof(int) * handle_count);
    }
    return sendmsg(socket, &message, MSG_DONTWAIT | MSG_NOSIGNAL);
}

bool peer_write(struct peer *peer) {
    const uint8_t *bytes;
    const uint32_t *handles;
    size_t count, handle_count;
    while (reis_connection_unsent(&peer->connection, &bytes, &count, &handles, &handle_count) == REIS_OK && count > 0) {
        ssize_t sent = send_all(peer->socket, bytes, count, handles, handle_count);
        if (sent < 0)
            return waits();
        reis_connection_sent(&peer->connection, (size_t)sent);
    }
    return true;
}

bool peer_waits(struct peer *peer) {
    const uint8_t *bytes;
    const uint32_t *handles;
    size_t count, handle_count;
    return reis_connection_unsent(&peer->connection, &bytes, &count, &handles, &handle_count) == REIS_OK && count > 0;
}

reis_end peer_end(struct peer *peer) {
    reis_end end = REIS_END_GOES_ON;
    reis_connection_end(&peer->connection, &end);
    return end;
}

void peer_close(struct peer *peer) {
    reis_connection_free(&peer->connection);
    close(peer->socket);
}
