/* A client that does what it likes to a server on a path:
 *
 *     misuse PATH SESSION descriptors    passes 500 descriptors and more, and stays
 *     misuse PATH SESSION silent         sends on and on, reads nothing, and stays
 *     misuse PATH SESSION dies           sends half a message, and is gone
 *
 * SESSION is the one that leaves, of whose messages the last isn't sent. It says `done` when it did it, and ends when its
 * input does. */
#include "worked.h"

#include <poll.h>
#include <stdio.h>
#include <string.h>
#include <sys/socket.h>
#include <sys/uio.h>
#include <sys/un.h>
#include <unistd.h>

enum { HANDSHAKE = 128, AT_ONCE = 250, TIMES = 40, MOST_MESSAGES = 200000 };

/* The version of the handshake, which may be said again and again; a message to an object that isn't there. */
static const uint8_t version[20] = {0, 0, 0, 0, 0, 0, 0, 0, 20, 0, 0, 0, 0, 0, 0, 0, 1};
static const uint8_t to_nine[16] = {9, 0, 0, 0, 0, 0, 0, 0, 16};

static int connect_to(const char *path) {
    struct sockaddr_un name = {.sun_family = AF_UNIX};
    int server = socket(AF_UNIX, SOCK_STREAM, 0);
    if (server == -1 || strlen(path) >= sizeof name.sun_path)
        return -1;
    strcpy(name.sun_path, path);
    return connect(server, (struct sockaddr *)&name, sizeof name) == 0 ? server : -1;
}

/* Sends a message with 250 descriptors. Whether the server took it. */
static bool pass(int server) {
    static union {
        char room[CMSG_SPACE(AT_ONCE * sizeof(int))];
        struct cmsghdr aligned;
    } control;
    struct iovec part = {(void *)version, sizeof version};
    struct msghdr message = {
        .msg_iov = &part, .msg_iovlen = 1, .msg_control = &control, .msg_controllen = sizeof control};
    struct cmsghdr *header = CMSG_FIRSTHDR(&message);
    header->cmsg_level = SOL_SOCKET;
    header->cmsg_type = SCM_RIGHTS;
    header->cmsg_len = CMSG_LEN(AT_ONCE * sizeof(int));
    for (size_t i = 0; i < AT_ONCE; i++)
        memcpy(CMSG_DATA(header) + i * sizeof server, &server, sizeof server);
    return sendmsg(server, &message, MSG_NOSIGNAL) == sizeof version;
}

static bool pass_many(int server) {
    bool good = true;
    for (int i = 0; i < TIMES && good; i++)
        good = pass(server);
    return good;
}

static bool send_handshake(int server, const struct worked *worked) {
    return send(server, worked->client, HANDSHAKE, MSG_NOSIGNAL) == HANDSHAKE;
}

/* Sends until the server has taken nothing for half a second. Whether it came to that, and the server is there still. */
static bool send_on(int server, const struct worked *worked) {
    struct pollfd polled = {.fd = server, .events = POLLOUT};
    bool good = send_handshake(server, worked);
    int sent = 0;
    for (; good && sent < MOST_MESSAGES && poll(&polled, 1, 500) == 1; sent++)
        good = send(server, to_nine, sizeof to_nine, MSG_NOSIGNAL | MSG_DONTWAIT) > 0;
    return good && sent < MOST_MESSAGES;
}

static bool send_half(int server, const struct worked *worked) {
    return send_handshake(server, worked) && send(server, worked->client + HANDSHAKE, 9, MSG_NOSIGNAL) == 9;
}

int main(int count, char **words) {
    static struct worked worked;
    char byte;
    if (count != 4 || !load_worked(&worked, words[2])) {
        fprintf(stderr, "usage: misuse PATH SESSION descriptors|silent|dies\n");
        return 2;
    }
    int server = connect_to(words[1]);
    bool good = server != -1;
    if (good && strcmp(words[3], "descriptors") == 0)
        good = pass_many(server);
    else if (good && strcmp(words[3], "silent") == 0)
        good = send_on(server, &worked);
    else if (good)
        good = send_half(server, &worked);
    printf("%s\n", good ? "done" : "not done");
    fflush(stdout);
    if (strcmp(words[3], "dies") != 0 && read(0, &byte, 1) == 1)
        return 2;
    return good ? 0 : 1;
}
