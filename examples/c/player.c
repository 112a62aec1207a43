/* A client that plays a worked session to a server: it sends each message in two parts, and waits for what the session
 * says that it is sent.
 *
 *     player PATH SESSION
 *
 * It ends with 0 where all came as it should, and where the server then closed the connection. */
#include "worked.h"

#include <poll.h>
#include <stdio.h>
#include <stdlib.h>
#include <string.h>
#include <sys/socket.h>
#include <sys/un.h>
#include <time.h>
#include <unistd.h>

enum { PATIENCE = 10000 /* milliseconds */ };

/* A socket to the server, which may not listen yet; -1 where it doesn't in time. */
static int connect_to(const char *path) {
    struct sockaddr_un name = {.sun_family = AF_UNIX};
    struct timespec pause = {0, 10000000};
    if (strlen(path) >= sizeof name.sun_path)
        return -1;
    strcpy(name.sun_path, path);
    int server = socket(AF_UNIX, SOCK_STREAM, 0);
    for (int waited = 0; server != -1 && waited < PATIENCE; waited += 10) {
        if (connect(server, (struct sockaddr *)&name, sizeof name) == 0)
            return server;
        nanosleep(&pause, NULL);
    }
    return -1;
}

static bool send_all(int server, const uint8_t *bytes, size_t count) {
    for (size_t at = 0; at < count;) {
        ssize_t sent = send(server, bytes + at, count - at, MSG_NOSIGNAL);
        if (sent <= 0)
            return false;
        at += (size_t)sent;
    }
    return true;
}

/* Reads what comes, at most so much, and tells how much in `count`: 0 is the end. Whether it came in time. */
static bool receive(int server, uint8_t *bytes, size_t room, size_t *count) {
    struct pollfd polled = {.fd = server, .events = POLLIN};
    if (poll(&polled, 1, PATIENCE) != 1)
        return false;
    ssize_t received = read(server, bytes, room);
    *count = received > 0 ? (size_t)received : 0;
    return received >= 0;
}

/* Whether exactly these bytes come next. */
static bool comes(int server, const uint8_t *wanted, size_t count) {
    uint8_t bytes[MOST_WORKED_LINE];
    size_t at = 0;
    while (at < count) {
        size_t received = 0;
        if (!receive(server, bytes + at, count - at, &received) || received == 0)
            return false;
        at += received;
    }
    return memcmp(bytes, wanted, count) == 0;
}

/* Plays one line. Whether it went as it should. */
static bool play_line(int server, char *line) {
    uint8_t bytes[MOST_WORKED_LINE];
    size_t count = 0;
    const char *rest;
    if ((rest = behind(line, "client")) != NULL)
        return read_digits(rest, bytes, sizeof bytes, &count) && send_all(server, bytes, count / 2) &&
               send_all(server, bytes + count / 2, count - count / 2);
    if ((rest = behind(line, "server")) != NULL)
        return read_digits(rest, bytes, sizeof bytes, &count) && comes(server, bytes, count);
    return true;
}

/* Plays the lines of the file. Whether all went as they should. */
static bool play(int server, FILE *file) {
    char line[MOST_WORKED_LINE];
    while (fgets(line, sizeof line, file) != NULL) {
        if (!play_line(server, line)) {
            fprintf(stderr, "not as it should be: %s\n", line);
            return false;
        }
    }
    return true;
}

/* Sends no more. Whether nothing more comes either. */
static bool ends(int server) {
    uint8_t byte;
    size_t count = 1;
    return shutdown(server, SHUT_WR) == 0 && receive(server, &byte, 1, &count) && count == 0;
}

int main(int count, char **words) {
    if (count != 3) {
        fprintf(stderr, "usage: player PATH SESSION\n");
        return 2;
    }
    FILE *file = fopen(words[2], "r");
    int server = file == NULL ? -1 : connect_to(words[1]);
    if (server == -1) {
        perror(file == NULL ? words[2] : words[1]);
        return 1;
    }
    bool good = play(server, file) && ends(server);
    fclose(file);
    close(server);
    return good ? 0 : 1;
}
