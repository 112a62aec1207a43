/* A server that listens on a path, serves its clients side by side, and prints what they ask for.
 *
 *     server PATH SERIAL CAPABILITIES [CLIENTS]
 *
 * It ends when so many clients are done; without that number it goes on until it is told to end, by SIGTERM or SIGINT. */
#include "connection.h"
#include "describe.h"
#include "listen.h"

#include <errno.h>
#include <inttypes.h>
#include <poll.h>
#include <signal.h>
#include <stdio.h>
#include <stdlib.h>
#include <sys/socket.h>
#include <time.h>
#include <unistd.h>

enum { MOST_CLIENTS = 32 };

struct client {
    bool here;
    unsigned number;
    struct connection connection;
};

struct server {
    int listener;
    bool rests; /* no client could be accepted: it is tried again in a second */
    uint32_t serial;
    uint64_t capabilities;
    unsigned accepted;
    unsigned done;
    struct client clients[MOST_CLIENTS];
};

/* The clock of the protocol, in microseconds. */
static uint64_t now(void) {
    struct timespec time;
    clock_gettime(CLOCK_MONOTONIC, &time);
    return (uint64_t)time.tv_sec * 1000000 + (uint64_t)time.tv_nsec / 1000;
}

/* ---- one client ---- */

/* Prints each request. A compositor acts on it here. */
static void act(struct client *client) {
    reis_session *session = &client->connection.session;
    reis_request request;
    char line[MOST_LINE];
    while (reis_session_next_request(session, &request) == REIS_OK) {
        describe(session, &request, line);
        printf("client %u: %s\n", client->number, line);
    }
}

static void leave(struct server *server, struct client *client) {
    connection_close(&client->connection);
    client->here = false;
    server->done++;
    fflush(stdout);
}

/* Prints how the session ended. The name of an interface in an error's text is the client's: what isn't a letter, a digit or
 * a sign of ASCII is shown as a question mark. */
static void tell_end(struct client *client, reis_end end) {
    uint8_t text[512];
    size_t length = 0;
    printf("client %u: end %d", client->number, (int)end);
    if (reis_session_end_text(&client->connection.session, text, sizeof text, &length) == REIS_OK) {
        printf(" ");
        for (size_t i = 0; i < length; i++)
            putchar(text[i] >= ' ' && text[i] < 127 ? text[i] : '?');
    }
    printf("\n");
}

/* Writes what waits. The client leaves where it can't be written to, and where its session is over and all is written. */
static void write_to(struct server *server, struct client *client) {
    enum transfer written = connection_write(&client->connection);
    reis_end end = connection_end(&client->connection);
    if (written == TRANSFER_FAILED) {
        printf("client %u: it can't be written to\n", client->number);
        leave(server, client);
    } else if (written == TRANSFER_DONE && end != REIS_END_GOES_ON) {
        tell_end(client, end);
        leave(server, client);
    }
}

/* Reads a piece, acts on what it asks for, and writes what is replied to it. */
static void read_from(struct server *server, struct client *client) {
    enum transfer taken = connection_read(&client->connection, now());
    if (taken == TRANSFER_FAILED) {
        printf("client %u: it can't be read from\n", client->number);
        leave(server, client);
    } else if (taken == TRANSFER_DONE) {
        act(client);
        write_to(server, client);
    }
}

/* Nothing is read while replies wait to be written: so a client that takes none can't fill the memory. */
static short wanted(struct client *client) {
    return connection_has_replies(&client->connection) ? POLLOUT : POLLIN;
}

static void turn(struct server *server, struct client *client) {
    if (wanted(client) == POLLOUT)
        write_to(server, client);
    else
        read_from(server, client);
}

/* ---- all clients ---- */

static struct client *free_place(struct server *server) {
    for (size_t i = 0; i < MOST_CLIENTS; i++) {
        if (!server->clients[i].here)
            return &server->clients[i];
    }
    return NULL;
}

static void accept_client(struct server *server) {
    struct client *client = free_place(server);
    int socket = client == NULL ? -1 : accept4(server->listener, NULL, NULL, SOCK_CLOEXEC);
    if (socket == -1) {
        server->rests = true;
        return;
    }
    reis_answer started = connection_open(&client->connection, socket, server->serial, server->capabilities);
    if (started != REIS_OK) {
        fprintf(stderr, "no session: %s\n", reis_answer_name(started));
        return;
    }
    client->here = true;
    client->number = ++server->accepted;
    write_to(server, client);
}

/* Waits until something can be done at a socket: those of the clients, and the listener behind them. Signals that end the
 * server come only here. Whether something can be done. */
static bool wait_for(struct server *server, struct pollfd polled[MOST_CLIENTS + 1]) {
    static const struct timespec second = {1, 0};
    sigset_t none;
    sigemptyset(&none);
    for (size_t i = 0; i < MOST_CLIENTS; i++) {
        struct client *client = &server->clients[i];
        polled[i].fd = client->here ? client->connection.socket : -1;
        polled[i].events = client->here ? wanted(client) : 0;
        polled[i].revents = 0;
    }
    polled[MOST_CLIENTS].fd = !server->rests && free_place(server) != NULL ? server->listener : -1;
    polled[MOST_CLIENTS].events = POLLIN;
    polled[MOST_CLIENTS].revents = 0;
    const struct timespec *patience = server->rests ? &second : NULL;
    server->rests = false;
    return ppoll(polled, MOST_CLIENTS + 1, patience, &none) >= 0;
}

/* Waits, and does what can be done. */
static void serve_turn(struct server *server) {
    struct pollfd polled[MOST_CLIENTS + 1];
    if (!wait_for(server, polled))
        return;
    for (size_t i = 0; i < MOST_CLIENTS; i++) {
        if (polled[i].revents != 0)
            turn(server, &server->clients[i]);
    }
    if (polled[MOST_CLIENTS].revents != 0)
        accept_client(server);
}

/* ---- its end ---- */

static volatile sig_atomic_t told_to_end;

static void tell_to_end(int signal) {
    (void)signal;
    told_to_end = 1;
}

/* Keeps the two signals back until wait_for lets them come. */
static void take_signals(void) {
    struct sigaction action = {.sa_handler = tell_to_end};
    sigset_t both;
    sigemptyset(&both);
    sigaddset(&both, SIGTERM);
    sigaddset(&both, SIGINT);
    sigprocmask(SIG_BLOCK, &both, NULL);
    sigaction(SIGTERM, &action, NULL);
    sigaction(SIGINT, &action, NULL);
}

static void close_all(struct server *server) {
    for (size_t i = 0; i < MOST_CLIENTS; i++) {
        if (server->clients[i].here)
            leave(server, &server->clients[i]);
    }
}

int main(int count, char **words) {
    static struct server server;
    if (count < 4 || count > 5) {
        fprintf(stderr, "usage: server PATH SERIAL CAPABILITIES [CLIENTS]\n");
        return 2;
    }
    if (!reis_version_matches()) {
        fprintf(stderr, "libreis is of another version than " REIS_VERSION_TEXT ": 0x%06" PRIx32 "\n", reis_version());
        return 1;
    }
    server.serial = (uint32_t)strtoul(words[2], NULL, 10);
    server.capabilities = strtoull(words[3], NULL, 10);
    unsigned long most = count == 5 ? strtoul(words[4], NULL, 10) : 0;
    take_signals();
    server.listener = listen_on(words[1]);
    if (server.listener == -1)
        return 1;
    while (!told_to_end && (most == 0 || server.done < most))
        serve_turn(&server);
    close_all(&server);
    listen_no_more(server.listener, words[1]);
    return 0;
}
