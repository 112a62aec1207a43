#include "play.h"

#include "check.h"
#include "describe.h"

#include <stdio.h>
#include <string.h>
#include <sys/socket.h>
#include <unistd.h>

void begin(struct play *play, const struct worked *worked, size_t cut, size_t take) {
    int ends[2];
    memset(play, 0, sizeof *play);
    play->worked = worked;
    play->cut = cut;
    play->take = take;
    CHECK(socketpair(AF_UNIX, SOCK_STREAM, 0, ends) == 0);
    play->client = ends[0];
    CHECK(connection_open(&play->connection, ends[1], worked->serial, worked->capabilities) == REIS_OK);
}

static size_t lesser(size_t one, size_t other) {
    return one < other ? one : other;
}

void send_some(struct play *play) {
    const struct worked *worked = play->worked;
    size_t count = lesser(play->cut, worked->client_count - play->sent);
    if (count > 0) {
        ssize_t sent = send(play->client, worked->client + play->sent, count, MSG_NOSIGNAL | MSG_DONTWAIT);
        CHECK(sent == (ssize_t)count);
        play->sent += count;
    } else if (!play->closed && (worked->end == REIS_END_END_OF_INPUT || worked->end == REIS_END_ERROR_UNEXPECTED_EOF)) {
        CHECK(shutdown(play->client, SHUT_WR) == 0);
        play->closed = true;
    }
}

/* Adds the line of a request. */
static void note_line(struct play *play, const char *line) {
    size_t room = MOST_WORKED - play->request_length;
    int count = snprintf(play->requests + play->request_length, room, "%s\n", line);
    CHECK(count > 0 && (size_t)count < room);
    play->request_length += (size_t)count;
}

/* Adds each request that the session hands out. */
static void note_requests(struct play *play) {
    reis_session *session = &play->connection.session;
    reis_request request;
    char line[MOST_LINE];
    while (reis_session_next_request(session, &request) == REIS_OK) {
        describe(session, &request, line);
        note_line(play, line);
    }
}

void serve_some(struct play *play) {
    struct connection *connection = &play->connection;
    if (!connection_has_replies(connection) && connection_end(connection) == REIS_END_GOES_ON) {
        CHECK(connection_read(connection, play->worked->time) != TRANSFER_FAILED);
        note_requests(play);
    }
    CHECK(connection_write(connection) != TRANSFER_FAILED);
}

bool take_some(struct play *play) {
    size_t room = lesser(play->take, MOST_WORKED - play->got_count);
    ssize_t count = recv(play->client, play->got + play->got_count, room, MSG_DONTWAIT);
    if (count > 0)
        play->got_count += (size_t)count;
    return count > 0;
}

bool is_front(const struct play *play) {
    const struct worked *worked = play->worked;
    return play->got_count <= worked->server_count && memcmp(play->got, worked->server, play->got_count) == 0;
}

bool turn(struct play *play) {
    send_some(play);
    serve_some(play);
    bool took = take_some(play);
    return took || connection_has_replies(&play->connection) || connection_end(&play->connection) == REIS_END_GOES_ON;
}

void finish(struct play *play) {
    const struct worked *worked = play->worked;
    uint8_t text[MOST_TEXT];
    size_t length = 0;
    CHECK(play->got_count == worked->server_count && is_front(play));
    CHECK(strcmp(play->requests, worked->requests) == 0);
    CHECK(connection_end(&play->connection) == worked->end);
    reis_answer answer = reis_session_end_text(&play->connection.session, text, sizeof text, &length);
    CHECK(answer == (worked->text[0] == 0 ? REIS_NOTHING : REIS_OK));
    CHECK(length == strlen(worked->text) && memcmp(text, worked->text, length) == 0);
    connection_close(&play->connection);
    uint8_t byte;
    CHECK(recv(play->client, &byte, 1, MSG_DONTWAIT) == 0);
    close(play->client);
}
