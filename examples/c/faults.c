/* Tests of a server's connection whose client does what it likes: it closes in mid-session, takes no replies, or passes
 * descriptors.
 *
 *     faults SESSION, the one that leaves */
#include "check.h"
#include "play.h"

#include <poll.h>
#include <string.h>
#include <sys/resource.h>
#include <sys/socket.h>
#include <sys/uio.h>
#include <unistd.h>

/* ---- clients that close ---- */

/* The client sends so many bytes, and the server takes and answers them. */
static void play_front(struct play *play, const struct worked *worked, size_t count) {
    begin(play, worked, count, MOST_WORKED);
    CHECK(connection_write(&play->connection) == TRANSFER_DONE);
    send_some(play);
    serve_some(play);
}

/* In the handshake: the session ends as such a one does. */
static void test_closes_early(const struct worked *worked) {
    static struct play play;
    checking("closes early", 0, 0);
    play_front(&play, worked, 41);
    CHECK(take_some(&play) && play.got_count == 20 && is_front(&play));
    close(play.client);
    CHECK(connection_read(&play.connection, 0) == TRANSFER_DONE);
    CHECK(connection_end(&play.connection) == REIS_END_ERROR_UNEXPECTED_EOF);
    CHECK(connection_write(&play.connection) == TRANSFER_DONE);
    connection_close(&play.connection);
}

/* With replies that it didn't read: the next read fails, and the session goes on until it is closed. */
static void test_closes_unread(const struct worked *worked) {
    static struct play play;
    checking("closes unread", 0, 0);
    play_front(&play, worked, 41);
    close(play.client);
    CHECK(connection_read(&play.connection, 0) == TRANSFER_FAILED);
    CHECK(connection_end(&play.connection) == REIS_END_GOES_ON);
    connection_close(&play.connection);
}

/* While replies are to be written: no signal comes, the write fails. */
static void test_closes_before_replies(const struct worked *worked) {
    static struct play play;
    checking("closes before replies", 0, 0);
    begin(&play, worked, MOST_WORKED, MOST_WORKED);
    CHECK(connection_write(&play.connection) == TRANSFER_DONE);
    CHECK(take_some(&play));
    send_some(&play);
    close(play.client);
    CHECK(connection_read(&play.connection, 0) == TRANSFER_DONE);
    CHECK(connection_write(&play.connection) == TRANSFER_FAILED);
    connection_close(&play.connection);
}

/* ---- a client that takes no replies ---- */

enum { MOST_MESSAGES = 40000 };

/* A message to object 9, which isn't there, and what the server sends for it where its last serial is 5. */
static const uint8_t to_nine[16] = {9, 0, 0, 0, 0, 0, 0, 0, 16};
static const uint8_t no_nine[28] = {0, 0, 0, 0, 0, 0, 0, 255, 28, 0, 0, 0, 2, 0, 0, 0, 5, 0, 0, 0, 9};

/* Sends these messages until the server takes no more, since its replies aren't taken. How many it took. */
static size_t send_until_full(struct play *play) {
    size_t sent = 0;
    bool went = true;
    while (went && sent < MOST_MESSAGES) {
        went = send(play->client, to_nine, sizeof to_nine, MSG_NOSIGNAL | MSG_DONTWAIT) == sizeof to_nine;
        sent += went;
        serve_some(play);
    }
    return sent;
}

/* Takes replies, where any came: so many were taken before. How many these are; each byte is as it should be. */
static size_t take_replies(struct play *play, size_t before) {
    uint8_t bytes[1000];
    ssize_t count = recv(play->client, bytes, sizeof bytes, MSG_DONTWAIT);
    bool good = true;
    for (ssize_t i = 0; i < count; i++) {
        size_t at = before + (size_t)i;
        size_t front = play->worked->server_count;
        good = good && bytes[i] == (at < front ? play->worked->server[at] : no_nine[(at - front) % sizeof no_nine]);
    }
    CHECK(good);
    return count > 0 ? (size_t)count : 0;
}

/* The server reads no further while its replies wait, and loses none of them, though its socket takes a few kilobytes at a
 * time. The session is the one that leaves. */
static void test_takes_no_replies(const struct worked *worked) {
    static struct play play;
    int least = 1;
    checking("takes no replies", 0, 0);
    play_front(&play, worked, worked->client_count - 16);
    CHECK(setsockopt(play.connection.socket, SOL_SOCKET, SO_SNDBUF, &least, sizeof least) == 0);
    size_t sent = send_until_full(&play);
    CHECK(sent > 100 && sent < MOST_MESSAGES && connection_has_replies(&play.connection));
    size_t wanted = worked->server_count + sent * sizeof no_nine;
    size_t got = 0;
    for (int turns = 0; turns < MOST_TURNS && got < wanted; turns++) {
        got += take_replies(&play, got);
        serve_some(&play);
    }
    CHECK(got == wanted);
    send_some(&play);
    serve_some(&play);
    CHECK(connection_end(&play.connection) == REIS_END_DISCONNECTED);
    connection_close(&play.connection);
    close(play.client);
}

/* ---- descriptors ---- */

enum { MOST_PASSED = 253 /* as the kernel has it */, LIMIT = 64 };

union control {
    char room[CMSG_SPACE(MOST_PASSED * sizeof(int))];
    struct cmsghdr aligned;
};

/* Sends a byte with the descriptor, so many times. */
static void pass(int socket, uint8_t byte, int descriptor, size_t count) {
    union control control;
    struct iovec part = {&byte, 1};
    struct msghdr message = {.msg_iov = &part, .msg_iovlen = 1, .msg_control = &control};
    memset(&control, 0, sizeof control);
    message.msg_controllen = CMSG_SPACE(count * sizeof descriptor);
    struct cmsghdr *header = CMSG_FIRSTHDR(&message);
    header->cmsg_level = SOL_SOCKET;
    header->cmsg_type = SCM_RIGHTS;
    header->cmsg_len = CMSG_LEN(count * sizeof descriptor);
    for (size_t i = 0; i < count; i++)
        memcpy(CMSG_DATA(header) + i * sizeof descriptor, &descriptor, sizeof descriptor);
    CHECK(sendmsg(socket, &message, MSG_NOSIGNAL) == 1);
}

/* Whether the pipe's end for writing is closed everywhere: there are no bytes in it. */
static bool is_closed(int pipe_end) {
    struct pollfd polled = {.fd = pipe_end, .events = POLLIN};
    return poll(&polled, 1, 0) == 1 && (polled.revents & POLLHUP) != 0;
}

/* The client passes a pipe's end for writing, so many times, with its next byte, and has it no more. The server's read leaves
 * it open nowhere, and the session goes on. */
static void pass_and_read(struct play *play, size_t count) {
    int ends[2];
    CHECK(pipe(ends) == 0);
    pass(play->client, play->worked->client[play->sent++], ends[1], count);
    close(ends[1]);
    CHECK(!is_closed(ends[0]));
    CHECK(connection_read(&play->connection, 0) == TRANSFER_DONE);
    CHECK(is_closed(ends[0]));
    CHECK(connection_end(&play->connection) == REIS_END_GOES_ON);
    close(ends[0]);
}

/* What is passed is closed as it comes, however much it is: here 5 times 253 where a process may have 64 open files. */
static void test_descriptors(const struct worked *worked) {
    static struct play play;
    struct rlimit before, few;
    checking("descriptors", 0, 0);
    CHECK(getrlimit(RLIMIT_NOFILE, &before) == 0);
    few = before;
    few.rlim_cur = LIMIT;
    CHECK(setrlimit(RLIMIT_NOFILE, &few) == 0);
    begin(&play, worked, MOST_WORKED, MOST_WORKED);
    size_t open_before = open_files();
    pass_and_read(&play, 1);
    for (int i = 0; i < 5; i++)
        pass_and_read(&play, MOST_PASSED);
    CHECK(open_files() == open_before);
    for (int turns = 0; turns < MOST_TURNS && turn(&play); turns++)
        continue;
    finish(&play);
    CHECK(open_files() == open_before - 2);
    CHECK(setrlimit(RLIMIT_NOFILE, &before) == 0);
}

/* ---- all ---- */

int main(int word_count, char **words) {
    static struct worked leaves;
    if (word_count != 2 || load_all(&leaves, 1, words + 1) != 1)
        return 2;
    test_closes_early(&leaves);
    test_closes_unread(&leaves);
    test_closes_before_replies(&leaves);
    test_takes_no_replies(&leaves);
    test_descriptors(&leaves);
    return checked("faults");
}
