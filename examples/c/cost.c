/* What a message costs through the border: a client of so many groups of inputs, each of a motion, a key and a frame, in pieces
 * of 4096 bytes. valgrind counts the instructions of `serve_all`:
 *
 *     valgrind --tool=callgrind --toggle-collect=serve_all c-cost GROUPS
 *
 * With a second word, any, it writes the pieces as lines of hexadecimal digits in place of that, as `reis serve` reads them. */
#include "reis.h"
#include "worked.h"

#include <stdio.h>
#include <stdlib.h>

enum { PIECE = 4096, MOST_GROUPS = 1000000 };

/* The handshake; a device of all capabilities, which begins to send. */
static const char *front[] = {
    "0000000000000000 28000000 04000000 0e000000 65695f636f6e6e656374696f6e000000 01000000",
    "0000000000000000 24000000 04000000 0c000000 65695f63616c6c6261636b00 01000000",
    "0000000000000000 24000000 04000000 0c000000 65695f70696e67706f6e6700 01000000",
    "0000000000000000 10000000 01000000",
    "01000000000000ff 18000000 01000000 7f00000000000000",
    "02000000000000ff 18000000 01000000 02000000 01000000",
};

/* A motion by 1 and -1, key 30 going down, and a frame at the time 1000. */
static const char *group[] = {
    "03000000000000ff 18000000 01000000 0000803f 000080bf",
    "05000000000000ff 18000000 01000000 1e000000 01000000",
    "02000000000000ff 1c000000 03000000 02000000 e803000000000000",
};

static const char *back = "00000000000000ff 10000000 01000000";

struct stream {
    uint8_t *bytes;
    size_t count;
    size_t room;
};

static void add(struct stream *stream, const char *message) {
    if (!read_digits(message, stream->bytes, stream->room, &stream->count))
        abort();
}

/* The whole stream. */
static struct stream stream_of(size_t groups) {
    struct stream stream = {NULL, 0, 1000 + 100 * groups};
    stream.bytes = malloc(stream.room);
    if (stream.bytes == NULL)
        abort();
    for (size_t i = 0; i < sizeof front / sizeof front[0]; i++)
        add(&stream, front[i]);
    for (size_t number = 0; number < groups; number++) {
        for (size_t i = 0; i < sizeof group / sizeof group[0]; i++)
            add(&stream, group[i]);
    }
    add(&stream, back);
    return stream;
}

static size_t piece_at(const struct stream *stream, size_t at) {
    return stream->count - at < PIECE ? stream->count - at : PIECE;
}

static void write_lines(const struct stream *stream) {
    for (size_t at = 0; at < stream->count; at += PIECE) {
        for (size_t i = 0; i < piece_at(stream, at); i++)
            printf("%02x", stream->bytes[at + i]);
        printf("\n");
    }
}

/* Takes all that waits. How many requests that were. */
static size_t take_all(reis_session *session) {
    const uint8_t *bytes;
    const uint32_t *handles;
    reis_request request;
    size_t count, handle_count;
    size_t requests = 0;
    while (reis_session_unsent(session, &bytes, &count, &handles, &handle_count) == REIS_OK && count > 0)
        reis_session_sent(session, count, handle_count);
    while (reis_session_next_request(session, &request) == REIS_OK)
        requests++;
    return requests;
}

size_t serve_all(const struct stream *stream);

/* Serves the stream. How many requests were taken. */
__attribute__((noinline)) size_t serve_all(const struct stream *stream) {
    reis_session session = {0};
    size_t requests = 0;
    if (reis_session_start(&session, 1, REIS_ALL_CAPABILITIES, REIS_NO_PIECE_LIMIT) != REIS_OK)
        return 0;
    for (size_t at = 0; at < stream->count; at += PIECE) {
        reis_session_feed(&session, stream->bytes + at, piece_at(stream, at), NULL, 0, 0);
        requests += take_all(&session);
    }
    reis_session_free(&session);
    return requests;
}

int main(int count, char **words) {
    size_t groups = count > 1 ? strtoul(words[1], NULL, 10) : 0;
    if (groups == 0 || groups > MOST_GROUPS) {
        fprintf(stderr, "usage: cost GROUPS [lines]\n");
        return 2;
    }
    struct stream stream = stream_of(groups);
    if (count > 2) {
        write_lines(&stream);
    } else {
        size_t requests = serve_all(&stream);
        printf("%zu messages, %zu requests\n", groups * 3 + 7, requests);
    }
    free(stream.bytes);
    return 0;
}
