/* Tests of what a session hands out, without a socket: the worked sessions, whose replies are counted as sent a few bytes at a
 * time; requests, texts, the client, the end.
 *
 *     handed SESSION .. */
#include "ask.h"
#include "check.h"
#include "describe.h"
#include "views.h"

#include <stdio.h>
#include <string.h>

/* ---- pieces that aren't taken ---- */

static uint8_t too_many_bytes[REIS_MOST_BYTES + 1];
static uint32_t too_many_handles[REIS_MOST_HANDLES + 1];

static reis_answer feed_zeros(reis_session *session, size_t count, size_t handle_count) {
    return reis_session_feed(session, too_many_bytes, count, too_many_handles, handle_count, 0);
}

static void check_refused(reis_session *session) {
    CHECK(feed_zeros(session, 0, 0) == REIS_EMPTY);
    CHECK(feed_zeros(session, 0, REIS_MOST_HANDLES + 1) == REIS_EMPTY);
    CHECK(feed_zeros(session, REIS_MOST_BYTES + 1, 0) == REIS_TOO_LONG);
    CHECK(feed_zeros(session, REIS_MOST_BYTES + 1, REIS_MOST_HANDLES + 1) == REIS_TOO_LONG);
    CHECK(feed_zeros(session, 1, REIS_MOST_HANDLES + 1) == REIS_TOO_MANY_HANDLES);
}

static void check_over(reis_session *session) {
    CHECK(feed_zeros(session, 1, 0) == REIS_OVER);
    CHECK(feed_zeros(session, 0, 0) == REIS_OVER);
    CHECK(feed_zeros(session, REIS_MOST_BYTES + 1, 0) == REIS_OVER);
    CHECK(feed_zeros(session, 1, REIS_MOST_HANDLES + 1) == REIS_OVER);
    CHECK(reis_session_end_of_input(session) == REIS_OVER);
}

/* ---- the worked sessions ---- */

/* What a session handed out until now. */
struct taken {
    uint8_t bytes[MOST_WORKED];
    size_t count;
    char requests[MOST_WORKED];
    size_t length;
};

/* Takes the replies that wait, at most so many bytes at a time, as a socket would. */
static void take_replies(reis_session *session, struct taken *taken, size_t most) {
    const uint8_t *bytes;
    const uint32_t *handles;
    size_t count, handle_count;
    while (reis_session_unsent(session, &bytes, &count, &handles, &handle_count) == REIS_OK && count > 0) {
        size_t sent = count < most ? count : most;
        CHECK(sent <= MOST_WORKED - taken->count && handle_count == 0);
        memcpy(taken->bytes + taken->count, bytes, sent);
        taken->count += sent;
        CHECK(reis_session_sent(session, sent, 0) == REIS_OK);
    }
}

/* The named views say what the fields say, and the fields behind them are 0. */
static void check_views(const reis_request *request) {
    int count = fields_in_view(request);
    CHECK(count >= 0);
    for (size_t i = (size_t)count; i < 4; i++)
        CHECK(request->fields[i] == 0);
}

static void take_requests(reis_session *session, struct taken *taken) {
    reis_request request;
    char line[MOST_LINE];
    while (reis_session_next_request(session, &request) == REIS_OK) {
        check_views(&request);
        describe(session, &request, line);
        size_t room = MOST_WORKED - taken->length;
        int count = snprintf(taken->requests + taken->length, room, "%s\n", line);
        CHECK(count > 0 && (size_t)count < room);
        taken->length += (size_t)count;
    }
}

/* Feeds the session in pieces of so many bytes, with bad calls before each. */
static void feed_all(reis_session *session, const struct worked *worked, struct taken *taken, size_t cut, size_t most) {
    for (size_t at = 0; at < worked->client_count; at += cut) {
        size_t left = worked->client_count - at;
        size_t count = cut < left ? cut : left;
        check_refused(session);
        CHECK(end_of(session) == REIS_END_GOES_ON);
        CHECK(reis_session_feed(session, worked->client + at, count, NULL, 0, worked->time) == REIS_OK);
        take_replies(session, taken, most);
        take_requests(session, taken);
    }
}

static void play_in_cuts(const struct worked *worked, size_t cut, size_t most) {
    static struct taken taken;
    reis_session session = {0};
    checking(worked->name, cut, most);
    memset(&taken, 0, sizeof taken);
    CHECK(reis_session_start(&session, worked->serial, worked->capabilities, REIS_NO_PIECE_LIMIT) == REIS_OK);
    feed_all(&session, worked, &taken, cut, most);
    if (worked->end == REIS_END_END_OF_INPUT || worked->end == REIS_END_ERROR_UNEXPECTED_EOF)
        CHECK(reis_session_end_of_input(&session) == REIS_OK);
    check_over(&session);
    take_replies(&session, &taken, most);
    take_requests(&session, &taken);
    CHECK(taken.count == worked->server_count && memcmp(taken.bytes, worked->server, taken.count) == 0);
    CHECK(strcmp(taken.requests, worked->requests) == 0);
    CHECK(end_of(&session) == worked->end);
    CHECK(worked->text[0] == 0 || ended_with(&session, worked->end, worked->text));
    CHECK(reis_session_free(&session) == REIS_OK);
}

static void test_worked(const struct worked *worked) {
    static const size_t cuts[] = {1, 3, 16, 31, 113, MOST_WORKED};
    static const size_t most[] = {1, 5, 17, MOST_WORKED};
    for (size_t i = 0; i < sizeof cuts / sizeof cuts[0]; i++) {
        for (size_t j = 0; j < sizeof most / sizeof most[0]; j++)
            play_in_cuts(worked, cuts[i], most[j]);
    }
}

/* ---- requests ---- */

/* Whether the session hands out exactly this next. */
static bool is_next(reis_session *session, const reis_request *wanted) {
    reis_request request;
    memset(&request, UNTOUCHED, sizeof request);
    return reis_session_next_request(session, &request) == REIS_OK && request.kind == wanted->kind &&
           request.seat == wanted->seat && request.device == wanted->device && request.time == wanted->time &&
           memcmp(request.fields, wanted->fields, sizeof request.fields) == 0;
}

/* Field by field, and in the order in which they came; where none waits the request isn't written. */
static void test_requests(const struct worked *buttons) {
    static const reis_request bind = {REIS_KIND_BIND, 0xff00000000000001, 0, 0, {{32}}};
    static const reis_request press = {REIS_KIND_BUTTON, 0xff00000000000001, 0xff00000000000002, 9, {{272, 1}}};
    static const reis_request frame = {REIS_KIND_FRAME, 0xff00000000000001, 0xff00000000000002, 9, {{6}}};
    reis_session session = {0};
    reis_request request;
    reis_request before;
    checking("requests", 0, 0);
    CHECK(reis_session_start(&session, 5, REIS_CAPABILITY_BUTTON, REIS_NO_PIECE_LIMIT) == REIS_OK);
    memset(&request, UNTOUCHED, sizeof request);
    memcpy(&before, &request, sizeof before);
    CHECK(reis_session_next_request(&session, &request) == REIS_NOTHING);
    CHECK(memcmp(&request, &before, sizeof request) == 0);
    CHECK(feed(&session, buttons->client, HANDSHAKE + 24 + 24 + 28) == REIS_OK);
    CHECK(is_next(&session, &bind) && is_next(&session, &press) && is_next(&session, &frame));
    CHECK(reis_session_next_request(&session, &request) == REIS_NOTHING);
    CHECK(reis_session_free(&session) == REIS_OK);
}

/* A made frame has the time of the piece that makes it, of eight bytes. */
static void test_time(const struct worked *buttons) {
    static const reis_request release = {
        REIS_KIND_BUTTON, 0xff00000000000001, 0xff00000000000002, UINT64_MAX, {{272, 0}}};
    reis_session session = {0};
    reis_request request;
    checking("time", 0, 0);
    CHECK(reis_session_start(&session, 5, REIS_CAPABILITY_BUTTON, REIS_NO_PIECE_LIMIT) == REIS_OK);
    CHECK(feed(&session, buttons->client, HANDSHAKE + 24 + 24 + 28 + 24) == REIS_OK);
    for (int i = 0; i < 3; i++)
        CHECK(reis_session_next_request(&session, &request) == REIS_OK);
    CHECK(reis_session_next_request(&session, &request) == REIS_NOTHING);
    const uint8_t *ready = buttons->client + HANDSHAKE + 24 + 24 + 28 + 24;
    CHECK(reis_session_feed(&session, ready, 16, NULL, 0, UINT64_MAX) == REIS_OK);
    CHECK(is_next(&session, &release));
    CHECK(reis_session_free(&session) == REIS_OK);
}

/* ---- the client ---- */

/* Whether the session tells nothing of the client. */
static bool tells_nothing(reis_session *session) {
    uint8_t name[8] = {UNTOUCHED};
    reis_context_type type = REIS_CONTEXT_SENDER;
    size_t length = 1;
    return reis_session_client(session, &type, name, sizeof name, &length) == REIS_NOTHING && (int)type == 0 && length == 0 &&
           name[0] == UNTOUCHED;
}

/* Whether the client is of this type and has this name, which a room of fewer bytes doesn't hold. */
static bool has_client(reis_session *session, reis_context_type wanted, const char *wanted_name) {
    uint8_t name[8] = {UNTOUCHED};
    reis_context_type type = REIS_CONTEXT_RECEIVER;
    size_t length = 1;
    size_t wanted_length = strlen(wanted_name);
    if (wanted_length > 0) {
        CHECK(reis_session_client(session, &type, NULL, 0, &length) == REIS_NO_ROOM && type == wanted && length == wanted_length);
        CHECK(reis_session_client(session, &type, name, wanted_length - 1, &length) == REIS_NO_ROOM && name[0] == UNTOUCHED);
    }
    CHECK(reis_session_client(session, &type, name, wanted_length, &length) == REIS_OK);
    return type == wanted && length == wanted_length && memcmp(name, wanted_name, length) == 0;
}

/* Nothing is told before the handshake is done, nor when the session is over. One that says nothing is a receiver. */
static void test_no_name(const struct worked *leaves) {
    reis_session session = {0};
    checking("a client without a name", 0, 0);
    CHECK(reis_session_start(&session, 5, REIS_CAPABILITY_BUTTON, REIS_NO_PIECE_LIMIT) == REIS_OK);
    CHECK(tells_nothing(&session));
    CHECK(feed(&session, leaves->client, HANDSHAKE - 1) == REIS_OK && tells_nothing(&session));
    CHECK(feed(&session, leaves->client + HANDSHAKE - 1, 1) == REIS_OK);
    CHECK(has_client(&session, REIS_CONTEXT_RECEIVER, ""));
    CHECK(feed(&session, leaves->client + HANDSHAKE, ALL - HANDSHAKE) == REIS_OK && tells_nothing(&session));
    CHECK(reis_session_free(&session) == REIS_OK);
}

/* The first three messages: a handshake version, the name "demo", and the type. */
static void test_name(const struct worked *inputs, reis_context_type type) {
    enum { AT_TYPE = 20 + 28 + 16, FRONT = 20 + 28 + 20 };
    uint8_t front[FRONT];
    reis_session session = {0};
    checking("a client with a name", type, 0);
    memcpy(front, inputs->client, FRONT);
    front[AT_TYPE] = (uint8_t)type;
    CHECK(reis_session_start(&session, inputs->serial, inputs->capabilities, REIS_NO_PIECE_LIMIT) == REIS_OK);
    CHECK(feed(&session, front, FRONT) == REIS_OK && tells_nothing(&session));
    for (size_t at = FRONT; tells_nothing(&session) && at < inputs->client_count; at++)
        CHECK(feed(&session, inputs->client + at, 1) == REIS_OK);
    CHECK(has_client(&session, type, "demo") && has_client(&session, type, "demo"));
    CHECK(end_of(&session) == REIS_END_GOES_ON && reis_session_end_of_input(&session) == REIS_OK);
    CHECK(tells_nothing(&session));
    CHECK(reis_session_free(&session) == REIS_OK);
}

/* ---- texts ---- */

/* Whether the last request has this text, which a room of fewer bytes doesn't hold; it can be asked for again. */
static bool has_text(reis_session *session, const char *wanted, size_t wanted_length) {
    uint8_t text[REIS_MOST_TEXT] = {UNTOUCHED};
    size_t length = 0;
    CHECK(reis_session_request_text(session, text, 0, &length) == REIS_NO_ROOM && length == wanted_length);
    length = 0;
    CHECK(reis_session_request_text(session, text, wanted_length - 1, &length) == REIS_NO_ROOM);
    CHECK(length == wanted_length && text[0] == UNTOUCHED);
    CHECK(reis_session_request_text(session, text, wanted_length, &length) == REIS_OK);
    return length == wanted_length && memcmp(text, wanted, length) == 0;
}

static void check_no_text(reis_session *session) {
    uint8_t text[REIS_MOST_TEXT];
    size_t length = 1;
    CHECK(reis_session_request_text(session, text, sizeof text, &length) == REIS_NOTHING && length == 0);
}

static void test_request_text(const struct worked *inputs) {
    reis_session session = {0};
    reis_request request;
    unsigned texts = 0;
    checking("request text", 0, 0);
    CHECK(reis_session_start(&session, inputs->serial, inputs->capabilities, REIS_NO_PIECE_LIMIT) == REIS_OK);
    check_no_text(&session);
    CHECK(feed(&session, inputs->client, inputs->client_count) == REIS_OK);
    check_no_text(&session);
    while (reis_session_next_request(&session, &request) == REIS_OK) {
        if (request.kind == REIS_KIND_TEXT_UTF8) {
            texts++;
            CHECK(request.text_utf8.length == 2);
            CHECK(has_text(&session, "\xc3\xa9", 2) && has_text(&session, "\xc3\xa9", 2));
        } else {
            check_no_text(&session);
        }
    }
    CHECK(texts == 1);
    CHECK(reis_session_free(&session) == REIS_OK);
}

static void test_end_text(const struct worked *unreadable) {
    reis_session session = {0};
    uint8_t text[MOST_TEXT] = {UNTOUCHED};
    size_t length = 1;
    size_t wanted = strlen(unreadable->text);
    checking("end text", 0, 0);
    CHECK(reis_session_start(&session, 5, REIS_CAPABILITY_BUTTON, REIS_NO_PIECE_LIMIT) == REIS_OK);
    CHECK(reis_session_end_text(&session, text, sizeof text, &length) == REIS_NOTHING && length == 0);
    CHECK(feed(&session, unreadable->client, unreadable->client_count) == REIS_OK);
    CHECK(reis_session_end_text(&session, text, 0, &length) == REIS_NO_ROOM && length == wanted);
    CHECK(reis_session_end_text(&session, text, wanted - 1, &length) == REIS_NO_ROOM && text[0] == UNTOUCHED);
    CHECK(reis_session_end_text(&session, text, wanted, &length) == REIS_OK && length == wanted);
    CHECK(memcmp(text, unreadable->text, wanted) == 0);
    CHECK(reis_session_free(&session) == REIS_OK);
}

/* ---- all ---- */

int main(int word_count, char **words) {
    static struct worked sessions[MOST_SESSIONS];
    size_t count = load_all(sessions, word_count - 1, words + 1);
    if (count == 0) {
        fprintf(stderr, "usage: handed SESSION ..\n");
        return 2;
    }
    const struct worked *buttons = named(sessions, count, "buttons");
    const struct worked *inputs = named(sessions, count, "inputs");
    for (size_t i = 0; i < count; i++)
        test_worked(&sessions[i]);
    test_requests(buttons);
    test_time(buttons);
    test_no_name(named(sessions, count, "leaves"));
    test_name(inputs, REIS_CONTEXT_RECEIVER);
    test_name(inputs, REIS_CONTEXT_SENDER);
    test_request_text(inputs);
    test_end_text(named(sessions, count, "unreadable"));
    return checked("handed");
}
