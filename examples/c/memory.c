/* Tests of a session that wants memory, over a heap that checks each call: each block that a session asks for is refused in
 * turn; and a thousand sessions leave nothing, and take no more than the first.
 *
 *     memory SESSION .. */
#include "blocks.h"
#include "check.h"
#include "reis.h"

#include <string.h>

enum { MANY = 1000 };

/* Whether what the session replied until now is a front of what is wanted, all of it where it didn't run out. */
static bool replied_well(reis_session *session, const struct worked *worked, bool ran_out) {
    const uint8_t *bytes;
    const uint32_t *handles;
    size_t count, handle_count;
    CHECK(reis_session_unsent(session, &bytes, &count, &handles, &handle_count) == REIS_OK);
    return count <= worked->server_count && (ran_out || count == worked->server_count) &&
           (count == 0 || memcmp(bytes, worked->server, count) == 0);
}

/* Feeds it all, and what follows the last piece. */
static void feed_all(reis_session *session, const struct worked *worked) {
    static const size_t cut = 50;
    reis_answer answer = REIS_OK;
    for (size_t at = 0; at < worked->client_count && answer == REIS_OK; at += cut) {
        size_t left = worked->client_count - at;
        answer = reis_session_feed(session, worked->client + at, left < cut ? left : cut, NULL, 0, worked->time);
    }
    if (answer == REIS_OK && (worked->end == REIS_END_END_OF_INPUT || worked->end == REIS_END_ERROR_UNEXPECTED_EOF))
        answer = reis_session_end_of_input(session);
    CHECK(answer == REIS_OK || answer == REIS_OVER);
}

/* One run with the block of that number refused. Whether so many were asked for. */
static bool run(const struct worked *worked, size_t number) {
    reis_session session = {0};
    checking(worked->name, number, 0);
    blocks_refuse(number);
    reis_answer started = reis_session_start(&session, worked->serial, worked->capabilities, REIS_NO_PIECE_LIMIT);
    if (started == REIS_NO_MEMORY) {
        CHECK(blocks_asked() >= number && session.at == NULL);
    } else {
        reis_end end = REIS_END_GOES_ON;
        CHECK(started == REIS_OK);
        feed_all(&session, worked);
        CHECK(reis_session_end(&session, &end) == REIS_OK);
        CHECK(end == worked->end || (end == REIS_END_ERROR_NO_MEMORY && blocks_asked() >= number));
        CHECK(replied_well(&session, worked, end == REIS_END_ERROR_NO_MEMORY));
        CHECK(reis_session_free(&session) == REIS_OK);
    }
    CHECK(blocks_here() == 0 && blocks_wrong() == 0);
    return blocks_asked() >= number;
}

/* The same session again and again asks for the same. */
static void test_many(const struct worked *worked) {
    run(worked, SIZE_MAX);
    size_t asked = blocks_asked();
    size_t peak = blocks_peak();
    for (int i = 1; i < MANY; i++) {
        run(worked, SIZE_MAX);
        CHECK(blocks_asked() == asked && blocks_peak() == peak);
    }
}

int main(int word_count, char **words) {
    static struct worked sessions[MOST_SESSIONS];
    size_t count = load_all(sessions, word_count - 1, words + 1);
    for (size_t i = 0; i < count; i++) {
        for (size_t number = 1; number < 1000000 && run(&sessions[i], number); number++)
            continue;
        test_many(&sessions[i]);
    }
    return checked("memory");
}
