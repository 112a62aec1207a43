/* Tests of sessions on several threads at once: each plays the worked sessions, and what it is lent and handed out is that
 * session's own.
 *
 *     threads SESSION .. */
#include "check.h"
#include "describe.h"

#include <pthread.h>
#include <stdio.h>
#include <string.h>

enum { THREADS = 4, ROUNDS = 50, PIECE = 29 };

static struct worked sessions[MOST_SESSIONS];
static size_t session_count;

/* What a thread got of one session. */
struct got {
    uint8_t bytes[MOST_WORKED];
    size_t count;
    char requests[MOST_WORKED];
    size_t length;
    bool good;
};

static void take(reis_session *session, struct got *got) {
    const uint8_t *bytes;
    const uint32_t *handles;
    size_t count, handle_count;
    reis_request request;
    char line[MOST_LINE];
    got->good = got->good && reis_session_unsent(session, &bytes, &count, &handles, &handle_count) == REIS_OK;
    if (got->good && count > 0 && count <= MOST_WORKED - got->count) {
        memcpy(got->bytes + got->count, bytes, count);
        got->count += count;
        got->good = reis_session_sent(session, count, handle_count) == REIS_OK;
    }
    while (reis_session_next_request(session, &request) == REIS_OK) {
        describe(session, &request, line);
        int length = snprintf(got->requests + got->length, MOST_WORKED - got->length, "%s\n", line);
        got->length += length > 0 ? (size_t)length : 0;
    }
}

/* Whether the session came out as it should. */
static bool play(const struct worked *worked) {
    static _Thread_local struct got got;
    reis_session session = {0};
    memset(&got, 0, sizeof got);
    got.good = reis_session_start(&session, worked->serial, worked->capabilities, REIS_NO_PIECE_LIMIT) == REIS_OK;
    for (size_t at = 0; got.good && at < worked->client_count; at += PIECE) {
        size_t left = worked->client_count - at;
        got.good = reis_session_feed(&session, worked->client + at, left < PIECE ? left : PIECE, NULL, 0, worked->time) == REIS_OK;
        take(&session, &got);
    }
    return reis_session_free(&session) == REIS_OK && got.good && got.count == worked->server_count &&
           memcmp(got.bytes, worked->server, got.count) == 0 && strcmp(got.requests, worked->requests) == 0;
}

/* One thread: with which session it begins, and how many didn't come out as they should. */
struct thread {
    pthread_t id;
    size_t first;
    size_t bad;
};

static void *play_many(void *at) {
    struct thread *thread = at;
    for (size_t round = 0; round < ROUNDS * session_count; round++)
        thread->bad += !play(&sessions[(thread->first + round) % session_count]);
    return NULL;
}

int main(int word_count, char **words) {
    struct thread threads[THREADS];
    session_count = load_all(sessions, word_count - 1, words + 1);
    if (session_count == 0)
        return 2;
    for (size_t i = 0; i < THREADS; i++) {
        threads[i] = (struct thread){.first = i};
        CHECK(pthread_create(&threads[i].id, NULL, play_many, &threads[i]) == 0);
    }
    for (size_t i = 0; i < THREADS; i++) {
        CHECK(pthread_join(threads[i].id, NULL) == 0);
        CHECK(threads[i].bad == 0);
    }
    return checked("threads");
}
