/* Tests of each call of reis.h, without a socket: every bad use that a call answers leaves the session as it was.
 *
 *     calls SESSION .. */
#include "ask.h"
#include "check.h"

#include <stdio.h>
#include <string.h>

/* ---- no session ---- */

/* What each call answers where there is none. */
static void check_no_session(reis_session *session) {
    uint8_t bytes[2] = {UNTOUCHED, UNTOUCHED};
    const uint8_t *lent = bytes;
    const uint32_t *lent_handles = (const uint32_t[1]){0};
    reis_request request;
    reis_request before;
    size_t count = 1;
    size_t handle_count = 1;
    reis_context_type type = REIS_CONTEXT_SENDER;
    reis_end end = REIS_END_DISCONNECTED;
    memset(&request, UNTOUCHED, sizeof request);
    memcpy(&before, &request, sizeof before);
    CHECK(feed(session, bytes, 1) == REIS_NO_SESSION);
    CHECK(feed(session, bytes, 0) == REIS_NO_SESSION);
    CHECK(reis_session_end_of_input(session) == REIS_NO_SESSION);
    CHECK(reis_session_unsent(session, &lent, &count, &lent_handles, &handle_count) == REIS_NO_SESSION);
    CHECK(lent == NULL && count == 0 && lent_handles == NULL && handle_count == 0);
    CHECK(reis_session_sent(session, 0, 0) == REIS_NO_SESSION);
    CHECK(reis_session_sent(session, 1, 1) == REIS_NO_SESSION);
    CHECK(reis_session_next_request(session, &request) == REIS_NO_SESSION);
    CHECK(memcmp(&request, &before, sizeof request) == 0);
    count = 1;
    CHECK(reis_session_client(session, &type, bytes, 2, &count) == REIS_NO_SESSION && (int)type == 0 && count == 0);
    count = 1;
    CHECK(reis_session_request_text(session, bytes, 2, &count) == REIS_NO_SESSION && count == 0);
    CHECK(reis_session_end(session, &end) == REIS_NO_SESSION && end == REIS_END_GOES_ON);
    count = 1;
    CHECK(reis_session_end_text(session, bytes, 2, &count) == REIS_NO_SESSION && count == 0);
    CHECK(bytes[0] == UNTOUCHED && bytes[1] == UNTOUCHED);
    CHECK(reis_session_free(session) == REIS_NO_SESSION);
    CHECK(session->at == NULL);
}

static void test_no_session(void) {
    reis_session session = {0};
    checking("no session", 0, 0);
    check_no_session(&session);
    CHECK(reis_session_start(&session, 5, REIS_CAPABILITY_BUTTON, 200) == REIS_OK);
    CHECK(session.at != NULL);
    CHECK(reis_session_free(&session) == REIS_OK);
    checking("a freed session", 0, 0);
    check_no_session(&session);
}

/* ---- pointers that are NULL ---- */

/* What each call answers where a pointer is NULL: nothing is written. */
static void check_null_pointers(reis_session *session) {
    uint8_t byte = UNTOUCHED;
    uint32_t handle = UNTOUCHED;
    size_t count = UNTOUCHED;
    reis_context_type type = REIS_CONTEXT_SENDER;
    const uint8_t *lent = &byte;
    const uint32_t *lent_handles = &handle;
    CHECK(reis_session_feed(session, NULL, 1, &handle, 0, 0) == REIS_NULL);
    CHECK(reis_session_feed(session, &byte, 1, NULL, 1, 0) == REIS_NULL);
    CHECK(reis_session_unsent(session, NULL, &count, &lent_handles, &count) == REIS_NULL);
    CHECK(reis_session_unsent(session, &lent, NULL, &lent_handles, &count) == REIS_NULL);
    CHECK(reis_session_unsent(session, &lent, &count, NULL, &count) == REIS_NULL);
    CHECK(reis_session_unsent(session, &lent, &count, &lent_handles, NULL) == REIS_NULL);
    CHECK(reis_session_client(session, NULL, &byte, 1, &count) == REIS_NULL);
    CHECK(reis_session_client(session, &type, NULL, 1, &count) == REIS_NULL);
    CHECK(reis_session_client(session, &type, &byte, 1, NULL) == REIS_NULL);
    CHECK(reis_session_next_request(session, NULL) == REIS_NULL);
    CHECK(reis_session_request_text(session, NULL, 1, &count) == REIS_NULL);
    CHECK(reis_session_request_text(session, &byte, 1, NULL) == REIS_NULL);
    CHECK(reis_session_end(session, NULL) == REIS_NULL);
    CHECK(reis_session_end_text(session, NULL, 1, &count) == REIS_NULL);
    CHECK(reis_session_end_text(session, &byte, 1, NULL) == REIS_NULL);
    CHECK(byte == UNTOUCHED && handle == UNTOUCHED && count == UNTOUCHED && type == REIS_CONTEXT_SENDER);
    CHECK(lent == &byte && lent_handles == &handle);
}

/* What each call answers where the session's own pointer is NULL. */
static void check_null_session(void) {
    uint8_t byte = UNTOUCHED;
    reis_end end = REIS_END_DISCONNECTED;
    size_t count = UNTOUCHED;
    reis_context_type type = REIS_CONTEXT_SENDER;
    const uint8_t *lent = &byte;
    const uint32_t *lent_handles = NULL;
    reis_request request;
    CHECK(reis_session_start(NULL, 5, REIS_CAPABILITY_BUTTON, 200) == REIS_NULL);
    CHECK(feed(NULL, &byte, 1) == REIS_NULL);
    CHECK(reis_session_end_of_input(NULL) == REIS_NULL);
    CHECK(reis_session_unsent(NULL, &lent, &count, &lent_handles, &count) == REIS_NULL);
    CHECK(reis_session_sent(NULL, 0, 0) == REIS_NULL);
    CHECK(reis_session_client(NULL, &type, &byte, 1, &count) == REIS_NULL);
    CHECK(reis_session_next_request(NULL, &request) == REIS_NULL);
    CHECK(reis_session_request_text(NULL, &byte, 1, &count) == REIS_NULL);
    CHECK(reis_session_end(NULL, &end) == REIS_NULL);
    CHECK(reis_session_end_text(NULL, &byte, 1, &count) == REIS_NULL);
    CHECK(reis_session_free(NULL) == REIS_NULL);
    CHECK(byte == UNTOUCHED && end == REIS_END_DISCONNECTED && count == UNTOUCHED && type == REIS_CONTEXT_SENDER);
    CHECK(lent == &byte && lent_handles == NULL);
}

/* NULL is answered wherever something is to be read or written there, and is a pointer to nothing where that is asked for. */
static void test_null(const struct worked *leaves) {
    reis_session session = {0};
    reis_context_type type = REIS_CONTEXT_SENDER;
    size_t count = 1;
    checking("pointers that are NULL", 0, 0);
    check_null_session();
    check_null_pointers(&session);
    CHECK(reis_session_start(&session, 5, REIS_CAPABILITY_BUTTON, 200) == REIS_OK);
    check_null_pointers(&session);
    CHECK(reis_session_feed(&session, NULL, 0, NULL, 0, 0) == REIS_EMPTY);
    CHECK(reis_session_feed(&session, leaves->client, HANDSHAKE, NULL, 0, 0) == REIS_OK);
    check_null_pointers(&session);
    CHECK(reis_session_client(&session, &type, NULL, 0, &count) == REIS_OK && count == 0);
    CHECK(reis_session_feed(&session, leaves->client + HANDSHAKE, ALL - HANDSHAKE, NULL, 0, 0) == REIS_OK);
    check_null_pointers(&session);
    CHECK(reis_session_request_text(&session, NULL, 0, &count) == REIS_NOTHING);
    CHECK(reis_session_end_text(&session, NULL, 0, &count) == REIS_NOTHING);
    CHECK(waiting(&session) == WELCOME && end_of(&session) == REIS_END_DISCONNECTED);
    CHECK(reis_session_free(&session) == REIS_OK);
}

/* ---- start ---- */

static void test_start(const struct worked *leaves) {
    reis_session session = {0};
    checking("start", 0, 0);
    CHECK(reis_session_start(&session, 5, REIS_ALL_CAPABILITIES + 1, 200) == REIS_CAPABILITIES && session.at == NULL);
    CHECK(reis_session_start(&session, 5, UINT64_MAX, 200) == REIS_CAPABILITIES && session.at == NULL);
    CHECK(reis_session_start(&session, 5, REIS_CAPABILITY_BUTTON, 200) == REIS_OK);
    uint8_t *at = session.at;
    CHECK(reis_session_start(&session, 6, REIS_CAPABILITY_BUTTON, 200) == REIS_HAS_SESSION && session.at == at);
    CHECK(reis_session_start(&session, 6, REIS_ALL_CAPABILITIES + 1, 200) == REIS_HAS_SESSION && session.at == at);
    CHECK(feed(&session, leaves->client, HANDSHAKE) == REIS_OK);
    CHECK(waiting(&session) == WELCOME);
    CHECK(reis_session_free(&session) == REIS_OK);
}

/* The word is moved to another place. */
static void test_moves(const struct worked *leaves) {
    reis_session before = {0};
    checking("moves", 0, 0);
    CHECK(reis_session_start(&before, 5, REIS_CAPABILITY_BUTTON, 200) == REIS_OK);
    reis_session session = before;
    before.at = NULL;
    CHECK(feed(&session, leaves->client, ALL) == REIS_OK);
    CHECK(waiting(&session) == WELCOME && end_of(&session) == REIS_END_DISCONNECTED);
    CHECK(reis_session_free(&session) == REIS_OK && session.at == NULL);
}

/* ---- what wasn't sent ---- */

/* What is lent stays as it is while nothing is counted, and so much as doesn't wait isn't counted. */
static void test_not_unsent(const struct worked *leaves) {
    reis_session session = {0};
    const uint8_t *bytes;
    const uint32_t *handles;
    size_t count, handle_count;
    checking("not unsent", 0, 0);
    CHECK(reis_session_start(&session, 5, REIS_CAPABILITY_BUTTON, 200) == REIS_OK);
    CHECK(feed(&session, leaves->client, ALL) == REIS_OK);
    for (int i = 0; i < 3; i++) {
        CHECK(reis_session_unsent(&session, &bytes, &count, &handles, &handle_count) == REIS_OK);
        CHECK(count == WELCOME && memcmp(bytes, leaves->server, WELCOME) == 0 && handles == NULL && handle_count == 0);
        CHECK(reis_session_sent(&session, WELCOME + 1, 0) == REIS_NOT_UNSENT);
        CHECK(reis_session_sent(&session, SIZE_MAX, 0) == REIS_NOT_UNSENT);
        CHECK(reis_session_sent(&session, WELCOME, 1) == REIS_NOT_UNSENT);
        CHECK(reis_session_sent(&session, 0, SIZE_MAX) == REIS_NOT_UNSENT);
        CHECK(reis_session_sent(&session, 0, 0) == REIS_OK);
    }
    CHECK(waiting(&session) == WELCOME && waiting(&session) == 0);
    CHECK(reis_session_sent(&session, 1, 0) == REIS_NOT_UNSENT);
    CHECK(reis_session_free(&session) == REIS_OK);
}

/* ---- limits ---- */

/* 4096 handles may be unread; with one more the session ends. */
static void test_handle_limit(const struct worked *leaves) {
    reis_session session = {0};
    uint32_t handles[REIS_MOST_HANDLES];
    checking("handle limit", 0, 0);
    for (uint32_t i = 0; i < REIS_MOST_HANDLES; i++)
        handles[i] = i;
    CHECK(reis_session_start(&session, 5, REIS_CAPABILITY_BUTTON, REIS_NO_PIECE_LIMIT) == REIS_OK);
    for (size_t at = 0; at < HANDSHAKE; at += 2)
        CHECK(reis_session_feed(&session, leaves->client + at, 2, handles, REIS_MOST_HANDLES, 0) == REIS_OK);
    CHECK(end_of(&session) == REIS_END_GOES_ON);
    CHECK(reis_session_feed(&session, leaves->client + HANDSHAKE, 16, handles, 1, 0) == REIS_OK);
    CHECK(ended_with(&session, REIS_END_ERROR_HANDLE_LIMIT, "too many unread handles"));
    CHECK(waiting(&session) == WELCOME);
    CHECK(reis_session_free(&session) == REIS_OK);
}

static void test_piece_limit(const struct worked *leaves) {
    reis_session session = {0};
    checking("piece limit", 0, 0);
    CHECK(reis_session_start(&session, 5, REIS_CAPABILITY_BUTTON, 1) == REIS_OK);
    CHECK(feed(&session, leaves->client, HANDSHAKE) == REIS_OK && end_of(&session) == REIS_END_GOES_ON);
    CHECK(feed(&session, leaves->client + HANDSHAKE, 16) == REIS_OK);
    CHECK(ended_with(&session, REIS_END_ERROR_PIECE_LIMIT, "piece limit reached"));
    CHECK(waiting(&session) == WELCOME);
    CHECK(reis_session_free(&session) == REIS_OK);
}

/* Freed while replies and requests wait. */
static void test_frees_all(const struct worked *buttons) {
    reis_session session = {0};
    checking("frees all", 0, 0);
    CHECK(reis_session_start(&session, 5, REIS_CAPABILITY_BUTTON, REIS_NO_PIECE_LIMIT) == REIS_OK);
    CHECK(feed(&session, buttons->client, buttons->client_count - 17) == REIS_OK);
    CHECK(reis_session_free(&session) == REIS_OK && session.at == NULL);
    CHECK(reis_session_free(&session) == REIS_NO_SESSION);
}

/* ---- version and names ---- */

static void test_names(void) {
    checking("names", 0, 0);
    CHECK(reis_version() == REIS_VERSION && reis_version_matches());
    CHECK(strcmp(reis_answer_name(REIS_OK), "ok") == 0 && strcmp(reis_answer_name(REIS_NULL), "null") == 0);
    CHECK(strcmp(reis_kind_name(REIS_KIND_BUTTON), "button") == 0);
    CHECK(strcmp(reis_end_name(REIS_END_ERROR_PIECE_LIMIT), "error_piece_limit") == 0);
    CHECK(strcmp(reis_answer_name((reis_answer)999), "unknown") == 0);
    CHECK(strcmp(reis_kind_name((reis_kind)0), "unknown") == 0);
    CHECK(strcmp(reis_kind_name((reis_kind)UINT32_MAX), "unknown") == 0);
    CHECK(strcmp(reis_end_name((reis_end)4), "unknown") == 0);
}

/* ---- all ---- */

int main(int word_count, char **words) {
    static struct worked sessions[MOST_SESSIONS];
    size_t count = load_all(sessions, word_count - 1, words + 1);
    if (count == 0) {
        fprintf(stderr, "usage: calls SESSION ..\n");
        return 2;
    }
    const struct worked *leaves = named(sessions, count, "leaves");
    test_no_session();
    test_null(leaves);
    test_start(leaves);
    test_moves(leaves);
    test_not_unsent(leaves);
    test_handle_limit(leaves);
    test_piece_limit(leaves);
    test_frees_all(named(sessions, count, "buttons"));
    test_names();
    return checked("calls");
}
