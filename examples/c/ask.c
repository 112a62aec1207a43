#include "ask.h"

#include "check.h"

#include <string.h>

reis_answer feed(reis_session *session, const uint8_t *bytes, size_t count) {
    return reis_session_feed(session, bytes, count, NULL, 0, 0);
}

size_t waiting(reis_session *session) {
    const uint8_t *bytes;
    const uint32_t *handles;
    size_t count = 1;
    size_t handle_count = 1;
    CHECK(reis_session_unsent(session, &bytes, &count, &handles, &handle_count) == REIS_OK);
    CHECK(handle_count == 0 && handles == NULL);
    CHECK((count == 0) == (bytes == NULL));
    CHECK(reis_session_sent(session, count, 0) == REIS_OK);
    return count;
}

reis_end end_of(reis_session *session) {
    reis_end end = REIS_END_PARSE_NO_MEMORY;
    CHECK(reis_session_end(session, &end) == REIS_OK);
    return end;
}

bool ended_with(reis_session *session, reis_end end, const char *wanted) {
    uint8_t text[MOST_TEXT];
    size_t length = 0;
    return end_of(session) == end && reis_session_end_text(session, text, sizeof text, &length) == REIS_OK &&
           length == strlen(wanted) && memcmp(text, wanted, length) == 0;
}
