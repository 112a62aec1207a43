/* What the tests ask of a session. */
#ifndef ASK_H
#define ASK_H

#include "reis.h"

#include <stdbool.h>

/* What stands where a call isn't to write. */
enum { UNTOUCHED = 0xa5 };

/* The lengths of the front of the session `leaves`: its handshake, and all; and what it is sent until then. */
enum { HANDSHAKE = 128, ALL = 144, WELCOME = 208 };

/* Feeds the bytes at the time 0, with no handles. */
reis_answer feed(reis_session *session, const uint8_t *bytes, size_t count);

/* How many bytes wait, which are counted as sent then. */
size_t waiting(reis_session *session);

reis_end end_of(reis_session *session);

/* Whether the session ended so, with this text. */
bool ended_with(reis_session *session, reis_end end, const char *wanted);

#endif
