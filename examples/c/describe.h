/* A request as a line of text. */
#ifndef DESCRIBE_H
#define DESCRIBE_H

#include "reis.h"

enum { MOST_LINE = 1024 };

/* Writes the request that the session handed out last, without a newline. */
void describe(reis_session *session, const reis_request *request, char line[MOST_LINE]);

#endif
