/* A worked session that is played over a socket pair: the client's end, and the server's connection. */
#ifndef PLAY_H
#define PLAY_H

#include "connection.h"
#include "worked.h"

enum { MOST_TURNS = 100000 };

struct play {
    const struct worked *worked;
    size_t cut;
    size_t take;
    int client;
    bool closed;
    struct connection connection;
    size_t sent;
    uint8_t got[MOST_WORKED];
    size_t got_count;
    char requests[MOST_WORKED];
    size_t request_length;
};

/* Begins it: so many bytes are sent at a time, and so many replies taken. */
void begin(struct play *play, const struct worked *worked, size_t cut, size_t take);

/* The client sends the next bytes; behind the last it says that no more come, where the session is to end so. */
void send_some(struct play *play);

/* The server reads where it has written all, and writes. */
void serve_some(struct play *play);

/* The client takes the next replies. Whether there were any. */
bool take_some(struct play *play);

/* Whether all that was got until now is a front of what is wanted. */
bool is_front(const struct play *play);

/* One turn of both ends. Whether there is more to do. */
bool turn(struct play *play);

/* What it came to, all of it; then it is closed. */
void finish(struct play *play);

#endif
