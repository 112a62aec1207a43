/* A whole server, of one client after another: minimal PATH */
#include "reis.h"
#include <stdio.h>
#include <string.h>
#include <sys/socket.h>
#include <sys/un.h>
#include <time.h>
#include <unistd.h>

static uint64_t now(void) {
    struct timespec time;
    clock_gettime(CLOCK_MONOTONIC, &time);
    return (uint64_t)time.tv_sec * 1000000 + (uint64_t)time.tv_nsec / 1000;
}

static void act(const reis_request *request) {
    if (request->kind == REIS_KIND_POINTER_MOTION)
        printf("moves by %g, %g\n", (double)request->pointer_motion.dx, (double)request->pointer_motion.dy);
    else
        printf("%s\n", reis_kind_name(request->kind));
}

static void serve(int client) {
    static uint8_t piece[REIS_MOST_BYTES];
    const uint8_t *bytes;
    const uint32_t *handles;
    size_t count, handle_count;
    reis_request request;
    reis_end end = REIS_END_GOES_ON;
    reis_session session = {0};
    reis_answer answer = reis_session_start(&session, 1, REIS_ALL_CAPABILITIES, REIS_NO_PIECE_LIMIT);
    while (answer == REIS_OK) {
        while (reis_session_unsent(&session, &bytes, &count, &handles, &handle_count) == REIS_OK && count > 0) {
            ssize_t sent = send(client, bytes, count, MSG_NOSIGNAL);
            reis_session_sent(&session, sent > 0 ? (size_t)sent : count, handle_count); /* all, where it is gone */
        }
        while (reis_session_next_request(&session, &request) == REIS_OK)
            act(&request);
        if (reis_session_end(&session, &end) != REIS_OK || end != REIS_END_GOES_ON)
            break;
        ssize_t got = recv(client, piece, sizeof piece, 0);
        answer = got > 0 ? reis_session_feed(&session, piece, (size_t)got, NULL, 0, now()) : reis_session_end_of_input(&session);
    }
    printf("end: %s\n", reis_end_name(end));
    fflush(stdout);
    reis_session_free(&session);
    close(client);
}

int main(int count, char **words) {
    struct sockaddr_un name = {.sun_family = AF_UNIX};
    int client, listener = socket(AF_UNIX, SOCK_STREAM, 0);
    if (count != 2 || strlen(words[1]) >= sizeof name.sun_path)
        return fprintf(stderr, "usage: minimal PATH\n"), 2;
    strcpy(name.sun_path, words[1]);
    if (bind(listener, (struct sockaddr *)&name, sizeof name) != 0 || listen(listener, 16) != 0)
        return perror(words[1]), 1;
    while ((client = accept(listener, NULL, NULL)) != -1)
        serve(client);
}
