/* A server that sends input: it listens on a path, and each client that receives gets a device and this input of it, in frames, and
 * is told then that the server is done.
 *
 *     capture PATH CLIENTS
 *
 * It ends when so many clients are done. */
#include "listen.h"
#include "peer.h"

#include <poll.h>
#include <stdio.h>
#include <stdlib.h>
#include <string.h>
#include <sys/socket.h>
#include <unistd.h>

/* linux/input-event-codes.h */
enum { LEFT_BUTTON = 0x110, KEY_OF_A = 30 };

/* An input, or the end of a frame at a time in microseconds, where its kind is REIS_KIND_FRAME. */
static const reis_request captured[] = {
    {.kind = REIS_KIND_POINTER_MOTION, .pointer_motion = {3.5f, -1}},
    {.kind = REIS_KIND_POINTER_MOTION, .pointer_motion = {0.25f, 0}},
    {.kind = REIS_KIND_FRAME, .time = 1000},
    {.kind = REIS_KIND_BUTTON, .button = {LEFT_BUTTON, 1}},
    {.kind = REIS_KIND_FRAME, .time = 2000},
    {.kind = REIS_KIND_BUTTON, .button = {LEFT_BUTTON, 0}},
    {.kind = REIS_KIND_KEY, .key = {KEY_OF_A, 1}},
    {.kind = REIS_KIND_FRAME, .time = 3000},
    {.kind = REIS_KIND_KEY, .key = {KEY_OF_A, 0}},
    {.kind = REIS_KIND_SCROLL_DELTA, .scroll_delta = {0, 15}},
    {.kind = REIS_KIND_SCROLL_DISCRETE, .scroll_discrete = {0, -120}},
    {.kind = REIS_KIND_SCROLL_STOP, .scroll_stop = {0, 1}},
    {.kind = REIS_KIND_FRAME, .time = 4000},
    {.kind = REIS_KIND_TOUCH_DOWN, .touch_down = {1, 100, 200}},
    {.kind = REIS_KIND_TOUCH_MOTION, .touch_motion = {1, 110, 210}},
    {.kind = REIS_KIND_FRAME, .time = 5000},
    {.kind = REIS_KIND_TOUCH_UP, .touch_up = {1}},
    {.kind = REIS_KIND_TEXT_UTF8},
    {.kind = REIS_KIND_FRAME, .time = 6000},
};

static const char text[] = "caf\xc3\xa9";

/* The capabilities that this input takes. */
static const uint64_t wanted = REIS_CAPABILITY_POINTER | REIS_CAPABILITY_BUTTON | REIS_CAPABILITY_KEYBOARD | REIS_CAPABILITY_SCROLL |
    REIS_CAPABILITY_TOUCH | REIS_CAPABILITY_TEXT;

/* Says why a call did nothing. Whether it did what it is for. */
static bool done(const char *what, reis_answer answer) {
    if (answer != REIS_OK)
        printf("%s: %s\n", what, reis_answer_name(answer));
    return answer == REIS_OK;
}

/* Sends all input, by a device that begins and ends to send. */
static void send_input(reis_connection *connection, uint64_t device) {
    done("start_emulating", reis_connection_start_emulating(connection, device, 1));
    for (size_t i = 0; i < sizeof captured / sizeof captured[0]; i++) {
        reis_request input = captured[i];
        input.device = device;
        if (input.kind == REIS_KIND_FRAME)
            done("frame", reis_connection_frame(connection, device, input.time));
        else
            done(reis_kind_name(input.kind), reis_connection_send(connection, &input, text, sizeof text - 1));
    }
    done("stop_emulating", reis_connection_stop_emulating(connection, device));
}

/* A client that binds gets a device and its input, and the server is done with it. */
static void serve(reis_connection *connection, uint64_t seat, uint64_t capabilities) {
    uint64_t device;
    reis_device described = {.size = sizeof described,
                             .name = "captured",
                             .name_length = 8,
                             .capabilities = capabilities,
                             .type = REIS_DEVICE_VIRTUAL};
    if (done("add_device", reis_connection_add_device(connection, seat, &described, &device)) &&
        done("resume", reis_connection_resume(connection, device)))
        send_input(connection, device);
    done("disconnect", reis_connection_disconnect(connection, REIS_REASON_DISCONNECTED, NULL, 0));
}

/* A client that receives gets its seat. */
static void greet(reis_connection *connection) {
    reis_context_type type;
    size_t length;
    uint64_t seat;
    reis_connection_client(connection, &type, NULL, 0, &length);
    done("add_seat", reis_connection_add_seat(connection, NULL, 0, wanted, &seat));
    if (type != REIS_CONTEXT_RECEIVER)
        done("disconnect", reis_connection_disconnect(connection, REIS_REASON_MODE, "it must receive", 15));
}

/* Acts on what the client asks for, from its handshake on. */
static void act(reis_connection *connection) {
    reis_request request;
    while (reis_connection_next_request(connection, &request) == REIS_OK) {
        if (request.kind == REIS_KIND_CONNECTED)
            greet(connection);
        else if (request.kind == REIS_KIND_BIND)
            serve(connection, request.seat, request.bind.capabilities);
    }
}

/* One client, until it is over and all is written. */
static void play(struct peer *peer) {
    while (peer_waits(peer) || peer_end(peer) == REIS_END_GOES_ON) {
        bool waits = peer_waits(peer);
        struct pollfd polled = {.fd = peer->socket, .events = waits ? POLLOUT : POLLIN};
        if (poll(&polled, 1, -1) < 0)
            return;
        if (waits ? !peer_write(peer) : !peer_read(peer, 0))
            return;
        act(&peer->connection);
    }
}

int main(int count, char **words) {
    if (count != 3 || !reis_version_matches()) {
        fprintf(stderr, "usage: capture PATH CLIENTS\n");
        return 2;
    }
    int listener = listen_on(words[1]);
    if (listener == -1)
        return 1;
    for (unsigned long left = strtoul(words[2], NULL, 10); left > 0; left--) {
        struct peer peer;
        struct pollfd polled = {.fd = listener, .events = POLLIN};
        int socket = poll(&polled, 1, -1) < 0 ? -1 : accept4(listener, NULL, NULL, SOCK_CLOEXEC);
        if (socket == -1 || peer_open(&peer, socket, 1, REIS_STRICT) != REIS_OK)
            continue;
        play(&peer);
        printf("end %s\n", reis_end_name(peer_end(&peer)));
        peer_close(&peer);
    }
    listen_no_more(listener, words[1]);
    return 0;
}
