/* A server of one client on libei, for what ../c/compositor.c and ../c/capture.c haven't: one physical device of all that libei
 * knows, with touches, modifiers and a reason to end. It shows what the client asks for.
 *
 *     server PATH
 *
 * A sender's device is paused and resumed when it stops to send. When it stops once more the client is told of modifiers, and that
 * it has to go. A receiver is sent input of each kind. */
#include "../c/describe.h"
#include "../c/listen.h"
#include "../c/peer.h"

#include <poll.h>
#include <stdio.h>
#include <sys/mman.h>
#include <sys/socket.h>
#include <unistd.h>

/* linux/input-event-codes.h */
enum { LEFT_BUTTON = 0x110, KEY_OF_A = 30 };

static const char keymap[] = "xkb_keymap {\n};\n";
static int keymap_file;

static const uint64_t given = REIS_CAPABILITY_POINTER | REIS_CAPABILITY_POINTER_ABSOLUTE | REIS_CAPABILITY_KEYBOARD |
    REIS_CAPABILITY_TOUCH | REIS_CAPABILITY_SCROLL | REIS_CAPABILITY_BUTTON;

/* The input of a receiver; a frame ends at its time in microseconds. */
static const reis_request inputs[] = {
    {.kind = REIS_KIND_POINTER_MOTION, .pointer_motion = {3.5f, -1}},
    {.kind = REIS_KIND_FRAME, .time = 1000},
    {.kind = REIS_KIND_POINTER_MOTION_ABSOLUTE, .pointer_motion_absolute = {100.5f, 100.25f}},
    {.kind = REIS_KIND_FRAME, .time = 2000},
    {.kind = REIS_KIND_BUTTON, .button = {LEFT_BUTTON, 1}},
    {.kind = REIS_KIND_KEY, .key = {KEY_OF_A, 1}},
    {.kind = REIS_KIND_FRAME, .time = 3000},
    {.kind = REIS_KIND_SCROLL_DELTA, .scroll_delta = {0.5f, -15}},
    {.kind = REIS_KIND_SCROLL_DISCRETE, .scroll_discrete = {-120, 240}},
    {.kind = REIS_KIND_SCROLL_STOP, .scroll_stop = {0, 1}},
    {.kind = REIS_KIND_SCROLL_CANCEL, .scroll_cancel = {1, 0}},
    {.kind = REIS_KIND_FRAME, .time = 4000},
    {.kind = REIS_KIND_TOUCH_DOWN, .touch_down = {7, 10, 20}},
    {.kind = REIS_KIND_TOUCH_DOWN, .touch_down = {0, 30.5f, 40}},
    {.kind = REIS_KIND_FRAME, .time = 5000},
    {.kind = REIS_KIND_TOUCH_MOTION, .touch_motion = {7, 11, 21}},
    {.kind = REIS_KIND_TOUCH_UP, .touch_up = {7}},
    {.kind = REIS_KIND_TOUCH_CANCEL, .touch_cancel = {0}},
    {.kind = REIS_KIND_FRAME, .time = UINT64_MAX},
};

/* Says why a call did nothing. */
static void done(const char *what, reis_answer answer) {
    if (answer != REIS_OK)
        printf("%s: %s\n", what, reis_answer_name(answer));
}

static void tell_modifiers(reis_connection *connection, uint64_t device) {
    done("modifiers", reis_connection_modifiers(connection, device, 1, 2, 4, 3));
}

static void send_input(reis_connection *connection, uint64_t device) {
    done("start_emulating", reis_connection_start_emulating(connection, device, UINT32_MAX));
    for (size_t i = 0; i < sizeof inputs / sizeof inputs[0]; i++) {
        reis_request input = inputs[i];
        input.device = device;
        if (input.kind == REIS_KIND_FRAME)
            done("frame", reis_connection_frame(connection, device, input.time));
        else
            done(reis_kind_name(input.kind), reis_connection_send(connection, &input, NULL, 0));
        if (input.time == 3000)
            tell_modifiers(connection, device);
    }
    done("stop_emulating", reis_connection_stop_emulating(connection, device));
    done("pause", reis_connection_pause(connection, device));
    done("disconnect", reis_connection_disconnect(connection, REIS_REASON_DISCONNECTED, NULL, 0));
}

static uint64_t add_device(reis_connection *connection, uint64_t seat, uint64_t capabilities) {
    uint64_t device;
    reis_device described = {.size = sizeof described,
                             .name = "all",
                             .name_length = 3,
                             .capabilities = capabilities,
                             .type = REIS_DEVICE_PHYSICAL,
                             .width = 300,
                             .height = 200,
                             .keymap_type = REIS_KEYMAP_XKB,
                             .keymap = (uint32_t)keymap_file,
                             .keymap_size = sizeof keymap};
    done("add_device", reis_connection_add_device(connection, seat, &described, &device));
    done("resume", reis_connection_resume(connection, device));
    return device;
}

/* The sender stopped to send, for the first time or for the second. */
static void go_on(reis_connection *connection, uint64_t device, bool again) {
    if (again) {
        tell_modifiers(connection, device);
        done("disconnect", reis_connection_disconnect(connection, REIS_REASON_VALUE, "that is all", 11));
    } else {
        done("pause", reis_connection_pause(connection, device));
        done("resume", reis_connection_resume(connection, device));
    }
}

static void act(reis_connection *connection, const reis_request *request, bool sends) {
    static unsigned stopped;
    reis_session none = {0};
    char line[MOST_LINE];
    describe(&none, request, line);
    printf("%s\n", line);
    if (request->kind == REIS_KIND_BIND) {
        uint64_t device = add_device(connection, request->seat, request->bind.capabilities);
        if (!sends)
            send_input(connection, device);
    } else if (request->kind == REIS_KIND_STOP_EMULATING) {
        go_on(connection, request->device, stopped++ > 0);
    }
}

/* A client that is known gets its seat, and what it asks for. */
static void serve(reis_connection *connection) {
    static uint64_t seat;
    uint8_t name[64];
    size_t length;
    reis_context_type type;
    reis_request request;
    if (reis_connection_client(connection, &type, name, sizeof name, &length) != REIS_OK)
        return;
    if (seat == 0) {
        printf("%.*s, a %s\n", (int)length, (const char *)name, type == REIS_CONTEXT_SENDER ? "sender" : "receiver");
        done("add_seat", reis_connection_add_seat(connection, "seat0", 5, given, &seat));
    }
    while (reis_connection_next_request(connection, &request) == REIS_OK)
        act(connection, &request, type == REIS_CONTEXT_SENDER);
}

static void play(struct peer *peer) {
    while (peer_waits(peer) || peer_end(peer) == REIS_END_GOES_ON) {
        bool waits = peer_waits(peer);
        struct pollfd polled = {.fd = peer->socket, .events = waits ? POLLOUT : POLLIN};
        if (poll(&polled, 1, -1) < 0 || !(waits ? peer_write(peer) : peer_read(peer, 0)))
            return;
        serve(&peer->connection);
    }
}

int main(int count, char **words) {
    struct peer peer;
    keymap_file = memfd_create("keymap", MFD_CLOEXEC);
    int listener = count == 2 && reis_version_matches() ? listen_on(words[1]) : -1;
    if (listener == -1 || write(keymap_file, keymap, sizeof keymap) != (ssize_t)sizeof keymap)
        return 1;
    struct pollfd polled = {.fd = listener, .events = POLLIN};
    int socket = poll(&polled, 1, -1) < 0 ? -1 : accept4(listener, NULL, NULL, SOCK_CLOEXEC);
    if (socket != -1 && peer_open(&peer, socket, 1, 0) == REIS_OK) {
        play(&peer);
        printf("end %s\n", reis_end_name(peer_end(&peer)));
        peer_close(&peer);
    }
    close(keymap_file);
    listen_no_more(listener, words[1]);
    return 0;
}
