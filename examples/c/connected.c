/* Tests of each call on a connection, without a socket: what a client is sent is compared byte by byte with what docs/PROTOCOL.md
 * says, and what the client sends is fed in odd cuts. REIS_STRICT makes no difference to these clients.
 *
 *     connected */
#include "ask.h"
#include "check.h"
#include "wire.h"

#include <stdio.h>
#include <string.h>

enum { SERIAL = 7, KEYMAP = 77, KEYMAP_SIZE = 4097 };

/* A connection, and what its client is to be sent next. */
struct played {
    reis_connection connection;
    size_t cut;
    uint32_t serial;
    struct stream wanted;
};

static struct played played;
static struct played other;
static uint32_t flags;

/* ---- what comes and goes ---- */

static void feed_all(struct played *it, const struct stream *stream) {
    for (size_t at = 0; at < stream->count; at += it->cut) {
        size_t left = stream->count - at;
        CHECK(reis_connection_feed(&it->connection, stream->bytes + at, left < it->cut ? left : it->cut, NULL, 0, 1000) == REIS_OK);
    }
}

/* The client asks this, and nothing else. */
static void asks(struct played *it, uint64_t object, uint32_t opcode, const char *kinds, uint64_t value) {
    static struct stream stream;
    stream.count = 0;
    if (*kinds == 'l')
        add(&stream, object, opcode, kinds, value);
    else
        add(&stream, object, opcode, kinds, (uint32_t)value);
    feed_all(it, &stream);
}

/* What waits is what is wanted, with these handles; it is sent a few bytes at a time. */
static void sends(struct played *it, uint32_t handle) {
    const uint8_t *bytes;
    const uint32_t *handles;
    size_t count, handle_count, at = 0;
    while (reis_connection_unsent(&it->connection, &bytes, &count, &handles, &handle_count) == REIS_OK && count > 0) {
        CHECK(count == it->wanted.count - at && memcmp(bytes, it->wanted.bytes + at, count) == 0);
        CHECK(handle_count == (handle != 0 && at == 0 ? 1u : 0u) && (handle_count == 0 || handles[0] == handle));
        size_t sent = count < it->cut ? count : it->cut;
        CHECK(reis_connection_sent(&it->connection, count + 1) == REIS_NOT_UNSENT);
        CHECK(reis_connection_sent(&it->connection, sent) == REIS_OK);
        at += sent;
    }
    CHECK(at == it->wanted.count && bytes == NULL && handles == NULL && handle_count == 0);
    it->wanted.count = 0;
}

static uint32_t next_serial(struct played *it) {
    return ++it->serial;
}

static reis_end ending(struct played *it) {
    reis_end end = REIS_END_ERROR_NO_MEMORY;
    CHECK(reis_connection_end(&it->connection, &end) == REIS_OK);
    return end;
}

static void starts(struct played *it, reis_context_type context_type, size_t cut) {
    static struct stream stream;
    uint8_t name[8];
    size_t length = 1;
    reis_context_type told = REIS_CONTEXT_SENDER;
    uint64_t seat = 1;
    reis_request request;
    memset(it, 0, sizeof *it);
    it->cut = cut;
    it->serial = SERIAL;
    CHECK(reis_connection_start(&it->connection, SERIAL, flags) == REIS_OK);
    CHECK(reis_connection_start(&it->connection, SERIAL, flags) == REIS_HAS_SESSION);
    CHECK(reis_connection_client(&it->connection, &told, name, sizeof name, &length) == REIS_NOTHING && told == 0 && length == 0);
    CHECK(reis_connection_add_seat(&it->connection, "x", 1, 1, &seat) == REIS_NOT_CONNECTED && seat == 0);
    CHECK(reis_connection_ping(&it->connection, &seat) == REIS_NOT_CONNECTED && seat == 0);
    CHECK(reis_connection_resume(&it->connection, FIRST_SEAT) == REIS_NOT_CONNECTED);
    CHECK(reis_connection_next_request(&it->connection, &request) == REIS_NOTHING);
    CHECK(reis_connection_disconnect(&it->connection, REIS_REASON_ERROR, NULL, 0) == REIS_NOT_CONNECTED);
    stream.count = 0;
    add_handshake(&stream, all_interfaces, context_type, "probe");
    feed_all(it, &stream);
    add_welcome(&it->wanted, all_interfaces, SERIAL);
    sends(it, 0);
    CHECK(reis_connection_client(&it->connection, &told, name, 4, &length) == REIS_NO_ROOM && told == context_type && length == 5);
    CHECK(reis_connection_client(&it->connection, &told, name, sizeof name, &length) == REIS_OK && memcmp(name, "probe", 5) == 0);
    CHECK(reis_connection_next_request(&it->connection, &request) == REIS_OK && request.kind == REIS_KIND_CONNECTED);
    CHECK(request.seat == 0 && request.device == 0 && request.time == 0 && request.fields[0] == 0);
    CHECK(reis_connection_next_request(&it->connection, &request) == REIS_NOTHING);
}

/* The client asks for no more, and the connection is freed. */
static void ends(struct played *it, reis_end end) {
    reis_request request;
    CHECK(reis_connection_next_request(&it->connection, &request) == REIS_NOTHING);
    CHECK(ending(it) == end);
    CHECK(reis_connection_free(&it->connection) == REIS_OK);
    CHECK(reis_connection_free(&it->connection) == REIS_NO_SESSION);
}

/* ---- seats and devices ---- */

static uint64_t adds_seat(struct played *it, uint64_t id, uint64_t capabilities) {
    uint64_t seat = 1;
    CHECK(reis_connection_add_seat(&it->connection, "s\xff", 2, capabilities, &seat) == REIS_INVALID && seat == 0);
    CHECK(reis_connection_add_seat(&it->connection, "s", 1, 256, &seat) == REIS_CAPABILITIES && seat == 0);
    CHECK(reis_connection_add_seat(&it->connection, NULL, 1, 1, &seat) == REIS_NULL);
    CHECK(reis_connection_add_seat(&it->connection, "default", 7, capabilities, &seat) == REIS_OK && seat == id);
    add(&it->wanted, CONNECTION, 1, "lw", seat, 2u);
    add(&it->wanted, seat, 1, "t", "default");
    static const char *const interfaces[] = {"ei_pointer", "ei_pointer_absolute", "ei_keyboard", "ei_touchscreen", "ei_scroll",
        "ei_button", "ei_text", "ei_x_gesture"};
    for (unsigned i = 0; i < 8; i++) {
        if ((capabilities >> i & 1) == 1)
            add(&it->wanted, seat, 2, "lt", (uint64_t)1 << i, interfaces[i]);
    }
    add(&it->wanted, seat, 3, "");
    sends(it, 0);
    return seat;
}

/* A device with an absolute pointer and a keyboard, in two regions of which the second has a mapping id. */
static const reis_region regions[2] = {{0, 0, 1920, 1080, 1.0f, 0, 0}, {1920, 0, 1280, 1024, 1.5f, 4, 5}};

static reis_device described(void) {
    reis_device it = {.size = sizeof it,
                      .name = "desk",
                      .name_length = 4,
                      .capabilities = REIS_CAPABILITY_POINTER_ABSOLUTE | REIS_CAPABILITY_KEYBOARD,
                      .type = REIS_DEVICE_VIRTUAL,
                      .width = 300,
                      .height = 200,
                      .keymap_type = REIS_KEYMAP_XKB,
                      .keymap = KEYMAP,
                      .keymap_size = KEYMAP_SIZE,
                      .regions = regions,
                      .region_count = 2,
                      .mapping_ids = "leftright",
                      .mapping_ids_length = 9};
    return it;
}

/* What isn't a device changes nothing and tells no id. */
static void refuses_device(struct played *it, uint64_t seat, const reis_device *device, reis_answer answer) {
    uint64_t id = 1;
    CHECK(reis_connection_add_device(&it->connection, seat, device, &id) == answer);
    CHECK(id == (answer == REIS_NULL ? 1u : 0u));
}

static void refuses_devices(struct played *it, uint64_t seat) {
    reis_device device = described();
    refuses_device(it, seat + 1000, &device, REIS_GONE);
    refuses_device(it, seat, NULL, REIS_NULL);
    device.size--;
    refuses_device(it, seat, &device, REIS_SIZE);
    device = described();
    device.name = "\xff\xff\xff\xff";
    refuses_device(it, seat, &device, REIS_INVALID);
    device = described();
    device.type = (reis_device_type)3;
    refuses_device(it, seat, &device, REIS_INVALID);
    device.type = (reis_device_type)0;
    refuses_device(it, seat, &device, REIS_INVALID);
    device = described();
    device.keymap_type = (reis_keymap_type)2;
    refuses_device(it, seat, &device, REIS_INVALID);
    device = described();
    device.mapping_ids_length = 8;
    refuses_device(it, seat, &device, REIS_INVALID);
    device = described();
    device.capabilities = 256;
    refuses_device(it, seat, &device, REIS_CAPABILITIES);
    device.capabilities = REIS_CAPABILITY_TOUCH;
    refuses_device(it, seat, &device, REIS_CAPABILITIES);
    device.capabilities = REIS_CAPABILITY_POINTER_ABSOLUTE;
    refuses_device(it, seat, &device, REIS_NO_KEYBOARD);
    device = described();
    device.regions = NULL;
    refuses_device(it, seat, &device, REIS_NULL);
}

static uint64_t adds_device(struct played *it, uint64_t seat, uint64_t id) {
    reis_device device = described();
    uint64_t told = 1;
    CHECK(reis_connection_add_device(&it->connection, seat, &device, &told) == REIS_OK && told == id);
    add(&it->wanted, seat, 4, "lw", id, 3u);
    add(&it->wanted, id, 1, "t", "desk");
    add(&it->wanted, id, 2, "w", 1u);
    add(&it->wanted, id, 5, "ltw", id + 1, "ei_pointer_absolute", 1u);
    add(&it->wanted, id, 5, "ltw", id + 2, "ei_keyboard", 1u);
    add(&it->wanted, id, 3, "ww", 300u, 200u);
    add(&it->wanted, id, 4, "wwwwf", 0u, 0u, 1920u, 1080u, 1.0);
    add(&it->wanted, id, 12, "t", "right");
    add(&it->wanted, id, 4, "wwwwf", 1920u, 0u, 1280u, 1024u, 1.5);
    add(&it->wanted, id + 2, 1, "ww", 1u, (uint32_t)KEYMAP_SIZE);
    add(&it->wanted, id, 6, "");
    sends(it, KEYMAP);
    return id;
}

/* What a device of that id is told, and that one of another id isn't there. */
static void tells_device(struct played *it, uint64_t id) {
    uint32_t has = 9;
    CHECK(reis_connection_resume(&it->connection, id) == REIS_OK);
    add(&it->wanted, id, 7, "w", next_serial(it));
    CHECK(reis_connection_pause(&it->connection, id) == REIS_OK);
    add(&it->wanted, id, 8, "w", next_serial(it));
    CHECK(reis_connection_modifiers(&it->connection, id, 1, 2, 4, 3) == REIS_OK);
    add(&it->wanted, id + 2, 3, "wwwww", next_serial(it), 1u, 2u, 4u, 3u);
    sends(it, 0);
    CHECK(reis_connection_device_has(&it->connection, id, REIS_CAPABILITY_KEYBOARD, &has) == REIS_OK && has == 1);
    CHECK(reis_connection_device_has(&it->connection, id, REIS_CAPABILITY_TOUCH, &has) == REIS_OK && has == 0);
    CHECK(reis_connection_device_has(&it->connection, id, 3, &has) == REIS_CAPABILITIES && has == 0);
    CHECK(reis_connection_device_has(&it->connection, id + 1, 1, &has) == REIS_GONE && has == 0);
    CHECK(reis_connection_resume(&it->connection, id + 1) == REIS_GONE);
    CHECK(reis_connection_pause(&it->connection, id + 1) == REIS_GONE);
    CHECK(reis_connection_modifiers(&it->connection, id + 1, 0, 0, 0, 0) == REIS_GONE);
    CHECK(reis_connection_remove_device(&it->connection, id + 1) == REIS_GONE);
    CHECK(reis_connection_remove_seat(&it->connection, id) == REIS_GONE);
}

/* ---- a sender ---- */

static void is_asked(struct played *it, reis_kind kind, uint64_t seat, uint64_t device, uint64_t first) {
    reis_request request;
    CHECK(reis_connection_next_request(&it->connection, &request) == REIS_OK);
    CHECK(request.kind == kind && request.seat == seat && request.device == device && request.fields[0] == first);
}

static void test_sender(size_t cut) {
    checking("sender", cut, 0);
    uint8_t text[4];
    size_t length = 9;
    starts(&played, REIS_CONTEXT_SENDER, cut);
    uint64_t seat = adds_seat(&played, FIRST_SEAT, REIS_ALL_CAPABILITIES - REIS_CAPABILITY_TOUCH);
    refuses_devices(&played, seat);
    asks(&played, seat, 1, "l", REIS_CAPABILITY_KEYBOARD);
    is_asked(&played, REIS_KIND_BIND, seat, 0, REIS_CAPABILITY_KEYBOARD);
    CHECK(reis_connection_request_text(&played.connection, text, sizeof text, &length) == REIS_NOTHING && length == 0);
    uint64_t device = adds_device(&played, seat, seat + 1);
    tells_device(&played, device);
    reis_request input = {.kind = REIS_KIND_KEY, .device = device, .key = {30, 1}};
    CHECK(reis_connection_start_emulating(&played.connection, device, 1) == REIS_WRONG_ROLE);
    CHECK(reis_connection_stop_emulating(&played.connection, device) == REIS_WRONG_ROLE);
    CHECK(reis_connection_frame(&played.connection, device, 5) == REIS_WRONG_ROLE);
    CHECK(reis_connection_send(&played.connection, &input, NULL, 0) == REIS_WRONG_ROLE);
    asks(&played, device + 2, 0, "", 0);
    uint32_t has = 9;
    CHECK(reis_connection_device_has(&played.connection, device, REIS_CAPABILITY_KEYBOARD, &has) == REIS_OK && has == 0);
    CHECK(reis_connection_modifiers(&played.connection, device, 0, 0, 0, 0) == REIS_CAPABILITIES);
    add(&played.wanted, device + 2, 0, "w", next_serial(&played));
    CHECK(reis_connection_remove_device(&played.connection, device) == REIS_OK);
    add(&played.wanted, device + 1, 0, "w", next_serial(&played));
    add(&played.wanted, device, 0, "w", next_serial(&played));
    CHECK(reis_connection_remove_seat(&played.connection, seat) == REIS_OK);
    add(&played.wanted, seat, 0, "w", next_serial(&played));
    sends(&played, 0);
    CHECK(reis_connection_remove_seat(&played.connection, seat) == REIS_GONE);
    asks(&played, CONNECTION, 1, "", 0);
    is_asked(&played, REIS_KIND_DISCONNECT, 0, 0, 0);
    CHECK(reis_connection_resume(&played.connection, device) == REIS_OVER);
    CHECK(reis_connection_end_of_input(&played.connection) == REIS_OVER);
    CHECK(reis_connection_feed(&played.connection, text, 1, NULL, 0, 0) == REIS_OVER);
    ends(&played, REIS_END_DISCONNECTED);
}

/* ---- pings, and seats that a client releases ---- */

static uint64_t pings(struct played *it, uint64_t id) {
    uint64_t ping = 1;
    CHECK(reis_connection_ping(&it->connection, NULL) == REIS_NULL);
    CHECK(reis_connection_ping(&it->connection, &ping) == REIS_OK && ping == id);
    add(&it->wanted, CONNECTION, 3, "lw", ping, 1u);
    sends(it, 0);
    return ping;
}

/* The client's message goes to no object, of which it is told. */
static void goes_nowhere(struct played *it, uint64_t object, uint32_t opcode, const char *kinds, uint64_t value) {
    asks(it, object, opcode, kinds, value);
    add(&it->wanted, CONNECTION, 2, "wl", it->serial, object);
    sends(it, 0);
}

static void is_answered(struct played *it, uint64_t ping, uint64_t data) {
    reis_request request;
    CHECK(reis_connection_next_request(&it->connection, &request) == REIS_OK && request.kind == REIS_KIND_PONG);
    CHECK(request.pong.ping == ping && request.pong.callback_data == data);
    CHECK(request.seat == 0 && request.device == 0 && request.time == 0 && request.fields[2] == 0 && request.fields[3] == 0);
}

static void test_notices(size_t cut) {
    checking("notices", cut, 0);
    reis_request request;
    starts(&played, REIS_CONTEXT_SENDER, cut);
    uint64_t first = pings(&played, FIRST_SEAT);
    uint64_t second = pings(&played, FIRST_SEAT + 1);
    asks(&played, second, 0, "l", 5);
    asks(&played, first, 0, "l", 0x1122334455667788u);
    sends(&played, 0);
    is_answered(&played, second, 5);
    is_answered(&played, first, 0x1122334455667788u);
    goes_nowhere(&played, first, 0, "l", 0);
    CHECK(reis_connection_next_request(&played.connection, &request) == REIS_NOTHING);
    /* A seat's release and a pong come behind the requests, and in their order. */
    uint64_t seat = adds_seat(&played, FIRST_SEAT + 2, REIS_CAPABILITY_KEYBOARD);
    uint64_t third = pings(&played, seat + 1);
    asks(&played, third, 0, "l", 6);
    asks(&played, seat, 1, "l", REIS_CAPABILITY_KEYBOARD);
    asks(&played, seat, 0, "", 0);
    add(&played.wanted, seat, 0, "w", next_serial(&played));
    sends(&played, 0);
    is_asked(&played, REIS_KIND_BIND, seat, 0, REIS_CAPABILITY_KEYBOARD);
    is_answered(&played, third, 6);
    is_asked(&played, REIS_KIND_SEAT_RELEASED, seat, 0, 0);
    goes_nowhere(&played, seat, 0, "", 0);
    CHECK(reis_connection_remove_seat(&played.connection, seat) == REIS_OK);
    sends(&played, 0);
    uint64_t last = pings(&played, third + 1);
    asks(&played, last, 0, "l", UINT64_MAX);
    asks(&played, CONNECTION, 1, "", 0);
    is_asked(&played, REIS_KIND_DISCONNECT, 0, 0, 0);
    is_answered(&played, last, UINT64_MAX);
    CHECK(reis_connection_ping(&played.connection, &last) == REIS_OVER && last == 0);
    ends(&played, REIS_END_DISCONNECTED);
}

/* ---- a receiver ---- */

/* All inputs, and what the client is told of each: the place of its interface behind the device, and its opcode. */
static void tells_inputs(struct played *it, uint64_t device) {
    const reis_request told[] = {{.kind = REIS_KIND_POINTER_MOTION, .pointer_motion = {1.5f, -2}},
        {.kind = REIS_KIND_POINTER_MOTION_ABSOLUTE, .pointer_motion_absolute = {3, 4}},
        {.kind = REIS_KIND_KEY, .key = {30, 1}}, {.kind = REIS_KIND_TOUCH_DOWN, .touch_down = {5, 6, 7}},
        {.kind = REIS_KIND_TOUCH_MOTION, .touch_motion = {5, 8, 9}}, {.kind = REIS_KIND_TOUCH_UP, .touch_up = {5}},
        {.kind = REIS_KIND_TOUCH_CANCEL, .touch_cancel = {6}}, {.kind = REIS_KIND_SCROLL_DELTA, .scroll_delta = {10, 11}},
        {.kind = REIS_KIND_SCROLL_DISCRETE, .scroll_discrete = {-120, 240}}, {.kind = REIS_KIND_SCROLL_STOP, .scroll_stop = {1, 0}},
        {.kind = REIS_KIND_SCROLL_CANCEL, .scroll_cancel = {0, 1}}, {.kind = REIS_KIND_BUTTON, .button = {272, 0}},
        {.kind = REIS_KIND_TEXT_KEYSYM, .text_keysym = {97, 1}}, {.kind = REIS_KIND_TEXT_UTF8},
        {.kind = REIS_KIND_GESTURE_SWIPE, .gesture_swipe = {3, 12, 13}}, {.kind = REIS_KIND_GESTURE_PINCH, .gesture_pinch = {2}}};
    for (size_t i = 0; i < sizeof told / sizeof told[0]; i++) {
        reis_request input = told[i];
        input.device = device;
        CHECK(reis_connection_send(&it->connection, &input, "h\xc3\xa9", 3) == REIS_OK);
        input.device = device + 1;
        CHECK(reis_connection_send(&it->connection, &input, "h\xc3\xa9", 3) == REIS_GONE);
    }
    add(&it->wanted, device + 1, 1, "ff", 1.5, -2.0);
    add(&it->wanted, device + 2, 1, "ff", 3.0, 4.0);
    add(&it->wanted, device + 3, 2, "ww", 30u, 1u);
    add(&it->wanted, device + 4, 1, "wff", 5u, 6.0, 7.0);
    add(&it->wanted, device + 4, 2, "wff", 5u, 8.0, 9.0);
    add(&it->wanted, device + 4, 3, "w", 5u);
    add(&it->wanted, device + 4, 4, "w", 6u);
    add(&it->wanted, device + 5, 1, "ff", 10.0, 11.0);
    add(&it->wanted, device + 5, 2, "ww", (uint32_t)-120, 240u);
    add(&it->wanted, device + 5, 3, "www", 1u, 0u, 0u);
    add(&it->wanted, device + 5, 3, "www", 0u, 1u, 1u);
    add(&it->wanted, device + 6, 1, "ww", 272u, 0u);
    add(&it->wanted, device + 7, 1, "ww", 97u, 1u);
    add(&it->wanted, device + 7, 2, "t", "h\xc3\xa9");
    add(&it->wanted, device + 8, 1, "wff", 3u, 12.0, 13.0);
    add(&it->wanted, device + 8, 2, "f", 2.0);
    sends(it, 0);
}

static void refuses_inputs(struct played *it, uint64_t device) {
    for (uint32_t kind = 0; kind < REIS_KIND_POINTER_MOTION; kind++) {
        reis_request input = {.kind = (reis_kind)kind, .device = device};
        CHECK(reis_connection_send(&it->connection, &input, NULL, 0) == REIS_INVALID);
    }
    for (uint32_t kind = REIS_KIND_GESTURE_PINCH + 1; kind < 30; kind++) {
        reis_request input = {.kind = (reis_kind)kind, .device = device};
        CHECK(reis_connection_send(&it->connection, &input, NULL, 0) == REIS_INVALID);
    }
    reis_request input = {.kind = REIS_KIND_TEXT_UTF8, .device = device};
    CHECK(reis_connection_send(&it->connection, &input, "\xff", 1) == REIS_INVALID);
    CHECK(reis_connection_send(&it->connection, &input, NULL, 1) == REIS_NULL);
    input.fields[1] = 2;
    static const uint32_t with_state[] = {REIS_KIND_BUTTON, REIS_KIND_KEY, REIS_KIND_TEXT_KEYSYM, REIS_KIND_SCROLL_STOP,
        REIS_KIND_SCROLL_CANCEL};
    for (size_t i = 0; i < sizeof with_state / sizeof with_state[0]; i++) {
        input.kind = (reis_kind)with_state[i];
        CHECK(reis_connection_send(&it->connection, &input, NULL, 0) == REIS_INVALID);
    }
    /* What stands beside a member of a view isn't read. */
    input.fields[0] = 272 | 0xabcd00000000u;
    input.fields[1] = 1 | 0xabcd00000000u;
    input.kind = REIS_KIND_BUTTON;
    CHECK(reis_connection_send(&it->connection, &input, NULL, 0) == REIS_OK);
    add(&it->wanted, device + 6, 1, "ww", 272u, 1u);
    sends(it, 0);
}

static void test_receiver(size_t cut) {
    checking("receiver", cut, 0);
    starts(&played, REIS_CONTEXT_RECEIVER, cut);
    starts(&other, REIS_CONTEXT_RECEIVER, cut);
    uint64_t seat = adds_seat(&played, FIRST_SEAT, REIS_ALL_CAPABILITIES);
    reis_device all = {.size = sizeof all, .capabilities = REIS_ALL_CAPABILITIES, .type = REIS_DEVICE_PHYSICAL};
    uint64_t device = 0;
    CHECK(reis_connection_add_device(&played.connection, seat, &all, &device) == REIS_OK && device == seat + 1);
    CHECK(reis_connection_resume(&other.connection, device) == REIS_GONE);
    CHECK(reis_connection_remove_seat(&other.connection, seat) == REIS_GONE);
    static struct stream skipped;
    const uint8_t *bytes;
    const uint32_t *handles;
    size_t count, handle_count;
    CHECK(reis_connection_unsent(&played.connection, &bytes, &count, &handles, &handle_count) == REIS_OK && handle_count == 0);
    add(&skipped, seat, 4, "lw", device, 3u);
    add(&skipped, device, 2, "w", 2u);
    CHECK(count > skipped.count && memcmp(bytes, skipped.bytes, skipped.count) == 0);
    skipped.count = 0;
    CHECK(reis_connection_sent(&played.connection, count) == REIS_OK);
    CHECK(reis_connection_start_emulating(&played.connection, device, 3) == REIS_OK);
    add(&played.wanted, device, 9, "ww", next_serial(&played), 3u);
    sends(&played, 0);
    tells_inputs(&played, device);
    refuses_inputs(&played, device);
    CHECK(reis_connection_frame(&played.connection, device, 123456789012345) == REIS_OK);
    add(&played.wanted, device, 11, "wl", next_serial(&played), (uint64_t)123456789012345);
    CHECK(reis_connection_stop_emulating(&played.connection, device) == REIS_OK);
    add(&played.wanted, device, 10, "w", next_serial(&played));
    sends(&played, 0);
    CHECK(reis_connection_disconnect(&played.connection, REIS_REASON_MODE, "\xff", 1) == REIS_INVALID);
    CHECK(reis_connection_disconnect(&played.connection, REIS_REASON_MODE, "bye", 3) == REIS_OK);
    for (uint64_t id = device + 1; id <= device + 8; id++)
        add(&played.wanted, id, 0, "w", next_serial(&played));
    add(&played.wanted, device, 0, "w", next_serial(&played));
    add(&played.wanted, seat, 0, "w", next_serial(&played));
    add(&played.wanted, CONNECTION, 0, "wwt", played.serial, 2u, "bye");
    sends(&played, 0);
    CHECK(reis_connection_disconnect(&played.connection, REIS_REASON_MODE, NULL, 0) == REIS_OVER);
    ends(&played, REIS_END_TOLD);
    CHECK(reis_connection_end_of_input(&other.connection) == REIS_OK);
    ends(&other, REIS_END_END_OF_INPUT);
}

/* ---- no connection ---- */

static void test_none(void) {
    reis_connection none = {0};
    const uint8_t *bytes = (const uint8_t *)"";
    const uint32_t *handles;
    reis_end end = REIS_END_TOLD;
    reis_request request = {.kind = REIS_KIND_KEY};
    reis_device device = described();
    uint64_t id = 1;
    uint32_t has = 1;
    size_t count = 1, handle_count = 1;
    checking("none", 0, 0);
    CHECK(reis_connection_feed(&none, bytes, 1, NULL, 0, 0) == REIS_NO_SESSION);
    CHECK(reis_connection_unsent(&none, &bytes, &count, &handles, &handle_count) == REIS_NO_SESSION && count == 0 && bytes == NULL);
    CHECK(reis_connection_sent(&none, 0) == REIS_NO_SESSION);
    CHECK(reis_connection_end(&none, &end) == REIS_NO_SESSION && end == REIS_END_GOES_ON);
    CHECK(reis_connection_next_request(&none, &request) == REIS_NO_SESSION);
    CHECK(reis_connection_ping(&none, &id) == REIS_NO_SESSION && id == 0);
    id = 1;
    CHECK(reis_connection_add_device(&none, 1, &device, &id) == REIS_NO_SESSION && id == 0);
    CHECK(reis_connection_device_has(&none, 1, 1, &has) == REIS_NO_SESSION && has == 0);
    CHECK(reis_connection_send(&none, &request, NULL, 0) == REIS_NO_SESSION);
    CHECK(reis_connection_frame(&none, 1, 1) == REIS_NO_SESSION);
    CHECK(reis_connection_start(NULL, 1, 0) == REIS_NULL && reis_connection_frame(NULL, 1, 1) == REIS_NULL);
    CHECK(reis_connection_send(&none, NULL, NULL, 0) == REIS_NULL && reis_connection_free(NULL) == REIS_NULL);
}

int main(void) {
    static const size_t cuts[] = {1, 3, 16, 31, 113, MOST_STREAM};
    static const size_t count = sizeof cuts / sizeof cuts[0];
    test_none();
    for (size_t i = 0; i < 2 * count; i++) {
        flags = i < count ? 0 : REIS_STRICT;
        test_sender(cuts[i % count]);
        test_notices(cuts[i % count]);
        test_receiver(cuts[i % count]);
    }
    return checked("connected");
}
