/* Tests of a connection that wants memory, over a heap that checks each call: each block that a call asks for is refused in turn.
 * Then the call answers that, nothing changed, and made again it does what it does. What the client is told is compared byte by
 * byte with what docs/PROTOCOL.md says, with REIS_STRICT and without. A thousand connections leave nothing, and take no more than the
 * first.
 *
 *     scarce */
#include "blocks.h"
#include "check.h"
#include "reis.h"
#include "wire.h"

#include <string.h>

enum { SERIAL = 7, MANY = 1000, KEYMAP = 77, KEYMAP_SIZE = 4097, MOST_FILLS = 160, FIRST_DEVICE = 1, CAPABILITIES = 8 };

/* A connection, and all that its client is told, none of which is written. */
struct told {
    reis_connection connection;
    struct stream wanted;
    uint32_t serial;
    uint64_t next_id;
    size_t handles;
};

static struct told told;
static uint32_t flags;
static const uint64_t seat = FIRST_SEAT, device = FIRST_SEAT + FIRST_DEVICE;

static uint32_t next_serial(struct told *it) {
    return ++it->serial;
}

/* What waits is what is wanted, and the connection goes on unless it was told of its end. */
static void check_told(struct told *it, reis_end wanted) {
    const uint8_t *bytes;
    const uint32_t *handles;
    size_t count, handle_count;
    reis_end end = REIS_END_ERROR_NO_MEMORY;
    CHECK(reis_connection_unsent(&it->connection, &bytes, &count, &handles, &handle_count) == REIS_OK);
    CHECK(count == it->wanted.count && memcmp(bytes, it->wanted.bytes, count) == 0);
    CHECK(handle_count == it->handles);
    for (size_t i = 0; i < handle_count; i++)
        CHECK(handles[i] == KEYMAP + i);
    CHECK(reis_connection_end(&it->connection, &end) == REIS_OK && end == wanted);
}

/* ---- calls that tell a client something: where one does, what the client is told is wanted too ---- */

static const char *const interfaces[CAPABILITIES] = {"ei_pointer", "ei_pointer_absolute", "ei_keyboard", "ei_touchscreen",
    "ei_scroll", "ei_button", "ei_text", "ei_x_gesture"};

static reis_answer add_seat(struct told *it) {
    uint64_t id = 1;
    reis_answer answer = reis_connection_add_seat(&it->connection, "default", 7, REIS_ALL_CAPABILITIES, &id);
    CHECK(id == (answer == REIS_OK ? it->next_id : 0));
    if (answer != REIS_OK)
        return answer;
    add(&it->wanted, CONNECTION, 1, "lw", id, 2u);
    add(&it->wanted, id, 1, "t", "default");
    for (unsigned i = 0; i < CAPABILITIES; i++)
        add(&it->wanted, id, 2, "lt", (uint64_t)1 << i, interfaces[i]);
    add(&it->wanted, id, 3, "");
    it->next_id++;
    return answer;
}

static reis_answer ping(struct told *it) {
    uint64_t id = 1;
    reis_answer answer = reis_connection_ping(&it->connection, &id);
    CHECK(id == (answer == REIS_OK ? it->next_id : 0));
    if (answer != REIS_OK)
        return answer;
    add(&it->wanted, CONNECTION, 3, "lw", id, 1u);
    it->next_id++;
    return answer;
}

static reis_answer add_device(struct told *it) {
    static const reis_region region = {1, 2, 3, 4, 0.5f, 0, 4};
    uint64_t id = 1;
    reis_device described = {.size = sizeof described, .name = "desk", .name_length = 4, .capabilities = REIS_ALL_CAPABILITIES,
        .type = REIS_DEVICE_VIRTUAL, .keymap_type = REIS_KEYMAP_XKB, .keymap = KEYMAP + (uint32_t)it->handles,
        .keymap_size = KEYMAP_SIZE, .regions = &region, .region_count = 1, .mapping_ids = "left", .mapping_ids_length = 4};
    reis_answer answer = reis_connection_add_device(&it->connection, seat, &described, &id);
    CHECK(id == (answer == REIS_OK ? it->next_id : 0));
    if (answer != REIS_OK)
        return answer;
    add(&it->wanted, seat, 4, "lw", id, 3u);
    add(&it->wanted, id, 1, "t", "desk");
    add(&it->wanted, id, 2, "w", 1u);
    for (unsigned i = 0; i < CAPABILITIES; i++)
        add(&it->wanted, id, 5, "ltw", id + 1 + i, interfaces[i], version_of(interfaces[i]));
    add(&it->wanted, id, 12, "t", "left");
    add(&it->wanted, id, 4, "wwwwf", 1u, 2u, 3u, 4u, 0.5);
    add(&it->wanted, id + 3, 1, "ww", 1u, (uint32_t)KEYMAP_SIZE);
    add(&it->wanted, id, 6, "");
    it->next_id += 1 + CAPABILITIES;
    it->handles++;
    return answer;
}

/* The device and its interfaces are taken away. */
static void want_no_device(struct told *it) {
    for (uint64_t id = device + 1; id <= device + CAPABILITIES; id++)
        add(&it->wanted, id, 0, "w", next_serial(it));
    add(&it->wanted, device, 0, "w", next_serial(it));
}

static reis_answer remove_device(struct told *it) {
    reis_answer answer = reis_connection_remove_device(&it->connection, device);
    if (answer == REIS_OK)
        want_no_device(it);
    return answer;
}

static reis_answer remove_seat(struct told *it) {
    reis_answer answer = reis_connection_remove_seat(&it->connection, seat);
    if (answer == REIS_OK) {
        want_no_device(it);
        add(&it->wanted, seat, 0, "w", next_serial(it));
    }
    return answer;
}

static reis_answer disconnect(struct told *it) {
    reis_answer answer = reis_connection_disconnect(&it->connection, REIS_REASON_MODE, "bye", 3);
    if (answer == REIS_OK) {
        want_no_device(it);
        add(&it->wanted, seat, 0, "w", next_serial(it));
        add(&it->wanted, CONNECTION, 0, "wwt", it->serial, 2u, "bye");
    }
    return answer;
}

static reis_answer resume(struct told *it) {
    reis_answer answer = reis_connection_resume(&it->connection, device);
    if (answer == REIS_OK)
        add(&it->wanted, device, 7, "w", next_serial(it));
    return answer;
}

/* Named apart from the function of unistd.h. */
static reis_answer pause_device(struct told *it) {
    reis_answer answer = reis_connection_pause(&it->connection, device);
    if (answer == REIS_OK)
        add(&it->wanted, device, 8, "w", next_serial(it));
    return answer;
}

static reis_answer modifiers(struct told *it) {
    reis_answer answer = reis_connection_modifiers(&it->connection, device, 1, 2, 4, 3);
    if (answer == REIS_OK)
        add(&it->wanted, device + 3, 3, "wwwww", next_serial(it), 1u, 2u, 4u, 3u);
    return answer;
}

static reis_answer start_emulating(struct told *it) {
    reis_answer answer = reis_connection_start_emulating(&it->connection, device, 41);
    if (answer == REIS_OK)
        add(&it->wanted, device, 9, "ww", next_serial(it), 41u);
    return answer;
}

static reis_answer stop_emulating(struct told *it) {
    reis_answer answer = reis_connection_stop_emulating(&it->connection, device);
    if (answer == REIS_OK)
        add(&it->wanted, device, 10, "w", next_serial(it));
    return answer;
}

static reis_answer frame(struct told *it) {
    reis_answer answer = reis_connection_frame(&it->connection, device, 123456789012345);
    if (answer == REIS_OK)
        add(&it->wanted, device, 11, "wl", next_serial(it), (uint64_t)123456789012345);
    return answer;
}

static reis_answer send_motion(struct told *it) {
    reis_request input = {.kind = REIS_KIND_POINTER_MOTION, .device = device, .pointer_motion = {1.5f, -2}};
    reis_answer answer = reis_connection_send(&it->connection, &input, NULL, 0);
    if (answer == REIS_OK)
        add(&it->wanted, device + 1, 1, "ff", 1.5, -2.0);
    return answer;
}

static reis_answer send_text(struct told *it) {
    static const char text[] = "a text of some length, with an accent: caf\xc3\xa9";
    reis_request input = {.kind = REIS_KIND_TEXT_UTF8, .device = device};
    reis_answer answer = reis_connection_send(&it->connection, &input, text, sizeof text - 1);
    if (answer == REIS_OK)
        add(&it->wanted, device + 7, 2, "t", text);
    return answer;
}

/* ---- each block refused ---- */

/* A receiver that has heard of a seat and a device. */
static void begin(struct told *it) {
    static struct stream hello;
    hello.count = 0;
    memset(it, 0, sizeof *it);
    it->serial = SERIAL;
    it->next_id = FIRST_SEAT;
    blocks_refuse(0);
    add_handshake(&hello, all_interfaces, REIS_CONTEXT_RECEIVER, "probe");
    CHECK(reis_connection_start(&it->connection, SERIAL, flags) == REIS_OK);
    CHECK(reis_connection_feed(&it->connection, hello.bytes, hello.count, NULL, 0, 0) == REIS_OK);
    reis_request request;
    CHECK(reis_connection_next_request(&it->connection, &request) == REIS_OK && request.kind == REIS_KIND_CONNECTED);
    add_welcome(&it->wanted, all_interfaces, SERIAL);
    CHECK(add_seat(it) == REIS_OK && add_device(it) == REIS_OK);
    check_told(it, REIS_END_GOES_ON);
}

static void end(struct told *it) {
    CHECK(reis_connection_free(&it->connection) == REIS_OK);
    CHECK(blocks_here() == 0 && blocks_wrong() == 0);
}

/* A call, and one that is made before it up to so many times, until it needs more memory. */
struct call {
    const char *name;
    reis_answer (*make)(struct told *it);
    reis_answer (*fill)(struct told *it);
    size_t most_fills;
    reis_end ends;
};

static const struct call calls[] = {
    {"ping", ping, ping, MOST_FILLS, REIS_END_GOES_ON},
    {"add_seat", add_seat, add_seat, 40, REIS_END_GOES_ON},
    {"add_device", add_device, add_device, 40, REIS_END_GOES_ON},
    {"remove_device", remove_device, resume, MOST_FILLS, REIS_END_GOES_ON},
    {"remove_seat", remove_seat, resume, MOST_FILLS, REIS_END_GOES_ON},
    {"disconnect", disconnect, resume, MOST_FILLS, REIS_END_TOLD},
    {"resume", resume, resume, MOST_FILLS, REIS_END_GOES_ON},
    {"pause", pause_device, resume, MOST_FILLS, REIS_END_GOES_ON},
    {"modifiers", modifiers, resume, MOST_FILLS, REIS_END_GOES_ON},
    {"start_emulating", start_emulating, resume, MOST_FILLS, REIS_END_GOES_ON},
    {"stop_emulating", stop_emulating, resume, MOST_FILLS, REIS_END_GOES_ON},
    {"frame", frame, resume, MOST_FILLS, REIS_END_GOES_ON},
    {"send", send_motion, resume, MOST_FILLS, REIS_END_GOES_ON},
    {"send a text", send_text, resume, MOST_FILLS, REIS_END_GOES_ON},
};

/* One run with the block of that number refused, where so many are asked for. Whether they were. */
static bool run(const struct call *call, size_t fills, size_t number) {
    checking(call->name, fills, number);
    begin(&told);
    for (size_t i = 0; i < fills; i++)
        CHECK(call->fill(&told) == REIS_OK);
    blocks_refuse(number);
    reis_answer answer = call->make(&told);
    bool refused = blocks_asked() >= number;
    blocks_refuse(0);
    CHECK(answer == (refused ? REIS_NO_MEMORY : REIS_OK));
    if (refused) {
        check_told(&told, REIS_END_GOES_ON);
        CHECK(call->make(&told) == REIS_OK);
    }
    check_told(&told, call->ends);
    if (call->ends == REIS_END_GOES_ON)
        CHECK(add_seat(&told) == REIS_OK);
    check_told(&told, call->ends);
    end(&told);
    return refused;
}

static void test_call(const struct call *call) {
    size_t refused = 0;
    for (size_t fills = 0; fills < call->most_fills; fills++) {
        for (size_t number = 1; run(call, fills, number); number++)
            refused++;
    }
    checking(call->name, refused, 0);
    CHECK(refused > 0);
}

/* ---- the start, and what a client sends ---- */

static void test_start(void) {
    reis_connection connection = {0};
    size_t number = 1;
    for (blocks_refuse(number); reis_connection_start(&connection, SERIAL, 0) == REIS_NO_MEMORY; blocks_refuse(++number)) {
        checking("start", number, 0);
        CHECK(blocks_asked() == number && connection.at == NULL && blocks_here() == 0);
    }
    blocks_refuse(0);
    CHECK(number > 1 && reis_connection_start(&connection, SERIAL, 0) == REIS_HAS_SESSION);
    CHECK(reis_connection_free(&connection) == REIS_OK && blocks_here() == 0 && blocks_wrong() == 0);
}

/* Feeds it in pieces. What waits behind it is a front of what is wanted, and all of it where memory didn't run out. */
static void feed_all(struct told *it, const struct stream *stream, bool *ran_out) {
    const uint8_t *bytes;
    const uint32_t *handles;
    size_t count, handle_count;
    reis_end end = REIS_END_TOLD;
    reis_answer answer = REIS_OK;
    for (size_t at = 0; at < stream->count && answer == REIS_OK; at += 50) {
        size_t left = stream->count - at;
        answer = reis_connection_feed(&it->connection, stream->bytes + at, left < 50 ? left : 50, NULL, 0, 1000);
    }
    CHECK(reis_connection_end(&it->connection, &end) == REIS_OK);
    *ran_out = end == REIS_END_ERROR_NO_MEMORY;
    CHECK(*ran_out || (answer == REIS_OK && end == REIS_END_GOES_ON));
    CHECK(reis_connection_unsent(&it->connection, &bytes, &count, &handles, &handle_count) == REIS_OK);
    CHECK(count <= it->wanted.count && (*ran_out || count == it->wanted.count) && memcmp(bytes, it->wanted.bytes, count) == 0);
}

/* A connection that wanted memory is over; it can be told so where its handshake was done. */
static void check_over(struct told *it, bool shaken) {
    uint64_t id = 1;
    CHECK(reis_connection_feed(&it->connection, it->wanted.bytes, 1, NULL, 0, 0) == REIS_OVER);
    CHECK(reis_connection_add_seat(&it->connection, NULL, 0, 0, &id) == REIS_OVER && id == 0);
    reis_answer answer = reis_connection_disconnect(&it->connection, REIS_REASON_ERROR, NULL, 0);
    CHECK(answer == (shaken ? REIS_OK : REIS_NOT_CONNECTED));
}

/* The handshake, with each block refused. */
static void test_handshake(void) {
    static struct stream hello;
    bool ran_out = true;
    hello.count = 0;
    add_handshake(&hello, all_interfaces, REIS_CONTEXT_SENDER, "probe");
    for (size_t number = 1; ran_out; number++) {
        checking("handshake", number, 0);
        memset(&told, 0, sizeof told);
        add_welcome(&told.wanted, all_interfaces, SERIAL);
        CHECK(reis_connection_start(&told.connection, SERIAL, 0) == REIS_OK);
        blocks_refuse(number);
        feed_all(&told, &hello, &ran_out);
        CHECK(ran_out == (blocks_asked() >= number));
        blocks_refuse(0);
        if (ran_out)
            check_over(&told, false);
        end(&told);
    }
}

/* What a client of the device asks: a bind, inputs in a frame, and to be rid of the keyboard. The texts make the blocks. */
static void add_requests(struct stream *stream) {
    stream->count = 0;
    add(stream, seat, 1, "l", (uint64_t)5);
    add(stream, device, 1, "ww", 7u, 1u);
    for (unsigned i = 0; i < 20; i++) {
        add(stream, device + 1, 1, "ff", 1.0, -1.0);
        add(stream, device + 7, 2, "t", "h\xc3\xa9");
    }
    add(stream, device, 3, "wl", 7u, (uint64_t)1000);
    add(stream, device + 3, 0, "");
    add(stream, seat, 0, "");
    add(stream, CONNECTION, 0, "lw", (uint64_t)1, 1u);
}

static void test_requests(void) {
    static struct stream asked;
    bool ran_out = true;
    size_t number = 1;
    reis_request request;
    add_requests(&asked);
    for (; ran_out; number++) {
        size_t requests = 0;
        checking("requests", number, 0);
        begin(&told);
        add(&told.wanted, device + 3, 0, "w", next_serial(&told));
        add(&told.wanted, seat, 0, "w", next_serial(&told));
        add(&told.wanted, 1, 0, "l", (uint64_t)0);
        blocks_refuse(number);
        feed_all(&told, &asked, &ran_out);
        CHECK(ran_out == (blocks_asked() >= number));
        blocks_refuse(0);
        while (reis_connection_next_request(&told.connection, &request) == REIS_OK)
            requests++;
        CHECK(ran_out ? requests < 44 : requests == 44);
        if (ran_out)
            check_over(&told, true);
        end(&told);
    }
    CHECK(number > 10);
}

/* ---- calls that take no memory ---- */

/* Where no block is to be had they do what they do. */
static void test_others(void) {
    static struct stream asked;
    const uint8_t *bytes;
    const uint32_t *handles;
    size_t count, handle_count, requests = 0, length = 0;
    uint32_t has = 0;
    uint8_t text[8];
    reis_context_type type = REIS_CONTEXT_SENDER;
    reis_request request;
    checking("others", 0, 0);
    begin(&told);
    add_requests(&asked);
    CHECK(reis_connection_feed(&told.connection, asked.bytes, asked.count, NULL, 0, 1000) == REIS_OK);
    blocks_refuse(1);
    while (reis_connection_next_request(&told.connection, &request) == REIS_OK) {
        requests++;
        reis_answer answer = reis_connection_request_text(&told.connection, text, sizeof text, &length);
        CHECK(answer == (request.kind == REIS_KIND_TEXT_UTF8 ? REIS_OK : REIS_NOTHING));
    }
    CHECK(requests == 44);
    CHECK(reis_connection_client(&told.connection, &type, text, sizeof text, &length) == REIS_OK && length == 5);
    CHECK(reis_connection_device_has(&told.connection, device, REIS_CAPABILITY_TOUCH, &has) == REIS_OK && has == 1);
    while (reis_connection_unsent(&told.connection, &bytes, &count, &handles, &handle_count) == REIS_OK && count > 0)
        CHECK(reis_connection_sent(&told.connection, count < 100 ? count : 100) == REIS_OK);
    CHECK(reis_connection_end_of_input(&told.connection) == REIS_OK);
    CHECK(blocks_asked() == 0);
    blocks_refuse(0);
    end(&told);
}

/* ---- a thousand connections ---- */

/* All that a connection does, with what waits taken behind each call. */
static void use(void) {
    static struct stream asked;
    reis_request request;
    begin(&told);
    for (size_t i = 0; i < sizeof calls / sizeof calls[0]; i++) {
        if (calls[i].make != remove_device && calls[i].make != remove_seat && calls[i].make != disconnect)
            CHECK(calls[i].make(&told) == REIS_OK);
    }
    check_told(&told, REIS_END_GOES_ON);
    CHECK(reis_connection_sent(&told.connection, told.wanted.count) == REIS_OK);
    add_requests(&asked);
    CHECK(reis_connection_feed(&told.connection, asked.bytes, asked.count, NULL, 0, 1000) == REIS_OK);
    while (reis_connection_next_request(&told.connection, &request) == REIS_OK)
        continue;
    CHECK(reis_connection_disconnect(&told.connection, REIS_REASON_DISCONNECTED, NULL, 0) == REIS_OK);
    end(&told);
}

static void test_many(void) {
    checking("many", 0, 0);
    use();
    size_t asked = blocks_asked(), peak = blocks_peak();
    for (size_t i = 1; i < MANY; i++) {
        checking("many", i, 0);
        use();
        CHECK(blocks_asked() == asked && blocks_peak() == peak);
    }
}

int main(void) {
    test_start();
    test_handshake();
    test_requests();
    test_others();
    test_many();
    for (size_t i = 0; i < sizeof calls / sizeof calls[0]; i++) {
        flags = 0;
        test_call(&calls[i]);
        flags = REIS_STRICT;
        test_call(&calls[i]);
    }
    return checked("scarce");
}
