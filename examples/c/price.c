/* What a connection costs through the border: `sends` is a client that sends so many groups of inputs, each of a motion, a key and
 * a frame, in pieces of 4096 bytes, whose requests are handed out; `tells` is one that receives, and is told of as many. valgrind
 * counts the instructions of `serve_all` and of `tell_all`:
 *
 *     valgrind --tool=callgrind --toggle-collect=serve_all c-price sends GROUPS
 *     valgrind --tool=callgrind --toggle-collect=tell_all c-price tells GROUPS
 *
 * bench/border does that. */
#include "reis.h"
#include "wire.h"

#include <stdio.h>
#include <stdlib.h>
#include <string.h>

enum { PIECE = 4096, MOST_GROUPS = 100000, A_FLUSH = 100 };

/* The one device of the one seat, and its interfaces of a pointer and a keyboard. */
static const uint64_t device = FIRST_SEAT + 1, pointer = FIRST_SEAT + 2, keyboard = FIRST_SEAT + 3;
static const uint64_t capabilities = REIS_CAPABILITY_POINTER | REIS_CAPABILITY_KEYBOARD;

static reis_connection connection;
static struct stream hello, group;
static uint8_t *bytes;
static size_t count;

static void fail(const char *what) {
    fprintf(stderr, "price: %s\n", what);
    exit(1);
}

static void take_all(void) {
    const uint8_t *at;
    const uint32_t *handles;
    size_t waiting, handle_count;
    while (reis_connection_unsent(&connection, &at, &waiting, &handles, &handle_count) == REIS_OK && waiting > 0)
        reis_connection_sent(&connection, waiting);
}

/* A connection with a device, of which the client has heard. */
static void begin(reis_context_type type) {
    uint64_t seat, added;
    reis_device described = {.size = sizeof described, .capabilities = capabilities, .type = REIS_DEVICE_VIRTUAL};
    add_handshake(&hello, all_interfaces, type, "price");
    if (reis_connection_start(&connection, 1, 0) != REIS_OK ||
        reis_connection_feed(&connection, hello.bytes, hello.count, NULL, 0, 0) != REIS_OK ||
        reis_connection_add_seat(&connection, NULL, 0, capabilities, &seat) != REIS_OK ||
        reis_connection_add_device(&connection, seat, &described, &added) != REIS_OK || added != device)
        fail("it doesn't begin");
    take_all();
    reis_request request;
    while (reis_connection_next_request(&connection, &request) == REIS_OK)
        continue;
}

/* All groups, one behind another. */
static void write_groups(size_t groups) {
    add(&group, pointer, 1, "ff", 1.0, -1.0);
    add(&group, keyboard, 1, "ww", 30u, 1u);
    add(&group, device, 3, "wl", 1u, (uint64_t)1000);
    count = groups * group.count;
    bytes = malloc(count);
    if (bytes == NULL)
        fail("memory ran out");
    for (size_t i = 0; i < groups; i++)
        memcpy(bytes + i * group.count, group.bytes, group.count);
}

size_t serve_all(void);
size_t tell_all(size_t groups);

/* Hands all groups in. How many requests they are. */
__attribute__((noinline)) size_t serve_all(void) {
    reis_request request;
    size_t requests = 0;
    for (size_t at = 0; at < count; at += PIECE) {
        reis_connection_feed(&connection, bytes + at, count - at < PIECE ? count - at : PIECE, NULL, 0, 0);
        take_all();
        while (reis_connection_next_request(&connection, &request) == REIS_OK)
            requests++;
    }
    return requests;
}

/* Tells the client of all groups; what waits is taken behind each hundred. How many messages they are. */
__attribute__((noinline)) size_t tell_all(size_t groups) {
    const reis_request motion = {.kind = REIS_KIND_POINTER_MOTION, .device = device, .pointer_motion = {1, -1}};
    const reis_request key = {.kind = REIS_KIND_KEY, .device = device, .key = {30, 1}};
    size_t told = 0;
    for (size_t i = 0; i < groups; i++) {
        told += reis_connection_send(&connection, &motion, NULL, 0) == REIS_OK;
        told += reis_connection_send(&connection, &key, NULL, 0) == REIS_OK;
        told += reis_connection_frame(&connection, device, 1000) == REIS_OK;
        if (i % A_FLUSH == A_FLUSH - 1)
            take_all();
    }
    return told;
}

int main(int word_count, char **words) {
    size_t groups = word_count == 3 ? strtoul(words[2], NULL, 10) : 0;
    if (groups == 0 || groups > MOST_GROUPS)
        fail("usage: price sends|tells GROUPS");
    size_t messages = 0;
    if (strcmp(words[1], "sends") == 0) {
        begin(REIS_CONTEXT_SENDER);
        write_groups(groups);
        messages = serve_all();
    } else if (strcmp(words[1], "tells") == 0) {
        begin(REIS_CONTEXT_RECEIVER);
        messages = tell_all(groups);
    }
    printf("%zu messages\n", messages);
    reis_connection_free(&connection);
    free(bytes);
    return messages == 3 * groups ? 0 : 1;
}
