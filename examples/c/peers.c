/* Tests of connections over socket pairs, over a heap that counts its blocks: a thousand of them, with a seat, a device with a
 * keymap whose descriptor is passed, input both ways, and each of three ends, leave no block and no descriptor.
 *
 *     peers */
#include "blocks.h"
#include "check.h"
#include "peer.h"
#include "wire.h"

#include <string.h>
#include <sys/mman.h>
#include <sys/socket.h>
#include <unistd.h>

enum { MANY = 1000, SERIAL = 1, KEYS_OF_FRAME = 5 };

/* How a connection ends: the client disconnects, it is told to, or it closes its socket while something waits for it. */
enum ending { LEAVES, IS_TOLD, CLOSES, ENDINGS };

static const uint64_t seat = FIRST_SEAT, device = FIRST_SEAT + 1, keyboard = FIRST_SEAT + 2;
static const char keymap[] = "xkb_keymap {\n};\n";

/* A connection, the client's socket, and what the client is to hear. */
struct pair {
    struct peer peer;
    int client;
    int keymap;
    uint32_t serial;
    struct stream wanted;
};

static struct pair pair;

static void client_says(const struct stream *stream) {
    CHECK(send(pair.client, stream->bytes, stream->count, MSG_NOSIGNAL) == (ssize_t)stream->count);
    CHECK(peer_read(&pair.peer, 0));
}

/* The client reads what is there, and the descriptor that comes with it, if one does: -1 where none did. It is what is wanted. */
static int client_hears(void) {
    static uint8_t bytes[MOST_STREAM];
    union {
        struct cmsghdr header;
        uint8_t room[CMSG_SPACE(sizeof(int))];
    } control;
    struct iovec piece = {bytes, sizeof bytes};
    struct msghdr message = {.msg_iov = &piece, .msg_iovlen = 1, .msg_control = &control, .msg_controllen = sizeof control};
    int descriptor = -1;
    ssize_t count = recvmsg(pair.client, &message, MSG_DONTWAIT | MSG_CMSG_CLOEXEC);
    CHECK(count == (ssize_t)pair.wanted.count && memcmp(bytes, pair.wanted.bytes, pair.wanted.count) == 0);
    struct cmsghdr *header = CMSG_FIRSTHDR(&message);
    if (header != NULL && header->cmsg_type == SCM_RIGHTS)
        memcpy(&descriptor, CMSG_DATA(header), sizeof descriptor);
    pair.wanted.count = 0;
    return descriptor;
}

/* ---- what a connection does ---- */

/* A client is known, and has heard of it. */
static void shake_hands(reis_context_type type) {
    static struct stream hello;
    int ends[2];
    memset(&pair, 0, sizeof pair);
    pair.serial = SERIAL;
    hello.count = 0;
    CHECK(socketpair(AF_UNIX, SOCK_STREAM | SOCK_CLOEXEC, 0, ends) == 0);
    pair.client = ends[0];
    CHECK(peer_open(&pair.peer, ends[1], SERIAL, 0) == REIS_OK && blocks_here() > 0);
    add_handshake(&hello, all_interfaces, type, "probe");
    client_says(&hello);
    reis_request request;
    CHECK(reis_connection_next_request(&pair.peer.connection, &request) == REIS_OK && request.kind == REIS_KIND_CONNECTED);
    CHECK(peer_write(&pair.peer));
    add_welcome(&pair.wanted, all_interfaces, SERIAL);
    CHECK(client_hears() == -1);
}

/* A keyboard, whose keymap stays the program's until it is written. */
static void add_keyboard(void) {
    uint64_t added_seat, added;
    pair.keymap = memfd_create("keymap", MFD_CLOEXEC);
    CHECK(write(pair.keymap, keymap, sizeof keymap) == sizeof keymap);
    reis_device described = {.size = sizeof described, .name = "desk", .name_length = 4, .capabilities = REIS_CAPABILITY_KEYBOARD,
        .type = REIS_DEVICE_VIRTUAL, .keymap_type = REIS_KEYMAP_XKB, .keymap = (uint32_t)pair.keymap,
        .keymap_size = sizeof keymap};
    reis_connection *connection = &pair.peer.connection;
    CHECK(reis_connection_add_seat(connection, NULL, 0, REIS_CAPABILITY_KEYBOARD, &added_seat) == REIS_OK);
    CHECK(added_seat == seat);
    CHECK(reis_connection_add_device(connection, seat, &described, &added) == REIS_OK && added == device);
    CHECK(reis_connection_resume(connection, device) == REIS_OK);
    add(&pair.wanted, CONNECTION, 1, "lw", seat, 2u);
    add(&pair.wanted, seat, 2, "lt", (uint64_t)REIS_CAPABILITY_KEYBOARD, "ei_keyboard");
    add(&pair.wanted, seat, 3, "");
    add(&pair.wanted, seat, 4, "lw", device, 3u);
    add(&pair.wanted, device, 1, "t", "desk");
    add(&pair.wanted, device, 2, "w", 1u);
    add(&pair.wanted, device, 5, "ltw", keyboard, "ei_keyboard", 1u);
    add(&pair.wanted, keyboard, 1, "ww", 1u, (uint32_t)sizeof keymap);
    add(&pair.wanted, device, 6, "");
    add(&pair.wanted, device, 7, "w", ++pair.serial);
}

/* What a receiver is told of, and what a sender is refused. */
static void send_keys(reis_context_type type) {
    bool receives = type == REIS_CONTEXT_RECEIVER;
    reis_answer wanted = receives ? REIS_OK : REIS_WRONG_ROLE;
    for (uint32_t i = 0; i < KEYS_OF_FRAME; i++) {
        reis_request input = {.kind = REIS_KIND_KEY, .device = device, .key = {30 + i, i % 2}};
        CHECK(reis_connection_send(&pair.peer.connection, &input, NULL, 0) == wanted);
        if (receives)
            add(&pair.wanted, keyboard, 2, "ww", 30 + i, i % 2);
    }
    CHECK(reis_connection_frame(&pair.peer.connection, device, 1000) == wanted);
    if (receives)
        add(&pair.wanted, device, 11, "wl", ++pair.serial, (uint64_t)1000);
}

/* The client's descriptor of the keymap is one of its own. */
static void check_keymap(int descriptor) {
    char text[sizeof keymap + 1];
    CHECK(descriptor != -1 && descriptor != pair.keymap);
    CHECK(pread(descriptor, text, sizeof text, 0) == sizeof keymap && memcmp(text, keymap, sizeof keymap) == 0);
    close(descriptor);
}

static void take_keys(void) {
    static struct stream keys;
    reis_request request;
    size_t requests = 0;
    keys.count = 0;
    for (uint32_t i = 0; i < KEYS_OF_FRAME; i++)
        add(&keys, keyboard, 1, "ww", 30 + i, i % 2);
    add(&keys, device, 3, "wl", pair.serial, (uint64_t)2000);
    client_says(&keys);
    while (reis_connection_next_request(&pair.peer.connection, &request) == REIS_OK) {
        CHECK(request.device == device && request.time == 2000);
        CHECK(request.kind == (requests < KEYS_OF_FRAME ? REIS_KIND_KEY : REIS_KIND_FRAME));
        requests++;
    }
    CHECK(requests == KEYS_OF_FRAME + 1);
}

/* ---- how it ends ---- */

static void leave(void) {
    static struct stream bye;
    bye.count = 0;
    add(&bye, CONNECTION, 1, "");
    client_says(&bye);
    CHECK(peer_end(&pair.peer) == REIS_END_DISCONNECTED && !peer_waits(&pair.peer));
}

static void tell_the_end(void) {
    CHECK(reis_connection_disconnect(&pair.peer.connection, REIS_REASON_ERROR, "bye", 3) == REIS_OK);
    add(&pair.wanted, keyboard, 0, "w", ++pair.serial);
    add(&pair.wanted, device, 0, "w", ++pair.serial);
    add(&pair.wanted, seat, 0, "w", ++pair.serial);
    add(&pair.wanted, CONNECTION, 0, "wwt", pair.serial, 1u, "bye");
    CHECK(peer_write(&pair.peer) && client_hears() == -1);
    CHECK(peer_end(&pair.peer) == REIS_END_TOLD && !peer_waits(&pair.peer));
}

/* One connection. Where the client closes its socket the keymap is never written: it is closed behind reis_connection_free. */
static void use(reis_context_type type, enum ending ending) {
    shake_hands(type);
    add_keyboard();
    send_keys(type);
    if (ending == CLOSES) {
        close(pair.client);
        CHECK(!peer_write(&pair.peer) && peer_waits(&pair.peer));
    } else {
        CHECK(peer_write(&pair.peer) && !peer_waits(&pair.peer));
        check_keymap(client_hears());
        take_keys();
        if (ending == LEAVES)
            leave();
        else
            tell_the_end();
        close(pair.client);
    }
    peer_close(&pair.peer);
    close(pair.keymap);
}

int main(void) {
    size_t files = open_files();
    for (size_t i = 0; i < MANY; i++) {
        checking("peers", i, i % ENDINGS);
        use(i % 2 == 0 ? REIS_CONTEXT_SENDER : REIS_CONTEXT_RECEIVER, (enum ending)(i % ENDINGS));
        CHECK(blocks_here() == 0 && blocks_wrong() == 0);
    }
    CHECK(open_files() == files);
    return checked("peers");
}
