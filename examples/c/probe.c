/* A client that is written from docs/PROTOCOL.md alone, for the compositor and for the server that captures. It sends in odd cuts,
 * and compares each message that it is sent, byte by byte, with the one that is wanted.
 *
 *     probe PATH CUT sender|hasty|waits|receiver
 *
 * `sender` binds, gets three devices and their keymap, sends input and disconnects. `hasty` sends input without start_emulating, and
 * is told that it ends by that. `waits` does as `sender`, says so on its output, and waits to be paused, resumed and told that the
 * compositor ends. `receiver` gets input until it is told that the server is done. */
#include "wire.h"

#include <stdio.h>
#include <stdlib.h>
#include <string.h>
#include <sys/mman.h>
#include <sys/socket.h>
#include <sys/un.h>
#include <unistd.h>

static int server;
static size_t cut;
static uint32_t serial = 1;
static uint8_t came[MOST_STREAM];
static size_t came_count;
static int descriptor = -1;

static void fail(const char *what) {
    fprintf(stderr, "probe: %s\n", what);
    exit(1);
}

static void connect_to(const char *path) {
    struct sockaddr_un address = {.sun_family = AF_UNIX};
    strncpy(address.sun_path, path, sizeof address.sun_path - 1);
    server = socket(AF_UNIX, SOCK_STREAM | SOCK_CLOEXEC, 0);
    for (int i = 0; i < 300; i++) {
        if (connect(server, (const struct sockaddr *)&address, sizeof address) == 0)
            return;
        usleep(100000);
    }
    fail("there is no server");
}

static void say(const struct stream *stream) {
    for (size_t at = 0; at < stream->count; at += cut) {
        size_t left = stream->count - at;
        size_t count = left < cut ? left : cut;
        if (send(server, stream->bytes + at, count, MSG_NOSIGNAL) != (ssize_t)count)
            fail("it can't be written to");
    }
}

/* Reads some bytes, and keeps a descriptor that comes with them. */
static void read_more(void) {
    union {
        struct cmsghdr header;
        uint8_t room[CMSG_SPACE(sizeof(int))];
    } control;
    struct iovec piece = {came + came_count, sizeof came - came_count};
    struct msghdr message = {.msg_iov = &piece, .msg_iovlen = 1, .msg_control = &control, .msg_controllen = sizeof control};
    ssize_t count = recvmsg(server, &message, MSG_CMSG_CLOEXEC);
    if (count <= 0)
        fail("it went away");
    came_count += (size_t)count;
    struct cmsghdr *header = CMSG_FIRSTHDR(&message);
    if (header != NULL && header->cmsg_type == SCM_RIGHTS)
        memcpy(&descriptor, CMSG_DATA(header), sizeof descriptor);
}

static void drop_front(size_t count) {
    came_count -= count;
    memmove(came, came + count, came_count);
}

/* What comes next is this, byte by byte. */
static void hears(struct stream *wanted) {
    while (came_count < wanted->count)
        read_more();
    if (memcmp(came, wanted->bytes, wanted->count) != 0)
        fail("it says something else");
    drop_front(wanted->count);
    wanted->count = 0;
}

static uint32_t next(void) {
    return ++serial;
}

/* ---- the handshake, a seat and its devices ---- */

static const char *const capability_names[] = {"ei_pointer", "ei_pointer_absolute", "ei_keyboard", "ei_touchscreen", "ei_scroll",
    "ei_button", "ei_text"};

/* Adds the object of each interface of a device that has these capabilities, behind it. The id that comes next. */
static uint64_t add_interfaces(struct stream *stream, uint64_t device, uint64_t capabilities) {
    uint64_t id = device + 1;
    for (unsigned i = 0; i < 7; i++) {
        if ((capabilities >> i & 1) == 1)
            add(stream, device, 5, "ltw", id++, capability_names[i], version_of(capability_names[i]));
    }
    return id;
}

/* Shakes hands, hears of a seat of these capabilities, and binds them. */
static void begin(uint32_t context_type, const char *name, uint64_t capabilities) {
    static struct stream stream;
    stream.count = 0;
    add_handshake(&stream, all_interfaces, context_type, "probe");
    say(&stream);
    stream.count = 0;
    add_welcome(&stream, all_interfaces, serial);
    add(&stream, CONNECTION, 1, "lw", (uint64_t)FIRST_SEAT, 2u);
    if (name != NULL)
        add(&stream, FIRST_SEAT, 1, "t", name);
    for (unsigned i = 0; i < 7; i++) {
        if ((capabilities >> i & 1) == 1)
            add(&stream, FIRST_SEAT, 2, "lt", (uint64_t)1 << i, capability_names[i]);
    }
    add(&stream, FIRST_SEAT, 3, "");
    hears(&stream);
    add(&stream, FIRST_SEAT, 1, "l", capabilities);
    say(&stream);
}

static uint64_t add_front(struct stream *stream, uint64_t device, const char *name, uint64_t capabilities) {
    add(stream, FIRST_SEAT, 4, "lw", device, 3u);
    add(stream, device, 1, "t", name);
    add(stream, device, 2, "w", 1u);
    return add_interfaces(stream, device, capabilities);
}

static void add_back(struct stream *stream, uint64_t device) {
    add(stream, device, 6, "");
    add(stream, device, 7, "w", next());
}

/* The keymap that came is the text of one, of that size, and can't be written to. */
static void check_keymap(size_t size) {
    const char *text = mmap(NULL, size, PROT_READ, MAP_PRIVATE, descriptor, 0);
    if (text == MAP_FAILED || strncmp(text, "xkb_keymap {", 12) != 0 || text[size - 1] != 0 || strlen(text) != size - 1)
        fail("that is no keymap");
    if (write(descriptor, "x", 1) != -1)
        fail("the keymap can be written to");
    munmap((void *)text, size);
    close(descriptor);
}

/* Three devices; of the keymap only the size isn't known. The ids are those of the pointer, the absolute pointer and the keyboard. */
static void hear_devices(uint64_t ids[3]) {
    static struct stream stream;
    stream.count = 0;
    ids[0] = FIRST_SEAT + 1;
    ids[1] = add_front(&stream, ids[0], "pointer", 1 | 32 | 16);
    add_back(&stream, ids[0]);
    ids[2] = add_front(&stream, ids[1], "absolute pointer", 2);
    add(&stream, ids[1], 12, "t", "left-screen");
    add(&stream, ids[1], 4, "wwwwf", 0u, 0u, 1920u, 1080u, 1.0);
    add(&stream, ids[1], 12, "t", "right-screen");
    add(&stream, ids[1], 4, "wwwwf", 1920u, 0u, 2560u, 1440u, 1.25);
    add_back(&stream, ids[1]);
    add_front(&stream, ids[2], "keyboard", 4);
    hears(&stream);
    while (came_count < 24)
        read_more();
    uint32_t size = word_at(came + 20);
    add(&stream, ids[2] + 1, 1, "ww", 1u, size);
    add_back(&stream, ids[2]);
    hears(&stream);
    check_keymap(size);
}

/* ---- what it does ---- */

static void send_keys(const uint64_t ids[3]) {
    static struct stream stream;
    stream.count = 0;
    add(&stream, ids[2], 1, "ww", serial, 1u);
    add(&stream, ids[2] + 1, 1, "ww", 30u, 1u);
    add(&stream, ids[2] + 1, 1, "ww", 30u, 0u);
    add(&stream, ids[2], 3, "wl", serial, (uint64_t)5000);
    add(&stream, ids[2], 2, "w", serial);
    say(&stream);
}

/* It is told that all goes, and that it ends, for that reason. */
static void hear_end(const uint64_t ids[3], uint32_t reason, const char *text) {
    static struct stream stream;
    for (int i = 0; i < 3; i++) {
        uint64_t behind = i < 2 ? ids[i + 1] : ids[2] + 2;
        for (uint64_t id = ids[i] + 1; id < behind; id++)
            add(&stream, id, 0, "w", next());
        add(&stream, ids[i], 0, "w", next());
    }
    add(&stream, FIRST_SEAT, 0, "w", next());
    add(&stream, CONNECTION, 0, "wwt", serial, reason, text);
    hears(&stream);
}

static void play_hasty(void) {
    static struct stream stream;
    uint64_t ids[3];
    begin(2, "default", 1 | 32 | 16 | 2 | 4);
    hear_devices(ids);
    add(&stream, ids[2] + 1, 1, "ww", 30u, 1u);
    add(&stream, ids[2], 3, "wl", serial, (uint64_t)5000);
    say(&stream);
    hear_end(ids, 3, "input without start_emulating");
}

static void play_sender(bool waits) {
    static struct stream stream;
    uint64_t ids[3];
    begin(2, "default", 1 | 32 | 16 | 2 | 4);
    hear_devices(ids);
    send_keys(ids);
    if (!waits) {
        add(&stream, CONNECTION, 1, "");
        say(&stream);
        return;
    }
    for (uint32_t opcode = 8; opcode >= 7; opcode--) {
        printf("waits\n");
        fflush(stdout);
        for (int i = 0; i < 3; i++)
            add(&stream, ids[i], opcode, "w", next());
        hears(&stream);
    }
    printf("waits\n");
    fflush(stdout);
    hear_end(ids, 0, "the compositor ends");
}

static void play_receiver(void) {
    static struct stream stream;
    const uint64_t device = FIRST_SEAT + 1;
    begin(1, NULL, 127 - 2);
    uint64_t behind = add_front(&stream, device, "captured", 127 - 2);
    add_back(&stream, device);
    add(&stream, device, 9, "ww", next(), 1u);
    add(&stream, device + 1, 1, "ff", 3.5, -1.0);
    add(&stream, device + 1, 1, "ff", 0.25, 0.0);
    add(&stream, device, 11, "wl", next(), (uint64_t)1000);
    add(&stream, device + 5, 1, "ww", 0x110u, 1u);
    add(&stream, device, 11, "wl", next(), (uint64_t)2000);
    add(&stream, device + 5, 1, "ww", 0x110u, 0u);
    add(&stream, device + 2, 2, "ww", 30u, 1u);
    add(&stream, device, 11, "wl", next(), (uint64_t)3000);
    add(&stream, device + 2, 2, "ww", 30u, 0u);
    add(&stream, device + 4, 1, "ff", 0.0, 15.0);
    add(&stream, device + 4, 2, "ww", 0u, (uint32_t)-120);
    add(&stream, device + 4, 3, "www", 0u, 1u, 0u);
    add(&stream, device, 11, "wl", next(), (uint64_t)4000);
    add(&stream, device + 3, 1, "wff", 1u, 100.0, 200.0);
    add(&stream, device + 3, 2, "wff", 1u, 110.0, 210.0);
    add(&stream, device, 11, "wl", next(), (uint64_t)5000);
    add(&stream, device + 3, 3, "w", 1u);
    add(&stream, device + 6, 2, "t", "caf\xc3\xa9");
    add(&stream, device, 11, "wl", next(), (uint64_t)6000);
    add(&stream, device, 10, "w", next());
    for (uint64_t id = device + 1; id < behind; id++)
        add(&stream, id, 0, "w", next());
    add(&stream, device, 0, "w", next());
    add(&stream, FIRST_SEAT, 0, "w", next());
    add(&stream, CONNECTION, 0, "wwn", serial, 0u);
    hears(&stream);
}

int main(int count, char **words) {
    if (count != 4)
        fail("usage: probe PATH CUT sender|hasty|waits|receiver");
    cut = strtoul(words[2], NULL, 10);
    connect_to(words[1]);
    if (strcmp(words[3], "receiver") == 0)
        play_receiver();
    else if (strcmp(words[3], "hasty") == 0)
        play_hasty();
    else
        play_sender(strcmp(words[3], "waits") == 0);
    uint8_t byte;
    if (came_count != 0 || recv(server, &byte, 1, 0) != 0)
        fail("it says more");
    close(server);
    return 0;
}
