/* A compositor's end of the protocol, as strict as libeis: it listens on a path, gives each client a seat and the devices that it
 * binds, and prints what comes from them.
 *
 *     compositor PATH [CLIENTS]
 *
 * SIGUSR1 pauses all devices, and resumes them when it comes again. SIGTERM and SIGINT tell the clients that it ends. It ends too
 * when so many clients are done. */
#include "listen.h"
#include "peer.h"

#include <fcntl.h>
#include <inttypes.h>
#include <poll.h>
#include <signal.h>
#include <stdio.h>
#include <stdlib.h>
#include <string.h>
#include <sys/mman.h>
#include <sys/socket.h>
#include <time.h>
#include <unistd.h>

enum { MOST_CLIENTS = 8, DEVICES = 3 };

/* What a seat gives, and the capabilities of each of its devices. */
static const uint64_t given[DEVICES] = {
    REIS_CAPABILITY_POINTER | REIS_CAPABILITY_BUTTON | REIS_CAPABILITY_SCROLL,
    REIS_CAPABILITY_POINTER_ABSOLUTE,
    REIS_CAPABILITY_KEYBOARD,
};

static const char *const names[DEVICES] = {"pointer", "absolute pointer", "keyboard"};

/* Two screens, side by side. */
static const char mapping_ids[] = "left-screenright-screen";
static const reis_region screens[] = {{0, 0, 1920, 1080, 1.0f, 0, 11}, {1920, 0, 2560, 1440, 1.25f, 11, 12}};

static const char keymap[] =
    "xkb_keymap {\n"
    "xkb_keycodes \"one\" { minimum = 8; maximum = 255; <AC01> = 38; };\n"
    "xkb_types \"one\" { virtual_modifiers NumLock; type \"ONE_LEVEL\" { modifiers = none; level_name[1] = \"Any\"; }; };\n"
    "xkb_compatibility \"one\" { interpret.useModMapMods = AnyLevel; };\n"
    "xkb_symbols \"one\" { key <AC01> { type = \"ONE_LEVEL\", symbols[1] = [ a ] }; };\n"
    "};\n";

struct client {
    bool here;
    unsigned number;
    uint64_t seat;            /* 0 before the handshake is done */
    uint64_t devices[DEVICES]; /* 0 where it isn't there */
    struct peer peer;
};

static struct client clients[MOST_CLIENTS];
static unsigned accepted, done;
static bool paused;
static int keymap_file = -1;

/* ---- seats and devices ---- */

/* The keymap, in memory that can't change any more. Each client gets the same descriptor, which stays open. */
static int open_keymap(void) {
    int file = memfd_create("keymap", MFD_CLOEXEC | MFD_ALLOW_SEALING);
    if (file == -1 || write(file, keymap, sizeof keymap) != (ssize_t)sizeof keymap)
        return -1;
    return fcntl(file, F_ADD_SEALS, F_SEAL_SHRINK | F_SEAL_GROW | F_SEAL_WRITE | F_SEAL_SEAL) == 0 ? file : -1;
}

static void says_why(struct client *client, const char *what, reis_answer answer) {
    if (answer != REIS_OK && answer != REIS_NOTHING)
        printf("client %u: %s: %s\n", client->number, what, reis_answer_name(answer));
}

static void add_device(struct client *client, int which, uint64_t capabilities) {
    reis_connection *connection = &client->peer.connection;
    reis_device device = {.size = sizeof device, .name = names[which], .name_length = strlen(names[which]),
                          .capabilities = capabilities, .type = REIS_DEVICE_VIRTUAL};
    if (capabilities & REIS_CAPABILITY_POINTER_ABSOLUTE) {
        device.regions = screens;
        device.region_count = sizeof screens / sizeof screens[0];
        device.mapping_ids = mapping_ids;
        device.mapping_ids_length = sizeof mapping_ids - 1;
    }
    if (capabilities & REIS_CAPABILITY_KEYBOARD) {
        device.keymap_type = REIS_KEYMAP_XKB;
        device.keymap = (uint32_t)keymap_file;
        device.keymap_size = sizeof keymap;
    }
    says_why(client, "add_device", reis_connection_add_device(connection, client->seat, &device, &client->devices[which]));
    if (client->devices[which] != 0 && !paused)
        says_why(client, "resume", reis_connection_resume(connection, client->devices[which]));
}

/* A client that binds other capabilities than before gets its devices anew. */
static void give_devices(struct client *client, uint64_t capabilities) {
    for (int i = 0; i < DEVICES; i++) {
        if (client->devices[i] != 0)
            reis_connection_remove_device(&client->peer.connection, client->devices[i]);
        client->devices[i] = 0;
        if (capabilities & given[i])
            add_device(client, i, capabilities & given[i]);
    }
}

static void forget(struct client *client, uint64_t device) {
    for (int i = 0; i < DEVICES; i++) {
        if (client->devices[i] == device)
            client->devices[i] = 0;
    }
    reis_connection_remove_device(&client->peer.connection, device);
}

/* Once the client is known it gets its seat. */
static void greet(struct client *client) {
    size_t length;
    reis_context_type type;
    reis_connection_client(&client->peer.connection, &type, NULL, 0, &length);
    printf("client %u: a %s\n", client->number, type == REIS_CONTEXT_SENDER ? "sender" : "receiver");
    says_why(client, "add_seat",
             reis_connection_add_seat(&client->peer.connection, "default", 7, given[0] | given[1] | given[2], &client->seat));
}

/* Where memory runs out the rest is taken at the next turn. */
static void act(struct client *client) {
    reis_request request;
    reis_answer answer;
    while ((answer = reis_connection_next_request(&client->peer.connection, &request)) == REIS_OK) {
        if (request.kind == REIS_KIND_CONNECTED)
            greet(client);
        else
            printf("client %u: %s %" PRIu64 " %" PRIu64 "\n", client->number, reis_kind_name(request.kind), request.fields[0],
                   request.fields[1]);
        if (request.kind == REIS_KIND_BIND)
            give_devices(client, request.bind.capabilities);
        else if (request.kind == REIS_KIND_DEVICE_CLOSED)
            forget(client, request.device);
    }
    says_why(client, "next_request", answer);
}

static void pause_or_resume(void) {
    paused = !paused;
    for (int i = 0; i < MOST_CLIENTS * DEVICES; i++) {
        struct client *client = &clients[i / DEVICES];
        uint64_t device = client->devices[i % DEVICES];
        if (client->here && device != 0)
            (paused ? reis_connection_pause : reis_connection_resume)(&client->peer.connection, device);
    }
}

/* ---- the loop ---- */

static uint64_t now(void) {
    struct timespec time;
    clock_gettime(CLOCK_MONOTONIC, &time);
    return (uint64_t)time.tv_sec * 1000000 + (uint64_t)time.tv_nsec / 1000;
}

static void leave(struct client *client) {
    printf("client %u: end %s\n", client->number, reis_end_name(peer_end(&client->peer)));
    peer_close(&client->peer);
    client->here = false;
    done++;
}

static void accept_client(int listener) {
    for (int i = 0; i < MOST_CLIENTS; i++) {
        struct client *client = &clients[i];
        if (client->here)
            continue;
        int socket = accept4(listener, NULL, NULL, SOCK_CLOEXEC);
        *client = (struct client){.number = ++accepted};
        client->here = socket != -1 && peer_open(&client->peer, socket, 1, REIS_STRICT) == REIS_OK;
        return;
    }
}

/* Writes what waits; a client that is over, or can't be written to or read from, leaves. While something waits nothing is read. */
static void turn(struct client *client) {
    bool fine = peer_waits(&client->peer) || peer_read(&client->peer, now());
    act(client);
    fine = fine && peer_write(&client->peer);
    if (!fine || (peer_end(&client->peer) != REIS_END_GOES_ON && !peer_waits(&client->peer)))
        leave(client);
}

static volatile sig_atomic_t told_to_end, told_to_pause;

static void note(int signal) {
    *(signal == SIGUSR1 ? &told_to_pause : &told_to_end) = 1;
}

/* Waits for what can be done, and for the signals, which come only here. */
static void wait_and_turn(int listener) {
    struct pollfd polled[MOST_CLIENTS + 1];
    sigset_t none;
    sigemptyset(&none);
    for (int i = 0; i < MOST_CLIENTS; i++) {
        polled[i].fd = clients[i].here ? clients[i].peer.socket : -1;
        polled[i].events = clients[i].here && peer_waits(&clients[i].peer) ? POLLOUT : POLLIN;
    }
    polled[MOST_CLIENTS].fd = listener;
    polled[MOST_CLIENTS].events = POLLIN;
    bool ready = ppoll(polled, MOST_CLIENTS + 1, NULL, &none) > 0;
    for (int i = 0; ready && i < MOST_CLIENTS; i++) {
        if (clients[i].here && polled[i].revents != 0)
            turn(&clients[i]);
    }
    if (ready && polled[MOST_CLIENTS].revents != 0)
        accept_client(listener);
    if (told_to_pause)
        pause_or_resume();
    told_to_pause = 0;
    fflush(stdout);
}

static void end_all(void) {
    static const char why[] = "the compositor ends";
    for (int i = 0; i < MOST_CLIENTS; i++) {
        if (!clients[i].here)
            continue;
        reis_connection_disconnect(&clients[i].peer.connection, REIS_REASON_DISCONNECTED, why, sizeof why - 1);
        peer_write(&clients[i].peer);
        leave(&clients[i]);
    }
}

int main(int count, char **words) {
    struct sigaction action = {.sa_handler = note};
    static const int signals[] = {SIGTERM, SIGINT, SIGUSR1};
    sigset_t kept;
    sigemptyset(&kept);
    for (int i = 0; i < 3; i++) {
        sigaddset(&kept, signals[i]);
        sigaction(signals[i], &action, NULL);
    }
    sigprocmask(SIG_BLOCK, &kept, NULL);
    unsigned long most = count > 2 ? strtoul(words[2], NULL, 10) : 0;
    int listener = count > 1 && reis_version_matches() ? listen_on(words[1]) : -1;
    keymap_file = open_keymap();
    if (listener == -1 || keymap_file == -1)
        return 1;
    while (!told_to_end && (most == 0 || done < most))
        wait_and_turn(listener);
    end_all();
    close(keymap_file);
    listen_no_more(listener, words[1]);
    return 0;
}
