/* Tests of REIS_STRICT, without a socket: a table of what a client sends and what the program does, with what is handed out of it and
 * how the client is ended, worked by hand from what reis.h says of the flag. Messages are written, and what the client is told is
 * compared byte by byte, as docs/PROTOCOL.md says. Without the flag all is handed out. The heap checks each call: each block that is
 * asked for is refused in turn, and nothing is lost by it; a thousand connections leave nothing, and take no more than the first.
 *
 *     strict */
#include "blocks.h"
#include "check.h"
#include "reis.h"
#include "wire.h"

#include <stdio.h>
#include <string.h>

enum { SERIAL = 7, TIME = 5000, MANY = 1000, DEVICES = 2 };
enum { POINTER = 1, KEYBOARD, TOUCH, BUTTON, TEXT, INTERFACES = TEXT };

static const uint64_t capabilities = REIS_CAPABILITY_POINTER | REIS_CAPABILITY_KEYBOARD | REIS_CAPABILITY_TOUCH |
    REIS_CAPABILITY_BUTTON | REIS_CAPABILITY_TEXT;

/* What a client asks of the device, where `object` is 0, or of an interface behind it: the opcode, and the arguments in words of
 * four bytes. They are the fields of the request too, but for the time of a frame. */
struct asked {
    const char *name;
    reis_kind kind;
    uint32_t object, opcode;
    const char *kinds;
    uint32_t words[3];
};

static const struct asked all_asked[] = {
    {"start", REIS_KIND_START_EMULATING, 0, 1, "ww", {SERIAL, 1}},
    {"stop", REIS_KIND_STOP_EMULATING, 0, 2, "w", {SERIAL}},
    {"frame", REIS_KIND_FRAME, 0, 3, "www", {SERIAL, TIME}},
    {"ready", REIS_KIND_READY, 0, 4, "", {0}},
    {"close", REIS_KIND_DEVICE_CLOSED, 0, 0, "", {0}},
    {"motion", REIS_KIND_POINTER_MOTION, POINTER, 1, "ww", {0x3f800000, 0x40000000}},
    {"key+", REIS_KIND_KEY, KEYBOARD, 1, "ww", {30, 1}},
    {"key-", REIS_KIND_KEY, KEYBOARD, 1, "ww", {30, 0}},
    {"other+", REIS_KIND_KEY, KEYBOARD, 1, "ww", {31, 1}},
    {"touch+", REIS_KIND_TOUCH_DOWN, TOUCH, 1, "www", {5, 0x3f800000, 0x40000000}},
    {"touch-", REIS_KIND_TOUCH_UP, TOUCH, 3, "w", {5}},
    {"button+", REIS_KIND_BUTTON, BUTTON, 1, "ww", {30, 1}},
    {"button-", REIS_KIND_BUTTON, BUTTON, 1, "ww", {30, 0}},
    {"keysym+", REIS_KIND_TEXT_KEYSYM, TEXT, 1, "ww", {30, 1}},
    {"bind", REIS_KIND_BIND, 0, 1, "ww", {REIS_CAPABILITY_KEYBOARD}},
    {"leave", REIS_KIND_DISCONNECT, 0, 1, "", {0}},
};
enum { ALL_ASKED = sizeof all_asked / sizeof all_asked[0] };

/* A client, and what it asks, in small letters, between what the program does, in large ones: TAKE takes what is handed out, as is
 * done at the end too. "@2" is the second device. Then all that is handed out, NULL where that is all that is asked, and the text
 * by which the client is ended, NULL where it isn't. */
struct row {
    const char *name;
    reis_context_type type;
    const char *script, *handed, *text;
};

#define SENDS REIS_CONTEXT_SENDER
#define RECEIVES REIS_CONTEXT_RECEIVER
#define NOT_EMULATING "input without start_emulating"
#define STARTED_TWICE "start_emulating while emulating"
#define NOT_STARTED "stop_emulating without start_emulating"
#define OF_RECEIVER "events of a receiver"

static const struct row rows[] = {
    {"lawful", SENDS, "bind ready RESUME start motion frame key+ key- frame touch+ touch- frame keysym+ frame stop close",
     NULL, NULL},
    {"key before the start", SENDS, "RESUME key+ frame", "", NOT_EMULATING},
    {"motion before the start", SENDS, "RESUME ready motion frame", "ready", NOT_EMULATING},
    {"input behind the stop", SENDS, "RESUME start key+ frame stop key- frame", "start key+ frame stop", NOT_EMULATING},
    {"start twice", SENDS, "RESUME start motion frame start", "start motion frame", STARTED_TWICE},
    {"stop without a start", SENDS, "RESUME stop", "", NOT_STARTED},
    {"stop twice", SENDS, "RESUME start stop stop", "start stop", NOT_STARTED},
    {"key down twice", SENDS, "RESUME start key+ frame key+ frame key- frame", "start key+ frame frame key- frame", NULL},
    {"key up twice", SENDS, "RESUME start key- frame key+ key- key- frame", "start frame key+ key- frame", NULL},
    {"button twice", SENDS, "RESUME start button- button+ button+ button- button- frame", "start button+ button- frame", NULL},
    {"keys and buttons", SENDS, "RESUME start key+ other+ button+ key- frame", NULL, NULL},
    {"keysym twice", SENDS, "RESUME start keysym+ keysym+ frame", NULL, NULL},
    {"down, stop, up, down", SENDS, "RESUME start key+ button+ frame stop start key- button- key+ button+ frame",
     "start key+ button+ frame stop start key+ button+ frame", NULL},
    {"never resumed", SENDS, "bind start key+ motion frame stop stop ready", "bind ready", NULL},
    {"paused on the way", SENDS, "RESUME start key+ frame TAKE key- motion frame stop start start ready PAUSE",
     "start key+ frame ready", NULL},
    {"paused before it", SENDS, "RESUME start TAKE PAUSE key+ frame stop", "start", NULL},
    {"paused and resumed", SENDS, "RESUME start TAKE PAUSE RESUME key+ frame", "start", NOT_EMULATING},
    {"paused, resumed, begun", SENDS, "RESUME start key+ frame TAKE PAUSE RESUME start key- key+ frame",
     "start key+ frame start key+ frame", NULL},
    {"taken behind a resume", SENDS, "RESUME start key+ frame PAUSE RESUME", NULL, NULL},
    {"resumed twice", SENDS, "RESUME start key+ frame TAKE RESUME start key+ frame", NULL, NULL},
    {"resumed twice, not begun", SENDS, "RESUME start key+ frame TAKE RESUME key- frame", "start key+ frame", NOT_EMULATING},
    {"removed on the way", SENDS, "RESUME start key+ frame TAKE key- frame stop stop ready close bind REMOVE",
     "start key+ frame bind", NULL},
    {"its seat removed", SENDS, "RESUME start key+ frame TAKE key- frame stop stop ready UNSEAT", "start key+ frame", NULL},
    {"two devices", SENDS, "RESUME RESUME@2 start start@2 key+ frame key+@2 frame@2 key+ frame stop key-@2 frame@2 stop@2",
     "start start@2 key+ frame key+@2 frame@2 frame stop key-@2 frame@2 stop@2", NULL},
    {"another device", SENDS, "RESUME RESUME@2 start key+ frame key+@2 frame@2", "start key+ frame", NOT_EMULATING},
    {"another is paused", SENDS, "RESUME RESUME@2 start start@2 TAKE key+ frame key+@2 frame@2 PAUSE",
     "start start@2 key+@2 frame@2", NULL},
    {"behind the end", SENDS, "RESUME RESUME@2 start@2 key+ frame key+@2 frame@2 ready bind", "start@2 bind", NOT_EMULATING},
    {"it leaves", SENDS, "RESUME start key+ frame leave", NULL, NULL},
    {"it leaves, and was wrong", SENDS, "RESUME key+ frame leave", "leave", NOT_EMULATING},
    {"lawful receiver", RECEIVES, "bind ready RESUME close", NULL, NULL},
    {"receiver starts", RECEIVES, "RESUME ready start", "ready", OF_RECEIVER},
    {"receiver stops", RECEIVES, "RESUME stop", "", OF_RECEIVER},
    {"receiver sends", RECEIVES, "RESUME motion frame", "", OF_RECEIVER},
    {"receiver sends, paused", RECEIVES, "key+ frame", "", OF_RECEIVER},
    {"receiver sends, removed", RECEIVES, "start key+ frame stop REMOVE", "", NULL},
};
enum { ROWS = sizeof rows / sizeof rows[0] };

/* ---- a connection that is played ---- */

struct played {
    reis_connection connection;
    size_t cut;
    uint32_t serial;
    bool seat, devices[DEVICES]; /* which are there */
    struct stream asked, wanted; /* what the client asks next, and what it is to be told */
    char handed[MOST_TEXT];
};

static struct played played;
static size_t refused; /* which block is refused, counted from here; 0 where none is, or one was */

static void refuse(void) {
    if (refused != 0)
        blocks_refuse(refused);
}

/* Whether one was refused since then. */
static bool was_refused(void) {
    if (refused == 0)
        return false;
    bool was = blocks_asked() >= refused;
    refused = was ? 0 : refused - blocks_asked();
    blocks_refuse(0);
    return was;
}

static uint64_t device_id(size_t which) {
    return FIRST_SEAT + 1 + which * (1 + INTERFACES);
}

static void feed_all(struct played *it) {
    for (size_t at = 0; at < it->asked.count; at += it->cut) {
        size_t left = it->asked.count - at;
        CHECK(reis_connection_feed(&it->connection, it->asked.bytes + at, left < it->cut ? left : it->cut, NULL, 0, 1) == REIS_OK);
    }
    it->asked.count = 0;
}

/* A client that has heard of a seat and two devices. */
static void begin(struct played *it, reis_context_type type, uint32_t flags, size_t cut) {
    const uint8_t *bytes;
    const uint32_t *handles;
    size_t count, handle_count;
    uint64_t id;
    reis_request request;
    reis_device described = {.size = sizeof described, .capabilities = capabilities, .type = REIS_DEVICE_VIRTUAL};
    memset(it, 0, sizeof *it);
    it->cut = cut;
    it->serial = SERIAL;
    CHECK(reis_connection_start(&it->connection, SERIAL, flags) == REIS_OK);
    add_handshake(&it->asked, all_interfaces, type, "probe");
    feed_all(it);
    CHECK(reis_connection_next_request(&it->connection, &request) == REIS_OK && request.kind == REIS_KIND_CONNECTED);
    CHECK(reis_connection_add_seat(&it->connection, NULL, 0, capabilities, &id) == REIS_OK && id == FIRST_SEAT);
    it->seat = true;
    for (size_t i = 0; i < DEVICES; i++) {
        CHECK(reis_connection_add_device(&it->connection, FIRST_SEAT, &described, &id) == REIS_OK && id == device_id(i));
        it->devices[i] = true;
    }
    CHECK(reis_connection_unsent(&it->connection, &bytes, &count, &handles, &handle_count) == REIS_OK);
    CHECK(reis_connection_sent(&it->connection, count) == REIS_OK);
}

/* The device is taken away, behind its interfaces, and the seat behind its devices; where they are there. */
static void want_no_device(struct played *it, size_t which) {
    for (uint64_t place = 1; it->devices[which] && place <= 1 + INTERFACES; place++)
        add(&it->wanted, device_id(which) + place % (1 + INTERFACES), 0, "w", ++it->serial);
    it->devices[which] = false;
}

static void want_no_seat(struct played *it) {
    for (size_t i = 0; i < DEVICES; i++)
        want_no_device(it, i);
    if (it->seat)
        add(&it->wanted, FIRST_SEAT, 0, "w", ++it->serial);
    it->seat = false;
}

/* ---- what is handed out ---- */

static void append(char *text, const char *name, size_t which) {
    size_t length = strlen(text);
    snprintf(text + length, MOST_TEXT - length, "%s%s%s", length == 0 ? "" : " ", name, which == 1 ? "@2" : "");
}

/* Whether the request says what was asked, of that device. */
static bool is_of(const reis_request *request, const struct asked *asked, size_t which) {
    bool of_client = asked->kind == REIS_KIND_DISCONNECT, of_seat = asked->kind == REIS_KIND_BIND;
    bool is_frame = asked->kind == REIS_KIND_FRAME;
    bool same = request->kind == asked->kind && request->seat == (of_client ? 0 : FIRST_SEAT) &&
        request->device == (of_client || of_seat ? 0 : device_id(which)) &&
        request->time == (is_frame || asked->kind >= REIS_KIND_POINTER_MOTION ? TIME : 0);
    for (size_t i = 0; i < 3; i++)
        same = same && request->fields[i] == (is_frame && i > 0 ? 0 : asked->words[i]);
    return same;
}

static void note(struct played *it, const reis_request *request) {
    size_t i = 0;
    while (i < ALL_ASKED * DEVICES && !is_of(request, &all_asked[i / DEVICES], i % DEVICES))
        i++;
    append(it->handed, i < ALL_ASKED * DEVICES ? all_asked[i / DEVICES].name : "something else", i % DEVICES);
}

/* Where a block is refused no request is handed out, and the next call goes on. */
static void take(struct played *it) {
    reis_request request;
    reis_answer answer;
    bool was;
    do {
        refuse();
        answer = reis_connection_next_request(&it->connection, &request);
        was = was_refused();
        CHECK(!was || answer == REIS_NO_MEMORY);
        if (answer == REIS_OK)
            note(it, &request);
    } while (was || answer == REIS_OK);
    CHECK(answer == REIS_NOTHING);
}

/* ---- a row ---- */

/* What the program does; a call is made again where a block was refused. */
static void act(struct played *it, const char *name, size_t which) {
    bool resumes = strcmp(name, "RESUME") == 0, pauses = strcmp(name, "PAUSE") == 0, unseats = strcmp(name, "UNSEAT") == 0;
    reis_answer (*call)(reis_connection *, uint64_t) = resumes ? reis_connection_resume
        : pauses                                               ? reis_connection_pause
        : unseats                                              ? reis_connection_remove_seat
                                                               : reis_connection_remove_device;
    uint64_t id = unseats ? FIRST_SEAT : device_id(which);
    refuse();
    reis_answer answer = call(&it->connection, id);
    if (was_refused()) {
        CHECK(answer == REIS_NO_MEMORY);
        answer = call(&it->connection, id);
    }
    CHECK(answer == REIS_OK);
    if (unseats)
        want_no_seat(it);
    else if (resumes || pauses)
        add(&it->wanted, id, resumes ? 7 : 8, "w", ++it->serial);
    else
        want_no_device(it, which);
}

static void ask(struct played *it, const char *name, size_t which) {
    const struct asked *asked = all_asked;
    while (strcmp(name, asked->name) != 0)
        asked++;
    bool of_client = asked->kind == REIS_KIND_DISCONNECT, of_seat = asked->kind == REIS_KIND_BIND;
    uint64_t object = of_client ? CONNECTION : of_seat ? FIRST_SEAT : device_id(which) + asked->object;
    add(&it->asked, object, asked->opcode, asked->kinds, asked->words[0], asked->words[1], asked->words[2]);
}

/* Plays a script, and tells all that the client asks by it. */
static void play(struct played *it, const char *script, char *asked) {
    char word[16];
    for (int length = 0; sscanf(script, "%15s%n", word, &length) == 1; script += length) {
        char *behind = strchr(word, '@');
        size_t which = behind == NULL ? 0 : 1;
        if (behind != NULL)
            *behind = 0;
        if (*word >= 'a') {
            ask(it, word, which);
            append(asked, word, which);
            continue;
        }
        feed_all(it);
        if (strcmp(word, "TAKE") == 0)
            take(it);
        else
            act(it, word, which);
    }
    feed_all(it);
    take(it);
}

/* What waits is what is wanted, and the connection has ended so. */
static void check_told(struct played *it, reis_end wanted) {
    const uint8_t *bytes;
    const uint32_t *handles;
    size_t count, handle_count;
    reis_end end = REIS_END_ERROR_NO_MEMORY;
    CHECK(reis_connection_unsent(&it->connection, &bytes, &count, &handles, &handle_count) == REIS_OK && handle_count == 0);
    CHECK(count == it->wanted.count && (count == 0 || memcmp(bytes, it->wanted.bytes, count) == 0));
    CHECK(reis_connection_end(&it->connection, &end) == REIS_OK && end == wanted);
}

/* One run of a row, with the block of that number refused where so many are asked for. Whether they were. */
static bool run(const struct row *row, uint32_t flags, size_t cut, size_t number) {
    char asked[MOST_TEXT] = "";
    bool strict = flags == REIS_STRICT, leaves = strstr(row->script, "leave") != NULL, ends = strict && row->text != NULL;
    checking(row->name, cut, number);
    refused = 0;
    blocks_refuse(0);
    begin(&played, row->type, flags, cut);
    refused = number;
    play(&played, row->script, asked);
    take(&played); /* what waits behind the request that ended it */
    CHECK(strcmp(played.handed, strict && row->handed != NULL ? row->handed : asked) == 0);
    if (ends) {
        want_no_seat(&played);
        add(&played.wanted, CONNECTION, 0, "wwt", played.serial, 3u, row->text);
        CHECK(reis_connection_disconnect(&played.connection, REIS_REASON_ERROR, NULL, 0) == REIS_OVER);
    }
    check_told(&played, leaves ? REIS_END_DISCONNECTED : ends ? REIS_END_TOLD : REIS_END_GOES_ON);
    CHECK(reis_connection_free(&played.connection) == REIS_OK);
    CHECK(blocks_here() == 0 && blocks_wrong() == 0);
    return number != 0 && refused == 0;
}

static void test_row(const struct row *row) {
    static const size_t cuts[] = {1, 16, 31, MOST_STREAM};
    for (size_t i = 0; i < sizeof cuts / sizeof cuts[0]; i++) {
        run(row, REIS_STRICT, cuts[i], 0);
        run(row, 0, cuts[i], 0);
    }
    size_t number = 1;
    while (run(row, REIS_STRICT, MOST_STREAM, number))
        number++;
    CHECK(number > 1 || strstr(row->script, "RESUME") == NULL);
}

/* ---- the start, and a thousand connections ---- */

static void test_start(void) {
    static const uint32_t others[] = {2, 3, 0x80000000, 0x80000001, UINT32_MAX};
    reis_connection connection = {0};
    size_t number = 1;
    checking("start", 0, 0);
    for (size_t i = 0; i < sizeof others / sizeof others[0]; i++)
        CHECK(reis_connection_start(&connection, SERIAL, others[i]) == REIS_INVALID && connection.at == NULL && blocks_here() == 0);
    CHECK(reis_connection_start(NULL, SERIAL, REIS_STRICT) == REIS_NULL);
    for (blocks_refuse(number); reis_connection_start(&connection, SERIAL, REIS_STRICT) == REIS_NO_MEMORY; blocks_refuse(++number))
        CHECK(blocks_asked() == number && connection.at == NULL && blocks_here() == 0);
    blocks_refuse(0);
    uint8_t *at = connection.at;
    CHECK(number > 1 && at != NULL);
    for (uint32_t flags = 0; flags < 4; flags++)
        CHECK(reis_connection_start(&connection, SERIAL, flags) == REIS_HAS_SESSION && connection.at == at);
    CHECK(reis_connection_free(&connection) == REIS_OK && blocks_here() == 0 && blocks_wrong() == 0);
}

static void test_many(void) {
    size_t asked[ROWS], peaks[ROWS], files = open_files();
    for (size_t i = 0; i < MANY; i++) {
        run(&rows[i % ROWS], REIS_STRICT, 50, 0);
        CHECK(i < ROWS || (blocks_asked() == asked[i % ROWS] && blocks_peak() == peaks[i % ROWS]));
        asked[i % ROWS] = blocks_asked();
        peaks[i % ROWS] = blocks_peak();
    }
    CHECK(open_files() == files);
}

int main(void) {
    test_start();
    for (size_t i = 0; i < ROWS; i++)
        test_row(&rows[i]);
    test_many();
    return checked("strict");
}
