/* A server's end of the ei protocol, for a program with a loop of its own: a compositor, which owns its sockets.
 *
 * Nothing here reads or writes a socket, looks at a clock or waits. The program hands in what it read from a client, with
 * the time; writes out the bytes and handles that wait for that client; and takes the client's requests one by one. It has the
 * choice between two:
 *   - a session, reis_session_*, has a policy: one seat, and a device for what a client binds. The program acts on the input;
 *   - a connection, reis_connection_*, has none: the program announces seats and devices as it likes, with their regions and
 *     keymaps, takes them away, pauses and resumes them, and tells a receiver of input. "A connection" below begins with its loop.
 * Either is one client's: a program has as many of them as it has clients.
 *
 *     reis_session session = {0};
 *     reis_session_start(&session, serial, REIS_ALL_CAPABILITIES, REIS_NO_PIECE_LIMIT);
 *     at each turn of the loop:
 *         write what reis_session_unsent lends, and say with reis_session_sent how much of it the socket took;
 *         act on each request that reis_session_next_request hands out, until it answers REIS_NOTHING;
 *         reis_session_end tells whether the session is over: then close the socket and call reis_session_free;
 *         read from the socket, and call reis_session_feed, or reis_session_end_of_input where nothing more comes.
 *
 * Who owns what. The program owns the `reis_session` or the `reis_connection`, which is one word, and every buffer. No call
 * keeps a pointer that it was given. What a session needs beside its word it takes from the heap, and reis_session_free gives it
 * back. What reis_session_unsent lends is the session's. All this is so for a connection too.
 *
 * Threads. A session stays on the thread that started it, and one call at a time is made on it. Sessions on other threads
 * don't disturb it. No call is made in a signal handler, or in the forked child of a process with threads.
 *
 * What no call can test, and what the program must see to:
 *   - a pointer that isn't NULL points to what its type says, as many items of it as the count beside it, which nothing else
 *     uses during the call; no two parameters of one call overlap;
 *   - a `reis_session` is all zero before reis_session_start, and is changed by these calls alone. It may be moved to
 *     another place, and then the old word is not used any more: two copies of one word, both used, are as wrong as memory
 *     that is freed twice;
 *   - what reis_session_unsent lends is read before the next call on the session, and never written.
 * Everything else is answered, and each answer but REIS_OK leaves the session as it was. A pointer may be NULL where the
 * count beside it is 0; any other NULL is answered by REIS_NULL, and then nothing is written anywhere.
 *
 * Numbers to come. A later library of the same version number but for its last part may know more kinds of requests and more
 * ends than this header: a kind that isn't named here is to be passed over, and an end that isn't named is an error.
 *
 * Linking. libreis.a and libreis.so want the C library alone. A program that has a heap of its own includes reis_heap.h.
 *
 * C11 or C++11; x86-64, with the instructions of x86-64-v2, as the processors since 2009 have them.
 */
#ifndef REIS_H
#define REIS_H

#include <stddef.h>
#include <stdint.h>
#include <string.h>

#if !defined(__x86_64__) || defined(__ILP32__)
#error "libreis is built for x86-64, with pointers of eight bytes, and for nothing else"
#endif

/* An enum of 32 bits. Any number may stand in it, also one without a name here. */
#if defined(__cplusplus) || (defined(__STDC_VERSION__) && __STDC_VERSION__ >= 202311L)
#define REIS_ENUM(name) enum name : uint32_t
#else
#define REIS_ENUM(name) enum name
#endif

/* A field of a request: it stands where a number of eight bytes would. */
#ifdef __cplusplus
#define REIS_FIELD alignas(8)
#else
#define REIS_FIELD _Alignas(8)
#endif

#ifdef __cplusplus
extern "C" {
#endif

/* ---- the version ---- */

#define REIS_VERSION_MAJOR 0
#define REIS_VERSION_MINOR 1
#define REIS_VERSION_PATCH 0

/* The version of this header as one number, and as a text. */
#define REIS_VERSION ((REIS_VERSION_MAJOR << 16) | (REIS_VERSION_MINOR << 8) | REIS_VERSION_PATCH)
#define REIS_VERSION_TEXT "0.1.0"

/* The version of the library, as a number like REIS_VERSION. */
uint32_t reis_version(void);

/* Whether the library fits this header: the first two parts of their versions are the same. A program asks it once, before
 * its first session, where the library is loaded when the program is run. */
static inline int reis_version_matches(void) {
    return reis_version() >> 8 == REIS_VERSION >> 8;
}

/* ---- what crosses ---- */

/* A session, or none where it is all zero. */
typedef struct reis_session {
    uint8_t *at;
} reis_session;

/* A connection, or none where it is all zero. */
typedef struct reis_connection {
    uint8_t *at;
} reis_connection;

/* What a call answers. Where it isn't REIS_OK, nothing changed but the counts, lengths and ids that the call says. */
typedef REIS_ENUM(reis_answer) {
    REIS_OK = 0,               /* it did what it says */
    REIS_NO_SESSION = 1,       /* there is no session or connection: none was started, or it was freed */
    REIS_HAS_SESSION = 2,      /* start: one is there already */
    REIS_CAPABILITIES = 3,     /* a bit outside REIS_ALL_CAPABILITIES, or one that the seat or the device hasn't */
    REIS_NO_MEMORY = 4,        /* memory ran out */
    REIS_OVER = 5,             /* the session or the connection is over */
    REIS_EMPTY = 6,            /* feed: no byte */
    REIS_TOO_LONG = 7,         /* feed: more than REIS_MOST_BYTES */
    REIS_TOO_MANY_HANDLES = 8, /* feed: more than REIS_MOST_HANDLES; add_device: as many would wait */
    REIS_NOTHING = 9,          /* there is no further request, no text, or no client that is known yet */
    REIS_NO_ROOM = 10,         /* the text has more bytes than there is room for */
    REIS_NOT_UNSENT = 11,      /* sent: so much doesn't wait */
    REIS_NULL = 12,            /* a pointer is NULL, and the count beside it, if it has one, isn't 0 */
    REIS_NOT_CONNECTED = 13,   /* the handshake isn't done */
    REIS_GONE = 14,            /* there is no seat or device of that id, or it is there no more */
    REIS_WRONG_ROLE = 15,      /* the client isn't a receiver */
    REIS_NO_KEYBOARD = 16,     /* a keymap for a device without a keyboard */
    REIS_MESSAGE_TOO_LONG = 17, /* a text is so long that its message would have more than 1048576 bytes */
    REIS_IDS_EXHAUSTED = 18,   /* too few ids are left */
    REIS_INVALID = 19,         /* a number or a text that stands for nothing: see the call */
    REIS_SIZE = 20             /* a struct has a size that this library doesn't know */
} reis_answer;

/* The most that reis_session_feed takes at a time, and the most bytes of the text of a request. */
enum { REIS_MOST_BYTES = 65536, REIS_MOST_HANDLES = 64, REIS_MOST_TEXT = 254 };

/* In place of the most pieces that a session takes: it takes as many as come. */
#define REIS_NO_PIECE_LIMIT 0xffffffffu

/* Bits of a mask. */
typedef REIS_ENUM(reis_capability) {
    REIS_CAPABILITY_POINTER = 1,
    REIS_CAPABILITY_POINTER_ABSOLUTE = 2,
    REIS_CAPABILITY_KEYBOARD = 4,
    REIS_CAPABILITY_TOUCH = 8,
    REIS_CAPABILITY_SCROLL = 16,
    REIS_CAPABILITY_BUTTON = 32,
    REIS_CAPABILITY_TEXT = 64,
    REIS_CAPABILITY_GESTURE = 128,
    REIS_ALL_CAPABILITIES = 255
} reis_capability;

/* What a client is: it takes input events, or it sends them. The requests with a time are those of a sender. */
typedef REIS_ENUM(reis_context_type) {
    REIS_CONTEXT_RECEIVER = 1,
    REIS_CONTEXT_SENDER = 2
} reis_context_type;

/* ---- a session ---- */

/* Starts a session in a word that is zero. Its greeting waits to be written. `serial` is the serial that the connection
 * bears at first, `capabilities` what its one seat offers, `pieces` the most pieces that it takes, where one more ends it,
 * or REIS_NO_PIECE_LIMIT.
 * REIS_OK, REIS_HAS_SESSION, REIS_CAPABILITIES, REIS_NO_MEMORY, REIS_NULL. */
reis_answer reis_session_start(reis_session *session, uint32_t serial, uint64_t capabilities, uint32_t pieces);

/* Hands in one piece of what came from the client: 1 to REIS_MOST_BYTES bytes, cut anywhere, and the numbers of the at
 * most REIS_MOST_HANDLES descriptors that came with them. A handle is a number of the program's own choice. No request of
 * a client takes a descriptor: a program may close each as it comes, and hand in no handles.
 * `time` is that of each frame that the server makes itself while it handles the piece. It is in microseconds of
 * CLOCK_MONOTONIC, as every time of this protocol.
 * REIS_OK, REIS_NO_SESSION, REIS_OVER, REIS_EMPTY, REIS_TOO_LONG, REIS_TOO_MANY_HANDLES, REIS_NULL. REIS_OK says that the
 * piece was taken; it may have ended the session: see reis_session_end. */
reis_answer reis_session_feed(reis_session *session, const uint8_t *bytes, size_t count, const uint32_t *handles,
                              size_t handle_count, uint64_t time);

/* Says that no more comes from the client, as read answers 0. The session is over then.
 * REIS_OK, REIS_NO_SESSION, REIS_OVER, REIS_NULL. */
reis_answer reis_session_end_of_input(reis_session *session);

/* Lends all bytes and handles that wait to be written to the client. They stay where they are until the next call on the
 * session, and wait until reis_session_sent counts them. The handles are to be passed with the first of the bytes. It works
 * after the end too.
 * REIS_OK, REIS_NO_SESSION, REIS_NULL. Where nothing waits, and where there is no session, the counts are 0 and the pointers
 * NULL. */
reis_answer reis_session_unsent(reis_session *session, const uint8_t **bytes, size_t *count, const uint32_t **handles,
                                size_t *handle_count);

/* Says that the first so many bytes and handles were written: they wait no more.
 * REIS_OK, REIS_NO_SESSION, REIS_NULL. REIS_NOT_UNSENT: so many don't wait, and all wait still. */
reis_answer reis_session_sent(reis_session *session, size_t bytes, size_t handles);

/* Tells who the client is, while its connection stands: what it is, and its name, without a zero behind it. The length is that
 * of the name in bytes, 0 where the client gave none. It is UTF-8, and the client's own choice.
 * REIS_OK. REIS_NO_ROOM: the name isn't written, the type and the length are. REIS_NOTHING, with type and length 0: no
 * connection stands, since the handshake isn't done, or the session is over. REIS_NO_SESSION, with type and length 0.
 * REIS_NULL. */
reis_answer reis_session_client(reis_session *session, reis_context_type *context_type, uint8_t *name, size_t room,
                                size_t *length);

/* Ends the session where it still goes on, and gives its memory back: the word is zero. What waits is lost.
 * REIS_OK, REIS_NO_SESSION, REIS_NULL. */
reis_answer reis_session_free(reis_session *session);

/* ---- requests ---- */

/* The kinds, each with the view of a reis_request that has its fields. Up to REIS_KIND_GESTURE_PINCH all but
 * REIS_KIND_DISCONNECT have a seat; all but REIS_KIND_DISCONNECT, REIS_KIND_BIND and REIS_KIND_REQUEST_DEVICE have a device.
 * REIS_KIND_FRAME and all from REIS_KIND_POINTER_MOTION to REIS_KIND_GESTURE_PINCH have a time: an input bears the time of its
 * frame, which comes right behind the inputs that belong to it. The kinds behind these come from
 * reis_connection_next_request alone, and have no device and no time. */
typedef REIS_ENUM(reis_kind) {
    REIS_KIND_DISCONNECT = 1,               /* the client ends the connection */
    REIS_KIND_BIND = 2,                     /* bind: it wants devices of these capabilities */
    REIS_KIND_DEVICE_CLOSED = 3,            /* it wants the device no more */
    REIS_KIND_REQUEST_DEVICE = 4,           /* request_device: it asks for one more device with these */
    REIS_KIND_FRAME = 5,                    /* frame: the inputs of the device before it belong together */
    REIS_KIND_READY = 6,                    /* it has taken note of the device */
    REIS_KIND_START_EMULATING = 7,          /* start_emulating: it begins to send input of the device */
    REIS_KIND_STOP_EMULATING = 8,           /* stop_emulating: it sends no more */
    REIS_KIND_POINTER_MOTION = 9,           /* pointer_motion */
    REIS_KIND_POINTER_MOTION_ABSOLUTE = 10, /* pointer_motion_absolute: in a region */
    REIS_KIND_BUTTON = 11,                  /* button */
    REIS_KIND_SCROLL_DELTA = 12,            /* scroll_delta */
    REIS_KIND_SCROLL_STOP = 13,             /* scroll_stop: scrolling stopped */
    REIS_KIND_SCROLL_CANCEL = 14,           /* scroll_cancel: it stopped, and nothing may scroll on by itself */
    REIS_KIND_SCROLL_DISCRETE = 15,         /* scroll_discrete */
    REIS_KIND_KEY = 16,                     /* key */
    REIS_KIND_TOUCH_DOWN = 17,              /* touch_down: it begins there */
    REIS_KIND_TOUCH_MOTION = 18,            /* touch_motion: it moved there */
    REIS_KIND_TOUCH_UP = 19,                /* touch_up: it ended */
    REIS_KIND_TOUCH_CANCEL = 20,            /* touch_cancel: it ended and is not to count */
    REIS_KIND_TEXT_KEYSYM = 21,             /* text_keysym */
    REIS_KIND_TEXT_UTF8 = 22,               /* text_utf8: see reis_session_request_text */
    REIS_KIND_GESTURE_SWIPE = 23,           /* gesture_swipe: fingers moved together */
    REIS_KIND_GESTURE_PINCH = 24,           /* gesture_pinch: fingers moved apart or together */
    REIS_KIND_CONNECTED = 25,               /* the handshake is done: see reis_connection_client */
    REIS_KIND_SEAT_RELEASED = 26,           /* the client wants the seat no more: see reis_connection_remove_seat */
    REIS_KIND_PONG = 27                     /* pong: the client answered a ping */
} reis_kind;

/* The views of the fields. A state is 1 where it goes down and 0 where it goes up. */
struct reis_capabilities { /* a mask of reis_capability */
    REIS_FIELD uint64_t capabilities;
};
struct reis_serial { /* the last serial of the server that the client knew of */
    REIS_FIELD uint32_t last_serial;
};
struct reis_sequence { /* the client's number of this stretch of input */
    REIS_FIELD uint32_t last_serial;
    REIS_FIELD uint32_t sequence;
};
struct reis_distance { /* in logical pixels */
    REIS_FIELD float dx;
    REIS_FIELD float dy;
};
struct reis_position { /* in logical pixels */
    REIS_FIELD float x;
    REIS_FIELD float y;
};
struct reis_button { /* a code of linux/input-event-codes.h, as BTN_LEFT */
    REIS_FIELD uint32_t button;
    REIS_FIELD uint32_t state;
};
struct reis_axes { /* 1 where the axis is meant, and 0 where it isn't */
    REIS_FIELD uint32_t x;
    REIS_FIELD uint32_t y;
};
struct reis_clicks { /* a click of a wheel is 120 */
    REIS_FIELD int32_t dx;
    REIS_FIELD int32_t dy;
};
struct reis_key { /* a code of linux/input-event-codes.h, as KEY_A */
    REIS_FIELD uint32_t key;
    REIS_FIELD uint32_t state;
};
struct reis_touch { /* the client's number of the touch, and a position in logical pixels */
    REIS_FIELD uint32_t touch_id;
    REIS_FIELD float x;
    REIS_FIELD float y;
};
struct reis_touch_end { /* the client's number of the touch */
    REIS_FIELD uint32_t touch_id;
};
struct reis_keysym { /* a keysym, by its number in XKB */
    REIS_FIELD uint32_t keysym;
    REIS_FIELD uint32_t state;
};
struct reis_text { /* in bytes, 1 to REIS_MOST_TEXT */
    REIS_FIELD uint64_t length;
};
struct reis_swipe { /* how many fingers, and a distance in logical pixels */
    REIS_FIELD uint32_t fingers;
    REIS_FIELD float dx;
    REIS_FIELD float dy;
};
struct reis_pinch { /* how far apart the fingers are, against where they began */
    REIS_FIELD float scale;
};
struct reis_pong { /* the id that reis_connection_ping told, and a number of the client's choice */
    REIS_FIELD uint64_t ping;
    REIS_FIELD uint64_t callback_data;
};

/* What a client asks for. `seat` and `device` are ids, told apart by their numbers; 0 where the kind has none. `time` is in
 * microseconds, as the client sent it in its frame; 0 where the kind has none. The fields stand in the order of the view, and
 * those that the kind hasn't are 0. */
typedef struct reis_request {
    reis_kind kind;
    uint64_t seat;
    uint64_t device;
    uint64_t time;
    union {
        uint64_t fields[4];
        struct reis_capabilities bind;
        struct reis_capabilities request_device;
        struct reis_serial frame;
        struct reis_sequence start_emulating;
        struct reis_serial stop_emulating;
        struct reis_distance pointer_motion;
        struct reis_position pointer_motion_absolute;
        struct reis_button button;
        struct reis_distance scroll_delta;
        struct reis_axes scroll_stop;
        struct reis_axes scroll_cancel;
        struct reis_clicks scroll_discrete;
        struct reis_key key;
        struct reis_touch touch_down;
        struct reis_touch touch_motion;
        struct reis_touch_end touch_up;
        struct reis_touch_end touch_cancel;
        struct reis_keysym text_keysym;
        struct reis_text text_utf8;
        struct reis_swipe gesture_swipe;
        struct reis_pinch gesture_pinch;
        struct reis_pong pong;
    };
} reis_request;

/* What the library takes these to be. A compiler that makes enums smaller than an int is told so here. */
#ifdef __cplusplus
static_assert(sizeof(reis_kind) == 4 && sizeof(reis_request) == 64, "enums have four bytes, and a request has 64");
#else
_Static_assert(sizeof(reis_kind) == 4 && sizeof(reis_request) == 64, "enums have four bytes, and a request has 64");
#endif

/* For who reads `fields`: a field that is a distance or a position. */
static inline float reis_float(uint64_t field) {
    uint32_t bits = (uint32_t)field;
    float number;
    memcpy(&number, &bits, sizeof number);
    return number;
}

/* For who reads `fields`: a field that is a number of steps with a sign. */
static inline int32_t reis_steps(uint64_t field) {
    uint32_t bits = (uint32_t)field;
    int32_t number;
    memcpy(&number, &bits, sizeof number);
    return number;
}

/* Hands out the next request, which waits no more, in the order in which the client made them. It works after the end too.
 * REIS_OK, REIS_NO_SESSION, REIS_NOTHING, REIS_NULL; where it isn't REIS_OK the request isn't written. */
reis_answer reis_session_next_request(reis_session *session, reis_request *request);

/* Writes the text of the request that was handed out last, without a zero behind it, and tells its length in bytes. It is
 * UTF-8. It can be asked again until the next request is handed out.
 * REIS_OK. REIS_NO_ROOM: nothing is written, and the length is that of the text. REIS_NOTHING, with length 0: that request
 * has no text, or none was handed out. REIS_NO_SESSION, with length 0. REIS_NULL. */
reis_answer reis_session_request_text(reis_session *session, uint8_t *text, size_t room, size_t *length);

/* ---- the end ---- */

/* How a session or a connection ended. */
typedef REIS_ENUM(reis_end) {
    REIS_END_GOES_ON = 0,         /* it didn't */
    REIS_END_DISCONNECTED = 1,    /* the client disconnected */
    REIS_END_END_OF_INPUT = 2,    /* no more came, after the handshake */
    REIS_END_TOLD = 3,            /* the client was told so, by reis_connection_disconnect, or since REIS_STRICT ends it */

    /* errors */
    REIS_END_ERROR_UNEXPECTED_EOF = 10,             /* no more came, before the connection */
    REIS_END_ERROR_PIECE_LIMIT = 11,                /* more pieces came than the session takes */
    REIS_END_ERROR_HANDLE_LIMIT = 12,               /* more than 4096 handles would be unread */
    REIS_END_ERROR_NO_MEMORY = 13,                  /* memory ran out */
    REIS_END_ERROR_IDS_EXHAUSTED = 14,              /* no id is left for a new object */
    REIS_END_ERROR_INVALID_INTERFACE_VERSION = 15,  /* an object has a version that doesn't serve */
    REIS_END_ERROR_UNEXPECTED_HANDSHAKE_EVENT = 16, /* never */
    REIS_END_ERROR_READ_FAULT = 17,                 /* never: the program reads */
    REIS_END_ERROR_WRITE_FAULT = 18,                /* never: the program writes */
    REIS_END_ERROR_MESSAGE_TOO_LONG = 19,           /* never */

    /* errors of the handshake */
    REIS_END_HANDSHAKE_INVALID_OBJECT = 20,         /* a message to an object that isn't the handshake */
    REIS_END_HANDSHAKE_NON_HANDSHAKE_EVENT = 21,    /* never */
    REIS_END_HANDSHAKE_MISSING_INTERFACE = 22,      /* the client lacks an interface that each session needs */
    REIS_END_HANDSHAKE_DUPLICATE_EVENT = 23,        /* the name or the context type came twice */

    /* a request that doesn't fit the state */
    REIS_END_REQUEST_INVALID_CAPABILITIES = 30,     /* the mask has a bit that the seat doesn't offer */
    REIS_END_REQUEST_DUPLICATED_TOUCH_DOWN = 31,    /* a touch that is down goes down */
    REIS_END_REQUEST_TOO_MANY_TOUCHES = 32,         /* sixteen touches are down, and one more goes down */
    REIS_END_REQUEST_INVALID_TEXT_LENGTH = 33,      /* the text has no bytes, or more than 254 */

    /* a message that can't be read */
    REIS_END_PARSE_END_OF_MESSAGE = 40,             /* it ends inside an argument */
    REIS_END_PARSE_UTF8 = 41,                       /* a text isn't UTF-8 */
    REIS_END_PARSE_INVALID_ID = 42,                 /* the client may not give this id to a new object */
    REIS_END_PARSE_NO_FD = 43,                      /* no handle came with it */
    REIS_END_PARSE_INVALID_OPCODE = 44,             /* the interface has no message of this opcode */
    REIS_END_PARSE_INVALID_VARIANT = 45,            /* an enum has no such value */
    REIS_END_PARSE_INVALID_INTERFACE = 46,          /* no interface has this name */
    REIS_END_PARSE_HEADER_LENGTH = 47,              /* the header's length is below 16 or above 1048576 */
    REIS_END_PARSE_MESSAGE_LENGTH = 48,             /* bytes are left over behind the arguments */
    REIS_END_PARSE_INVALID_NULL = 49,               /* a text that must be there is null */
    REIS_END_PARSE_NO_MEMORY = 50,                  /* never: REIS_END_ERROR_NO_MEMORY */

    /* an event that doesn't fit the state: never, since a server is sent none */
    REIS_END_EVENT_DEVICE_EVENT_BEFORE_DONE = 60,
    REIS_END_EVENT_DEVICE_SETUP_EVENT_AFTER_DONE = 61,
    REIS_END_EVENT_SEAT_SETUP_EVENT_AFTER_DONE = 62,
    REIS_END_EVENT_SEAT_EVENT_BEFORE_DONE = 63,
    REIS_END_EVENT_NO_DEVICE_TYPE = 64,
    REIS_END_EVENT_UNEXPECTED_HANDSHAKE_EVENT = 65,
    REIS_END_EVENT_UNKNOWN_CAPABILITY_INTERFACE = 66
} reis_end;

/* Tells in `end` how the session ended, or REIS_END_GOES_ON.
 * REIS_OK. REIS_NO_SESSION, with `end` REIS_END_GOES_ON. REIS_NULL. */
reis_answer reis_session_end(reis_session *session, reis_end *end);

/* Writes the text of the error that ended the session, without a zero behind it, and tells its length in bytes. It is UTF-8;
 * the name of an interface in it is the client's.
 * REIS_OK. REIS_NO_ROOM: nothing is written, and the length is that of the text. REIS_NOTHING, with length 0: no error ended
 * it. REIS_NO_MEMORY, with length 0. REIS_NO_SESSION, with length 0. REIS_NULL. */
reis_answer reis_session_end_text(reis_session *session, uint8_t *text, size_t room, size_t *length);

/* ---- a connection ----
 *
 * A client's connection, without a policy but for what REIS_STRICT refuses:
 *
 *     reis_connection connection = {0};
 *     reis_connection_start(&connection, serial, REIS_STRICT);
 *     at each turn of the loop:
 *         act on each request that reis_connection_next_request hands out, until it answers REIS_NOTHING;
 *         once reis_connection_client answers REIS_OK: add seats, and devices where the client binds;
 *         write what reis_connection_unsent lends, and say with reis_connection_sent how much of it the socket took;
 *         reis_connection_end tells whether it is over: then close the socket and call reis_connection_free;
 *         read from the socket, and call reis_connection_feed, or reis_connection_end_of_input where nothing more comes.
 *
 * Seats and devices have ids, which the calls that add them tell; an id isn't given twice by one connection, and is nothing to
 * another one. Where the client disconnects all seats and devices are gone. Each call that tells the client something only makes
 * bytes that wait: it answers REIS_NOT_CONNECTED before the handshake is done and REIS_OVER once the connection is over.
 * A text is UTF-8, and has a pointer and a count of bytes, with no zero behind it; where the count is 0 there is none. */

/* A flag of reis_connection_start, for a server that is as strict as libeis where the protocol leaves open what is refused of a client.
 * With it reis_connection_next_request judges each start_emulating, stop_emulating, frame and input by what is so when it is
 * called. A device is paused until reis_connection_resume, and from reis_connection_pause on. The client emulates on it from the
 * start_emulating that was handed out to its stop_emulating, or to the next of those two calls, behind which no key and no button of
 * it is down. These are dropped:
 *   - all of them that are of a paused device, and each request, of whatever kind, of a device that was taken away;
 *   - a key or a button that goes down where it is down, or up where it isn't.
 * These end the client, which is told so as by reis_connection_disconnect, with REIS_REASON_PROTOCOL and the text that stands here:
 *   - "input without start_emulating": an input or a frame of a device that isn't paused, on which the client doesn't emulate;
 *   - "start_emulating while emulating", and "stop_emulating without start_emulating", of a device that isn't paused;
 *   - "events of a receiver": each of them from a receiver, also of a paused device.
 * All else is handed out, as all is without the flag. */
#define REIS_STRICT 1u

/* Starts a connection in a word that is zero. Its greeting waits to be written. `serial` is the one that it bears at first. `flags`
 * is 0 or REIS_STRICT.
 * REIS_OK, REIS_HAS_SESSION, REIS_NO_MEMORY, REIS_NULL. REIS_INVALID: another flag. */
reis_answer reis_connection_start(reis_connection *connection, uint32_t serial, uint32_t flags);

/* As reis_session_feed: one piece of what came from the client. REIS_OK says that it was taken; it may have ended the
 * connection: see reis_connection_end. What the client asks waits as requests, and nothing is done about them: a bind makes no
 * device, and a request after the client's own disconnect doesn't come.
 * REIS_OK, REIS_NO_SESSION, REIS_OVER, REIS_EMPTY, REIS_TOO_LONG, REIS_TOO_MANY_HANDLES, REIS_NULL. */
reis_answer reis_connection_feed(reis_connection *connection, const uint8_t *bytes, size_t count, const uint32_t *handles,
                                 size_t handle_count, uint64_t time);

/* As reis_session_end_of_input.
 * REIS_OK, REIS_NO_SESSION, REIS_OVER, REIS_NULL. */
reis_answer reis_connection_end_of_input(reis_connection *connection);

/* As reis_session_unsent: all bytes and handles that wait to be written to the client, until the next call on the connection.
 * All handles are to be passed with the first of the bytes.
 * REIS_OK, REIS_NO_SESSION, REIS_NULL. Where nothing waits the counts are 0 and the pointers NULL. */
reis_answer reis_connection_unsent(reis_connection *connection, const uint8_t **bytes, size_t *count, const uint32_t **handles,
                                   size_t *handle_count);

/* Says that the first so many bytes were written, and with the first of them all handles that waited: they wait no more. Now
 * the program may close the descriptors of these handles.
 * REIS_OK, REIS_NO_SESSION, REIS_NULL. REIS_NOT_UNSENT: so many bytes don't wait, and all wait still. */
reis_answer reis_connection_sent(reis_connection *connection, size_t bytes);

/* As reis_session_next_request, but that REIS_KIND_CONNECTED comes once, before all others, as soon as the handshake is done;
 * and that REIS_KIND_SEAT_RELEASED and REIS_KIND_PONG, in their order, come only while no request waits. So a pong comes behind
 * all that the client asked before it. With REIS_STRICT it may end the client, and then hands out no request: reis_connection_end
 * tells it, and what waits is to be written. Requests behind the one that ended it come by later calls, but none of a device.
 * REIS_OK, REIS_NO_SESSION, REIS_NOTHING, REIS_NULL; where it isn't REIS_OK the request isn't written. REIS_NO_MEMORY, only with
 * REIS_STRICT: nothing is lost, and the next call goes on. */
reis_answer reis_connection_next_request(reis_connection *connection, reis_request *request);

/* As reis_session_request_text.
 * REIS_OK, REIS_NO_ROOM, REIS_NOTHING, REIS_NO_SESSION, REIS_NULL. */
reis_answer reis_connection_request_text(reis_connection *connection, uint8_t *text, size_t room, size_t *length);

/* As reis_session_client, from the handshake on, also once the connection is over.
 * REIS_OK, REIS_NO_ROOM, REIS_NOTHING, REIS_NO_SESSION, REIS_NULL. */
reis_answer reis_connection_client(reis_connection *connection, reis_context_type *context_type, uint8_t *name, size_t room,
                                   size_t *length);

/* As reis_session_end.
 * REIS_OK. REIS_NO_SESSION, with `end` REIS_END_GOES_ON. REIS_NULL. */
reis_answer reis_connection_end(reis_connection *connection, reis_end *end);

/* Why a client is told that its connection ends. Any other number is sent as it is. */
typedef REIS_ENUM(reis_reason) {
    REIS_REASON_DISCONNECTED = 0, /* the server is done */
    REIS_REASON_ERROR = 1,        /* something went wrong */
    REIS_REASON_MODE = 2,         /* the client did what its context type doesn't allow */
    REIS_REASON_PROTOCOL = 3,     /* the client broke the protocol */
    REIS_REASON_VALUE = 4,        /* the client sent a value that isn't allowed */
    REIS_REASON_TRANSPORT = 5     /* the bytes between the two failed */
} reis_reason;

/* Tells the client that the connection ends, why, and in a text for people, if there is one. All seats and devices are taken
 * away before it. The connection is over by that; where it was over, for what the client sent, the client is told all the same,
 * and reis_connection_end tells what came first.
 * REIS_OK, REIS_NO_SESSION, REIS_NOT_CONNECTED, REIS_MESSAGE_TOO_LONG, REIS_NO_MEMORY, REIS_NULL. REIS_OVER: the client was
 * told before. REIS_INVALID: the text isn't UTF-8. */
reis_answer reis_connection_disconnect(reis_connection *connection, reis_reason reason, const char *explanation, size_t length);

/* As reis_session_free.
 * REIS_OK, REIS_NO_SESSION, REIS_NULL. */
reis_answer reis_connection_free(reis_connection *connection);

/* Asks the client to answer, and tells the ping's id: REIS_KIND_PONG comes with that id once it did. Each ping is answered at
 * most once.
 * REIS_OK. Else the id is 0: REIS_NO_SESSION, REIS_OVER, REIS_NOT_CONNECTED, REIS_IDS_EXHAUSTED, REIS_NO_MEMORY. REIS_NULL. */
reis_answer reis_connection_ping(reis_connection *connection, uint64_t *ping);

/* Announces a seat of that name, if it has one, which gives these capabilities, and tells its id.
 * REIS_OK. Else the id is 0: REIS_NO_SESSION, REIS_OVER, REIS_NOT_CONNECTED, REIS_IDS_EXHAUSTED, REIS_MESSAGE_TOO_LONG,
 * REIS_NO_MEMORY. REIS_CAPABILITIES: a bit outside REIS_ALL_CAPABILITIES. REIS_INVALID: the name isn't UTF-8. REIS_NULL. */
reis_answer reis_connection_add_seat(reis_connection *connection, const char *name, size_t length, uint64_t capabilities,
                                     uint64_t *seat);

/* Takes a seat away, behind its devices.
 * REIS_OK, REIS_NO_SESSION, REIS_OVER, REIS_NOT_CONNECTED, REIS_GONE, REIS_NO_MEMORY, REIS_NULL. */
reis_answer reis_connection_remove_seat(reis_connection *connection, uint64_t seat);

/* What a device is. A virtual one has regions, and its distances are in logical pixels; a physical one has a size. */
typedef REIS_ENUM(reis_device_type) {
    REIS_DEVICE_VIRTUAL = 1,
    REIS_DEVICE_PHYSICAL = 2
} reis_device_type;

typedef REIS_ENUM(reis_keymap_type) {
    REIS_KEYMAP_NONE = 0,
    REIS_KEYMAP_XKB = 1 /* the text of a keymap, as libxkbcommon writes it */
} reis_keymap_type;

/* A region in which a device moves: its corner and its size in logical pixels, and the scale by which the client is to multiply
 * distances, else 1. Its mapping id, by which a client finds the region in what another program told it of the screen, is a part
 * of `mapping_ids` of the device: where it begins there, and how many bytes it has; where that is 0 it has none. */
typedef struct reis_region {
    uint32_t x;
    uint32_t y;
    uint32_t width;
    uint32_t height;
    float scale;
    uint32_t mapping_id;
    uint32_t mapping_id_length;
} reis_region;

/* A device as it is announced. `size` is sizeof(reis_device): a later library may know a longer one too. What is 0 isn't there.
 * `width` and `height` are in millimetres, and are not told where both are 0. The keymap is a file of `keymap_size` bytes behind
 * a descriptor, of which `keymap` is the handle. */
typedef struct reis_device {
    size_t size;
    const char *name;
    size_t name_length;
    uint64_t capabilities; /* a mask of reis_capability */
    reis_device_type type;
    uint32_t width;
    uint32_t height;
    reis_keymap_type keymap_type;
    uint32_t keymap;
    uint32_t keymap_size;
    const reis_region *regions;
    size_t region_count;
    const char *mapping_ids;
    size_t mapping_ids_length;
} reis_device;

/* Announces a device of a seat, with an interface for each of its capabilities, and tells its id. It takes no input until
 * reis_connection_resume.
 * The handle of a keymap waits with the bytes until they are written, and the program passes the descriptor that it means with
 * sendmsg. The descriptor stays the program's: it keeps it open until reis_connection_sent has counted a byte of those that
 * waited, and may close it then, unless it means to pass it again. Where the connection is freed before that, it may close it too.
 * REIS_OK. Else the id is 0: REIS_NO_SESSION, REIS_OVER, REIS_NOT_CONNECTED, REIS_IDS_EXHAUSTED, REIS_MESSAGE_TOO_LONG,
 * REIS_NO_MEMORY. REIS_GONE: there is no such seat. REIS_CAPABILITIES: a bit that the seat wasn't given. REIS_NO_KEYBOARD: a
 * keymap, but not REIS_CAPABILITY_KEYBOARD. REIS_TOO_MANY_HANDLES: more than REIS_MOST_HANDLES would wait. REIS_INVALID: a type
 * that isn't named, a text that isn't UTF-8, or a mapping id that isn't whole in `mapping_ids`. REIS_SIZE. REIS_NULL, also for a
 * pointer in the struct. */
reis_answer reis_connection_add_device(reis_connection *connection, uint64_t seat, const reis_device *described, uint64_t *device);

/* Takes a device away. What it waits for a frame to hand out is dropped.
 * REIS_OK, REIS_NO_SESSION, REIS_OVER, REIS_NOT_CONNECTED, REIS_GONE, REIS_NO_MEMORY, REIS_NULL. */
reis_answer reis_connection_remove_device(reis_connection *connection, uint64_t device);

/* Tells the client that the device takes input, and that it takes none: then no touch of it is down any more.
 * REIS_OK, REIS_NO_SESSION, REIS_OVER, REIS_NOT_CONNECTED, REIS_GONE, REIS_NO_MEMORY, REIS_NULL. */
reis_answer reis_connection_resume(reis_connection *connection, uint64_t device);
reis_answer reis_connection_pause(reis_connection *connection, uint64_t device);

/* Tells whether the device has the interface of this one capability left: 1, or 0 where it never had it or the client released it.
 * REIS_OK. Else `has` is 0: REIS_NO_SESSION; REIS_CAPABILITIES, where it isn't exactly one; REIS_GONE; REIS_NULL. */
reis_answer reis_connection_device_has(reis_connection *connection, uint64_t device, uint64_t capability, uint32_t *has);

/* Tells the client which modifiers hold on the device's keyboard, as masks, and the number of the layout. It goes to senders and
 * to receivers.
 * REIS_OK, REIS_NO_SESSION, REIS_OVER, REIS_NOT_CONNECTED, REIS_GONE, REIS_NO_MEMORY, REIS_NULL. REIS_CAPABILITIES: it has no
 * keyboard, or has it no more. */
reis_answer reis_connection_modifiers(reis_connection *connection, uint64_t device, uint32_t depressed, uint32_t locked,
                                      uint32_t latched, uint32_t group);

/* To a receiver: the device begins to send input, in the stretch of that number; it sends no more; what came since its last frame
 * belongs together, and came at that time.
 * REIS_OK, REIS_NO_SESSION, REIS_OVER, REIS_NOT_CONNECTED, REIS_WRONG_ROLE, REIS_GONE, REIS_NO_MEMORY, REIS_NULL. */
reis_answer reis_connection_start_emulating(reis_connection *connection, uint64_t device, uint32_t sequence);
reis_answer reis_connection_stop_emulating(reis_connection *connection, uint64_t device);
reis_answer reis_connection_frame(reis_connection *connection, uint64_t device, uint64_t time);

/* To a receiver: an input of a device. It is told as a request says it, of the kinds from REIS_KIND_POINTER_MOTION to
 * REIS_KIND_GESTURE_PINCH: by its kind, its device and the view of its kind. `seat` and `time` aren't read, nor what stands beside the members of the view. The
 * text is that of REIS_KIND_TEXT_UTF8, 1 to REIS_MOST_TEXT bytes, and isn't read for another kind.
 * REIS_OK, REIS_NO_SESSION, REIS_OVER, REIS_NOT_CONNECTED, REIS_WRONG_ROLE, REIS_GONE, REIS_MESSAGE_TOO_LONG, REIS_NO_MEMORY,
 * REIS_NULL. REIS_CAPABILITIES: the device has no such interface, or has it no more. REIS_INVALID: another kind, a state or an
 * axis that is neither 0 nor 1, or a text that isn't UTF-8. */
reis_answer reis_connection_send(reis_connection *connection, const reis_request *input, const char *text, size_t length);

/* ---- names ---- */

/* The name of a number, for a log: that of its constant in small letters, without REIS_, REIS_KIND_ or REIS_END_ before it, as
 * "pointer_motion". "unknown" where it has none. The text stays for good. */
const char *reis_answer_name(reis_answer answer);
const char *reis_kind_name(reis_kind kind);
const char *reis_end_name(reis_end end);

#ifdef __cplusplus
}
#endif

#endif
