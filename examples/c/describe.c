#include "describe.h"

#include <inttypes.h>
#include <stdarg.h>
#include <stdio.h>

/* How a field is shown. */
enum form { NOTHING, NUMBER, STATE, AXIS, DISTANCE, STEPS, TEXT };

struct field {
    const char *name;
    enum form form;
};

/* The fields of each kind. */
static const struct field kinds[][3] = {
    [REIS_KIND_BIND] = {{"capabilities", NUMBER}},
    [REIS_KIND_REQUEST_DEVICE] = {{"capabilities", NUMBER}},
    [REIS_KIND_FRAME] = {{"serial", NUMBER}},
    [REIS_KIND_START_EMULATING] = {{"serial", NUMBER}, {"sequence", NUMBER}},
    [REIS_KIND_STOP_EMULATING] = {{"serial", NUMBER}},
    [REIS_KIND_POINTER_MOTION] = {{"dx", DISTANCE}, {"dy", DISTANCE}},
    [REIS_KIND_POINTER_MOTION_ABSOLUTE] = {{"x", DISTANCE}, {"y", DISTANCE}},
    [REIS_KIND_BUTTON] = {{"button", NUMBER}, {"state", STATE}},
    [REIS_KIND_SCROLL_DELTA] = {{"dx", DISTANCE}, {"dy", DISTANCE}},
    [REIS_KIND_SCROLL_STOP] = {{"x", AXIS}, {"y", AXIS}},
    [REIS_KIND_SCROLL_CANCEL] = {{"x", AXIS}, {"y", AXIS}},
    [REIS_KIND_SCROLL_DISCRETE] = {{"dx", STEPS}, {"dy", STEPS}},
    [REIS_KIND_KEY] = {{"key", NUMBER}, {"state", STATE}},
    [REIS_KIND_TOUCH_DOWN] = {{"touch", NUMBER}, {"x", DISTANCE}, {"y", DISTANCE}},
    [REIS_KIND_TOUCH_MOTION] = {{"touch", NUMBER}, {"x", DISTANCE}, {"y", DISTANCE}},
    [REIS_KIND_TOUCH_UP] = {{"touch", NUMBER}},
    [REIS_KIND_TOUCH_CANCEL] = {{"touch", NUMBER}},
    [REIS_KIND_TEXT_KEYSYM] = {{"keysym", NUMBER}, {"state", STATE}},
    [REIS_KIND_TEXT_UTF8] = {{"text", TEXT}},
    [REIS_KIND_GESTURE_SWIPE] = {{"fingers", NUMBER}, {"dx", DISTANCE}, {"dy", DISTANCE}},
    [REIS_KIND_GESTURE_PINCH] = {{"scale", DISTANCE}},
};

struct line {
    char *text;
    size_t length;
};

static void add(struct line *line, const char *format, ...) {
    va_list arguments;
    va_start(arguments, format);
    int count = vsnprintf(line->text + line->length, MOST_LINE - line->length, format, arguments);
    va_end(arguments);
    if (count > 0)
        line->length += (size_t)count < MOST_LINE - line->length ? (size_t)count : MOST_LINE - 1 - line->length;
}

/* A client's text in hexadecimal digits: it may hold what a terminal obeys. */
static void add_text(struct line *line, reis_session *session) {
    uint8_t text[REIS_MOST_TEXT];
    size_t length = 0;
    if (reis_session_request_text(session, text, sizeof text, &length) != REIS_OK)
        return;
    for (size_t i = 0; i < length; i++)
        add(line, "%02x", text[i]);
}

static void add_field(struct line *line, reis_session *session, struct field field, uint64_t value) {
    if (field.form == NOTHING)
        return;
    add(line, " %s=", field.name);
    switch (field.form) {
    case STATE:
        add(line, "%s", value == 1 ? "press" : "released");
        break;
    case AXIS:
        add(line, "%s", value == 1 ? "true" : "false");
        break;
    case DISTANCE:
        add(line, "%g", (double)reis_float(value));
        break;
    case STEPS:
        add(line, "%" PRId32, reis_steps(value));
        break;
    case TEXT:
        add_text(line, session);
        break;
    default:
        add(line, "%" PRIu64, value);
    }
}

/* Whose request it is, and when it was made. */
static void add_place(struct line *line, const reis_request *request) {
    if (request->device != 0)
        add(line, " device=%" PRIx64, request->device);
    else if (request->seat != 0)
        add(line, " seat=%" PRIx64, request->seat);
    if (request->kind == REIS_KIND_FRAME || request->kind >= REIS_KIND_POINTER_MOTION)
        add(line, " time=%" PRIu64, request->time);
}

void describe(reis_session *session, const reis_request *request, char text[MOST_LINE]) {
    struct line line = {text, 0};
    add(&line, "%s", reis_kind_name(request->kind));
    add_place(&line, request);
    if (request->kind >= sizeof kinds / sizeof kinds[0])
        return;
    for (size_t i = 0; i < 3; i++)
        add_field(&line, session, kinds[request->kind][i], request->fields[i]);
}
