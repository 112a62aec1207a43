/* This file is compiled as C and as C++. */
#include "views.h"

/* Each is whether a field, which is a number, a distance or a count of steps, is that of the view. */
static int is(uint64_t field, uint64_t number) {
    return field == number;
}

static int is_float(uint64_t field, float number) {
    float other = reis_float(field);
    return memcmp(&other, &number, sizeof number) == 0;
}

static int is_steps(uint64_t field, int32_t number) {
    return reis_steps(field) == number;
}

/* A field more, where all of them agree. */
static int all(int count, int good) {
    return good ? count : -1;
}

/* The compiler tells where a kind is missing. */
int fields_in_view(const reis_request *request) {
    const reis_request r = *request;
    const uint64_t *f = r.fields;
    switch (r.kind) {
    case REIS_KIND_DISCONNECT:
    case REIS_KIND_DEVICE_CLOSED:
    case REIS_KIND_READY:
    case REIS_KIND_CONNECTED:
    case REIS_KIND_SEAT_RELEASED:
        return 0;
    case REIS_KIND_BIND:
        return all(1, is(f[0], r.bind.capabilities));
    case REIS_KIND_REQUEST_DEVICE:
        return all(1, is(f[0], r.request_device.capabilities));
    case REIS_KIND_FRAME:
        return all(1, is(f[0], r.frame.last_serial));
    case REIS_KIND_START_EMULATING:
        return all(2, is(f[0], r.start_emulating.last_serial) && is(f[1], r.start_emulating.sequence));
    case REIS_KIND_STOP_EMULATING:
        return all(1, is(f[0], r.stop_emulating.last_serial));
    case REIS_KIND_POINTER_MOTION:
        return all(2, is_float(f[0], r.pointer_motion.dx) && is_float(f[1], r.pointer_motion.dy));
    case REIS_KIND_POINTER_MOTION_ABSOLUTE:
        return all(2, is_float(f[0], r.pointer_motion_absolute.x) && is_float(f[1], r.pointer_motion_absolute.y));
    case REIS_KIND_BUTTON:
        return all(2, is(f[0], r.button.button) && is(f[1], r.button.state));
    case REIS_KIND_SCROLL_DELTA:
        return all(2, is_float(f[0], r.scroll_delta.dx) && is_float(f[1], r.scroll_delta.dy));
    case REIS_KIND_SCROLL_STOP:
        return all(2, is(f[0], r.scroll_stop.x) && is(f[1], r.scroll_stop.y));
    case REIS_KIND_SCROLL_CANCEL:
        return all(2, is(f[0], r.scroll_cancel.x) && is(f[1], r.scroll_cancel.y));
    case REIS_KIND_SCROLL_DISCRETE:
        return all(2, is_steps(f[0], r.scroll_discrete.dx) && is_steps(f[1], r.scroll_discrete.dy));
    case REIS_KIND_KEY:
        return all(2, is(f[0], r.key.key) && is(f[1], r.key.state));
    case REIS_KIND_TOUCH_DOWN:
        return all(3, is(f[0], r.touch_down.touch_id) && is_float(f[1], r.touch_down.x) && is_float(f[2], r.touch_down.y));
    case REIS_KIND_TOUCH_MOTION:
        return all(3, is(f[0], r.touch_motion.touch_id) && is_float(f[1], r.touch_motion.x) && is_float(f[2], r.touch_motion.y));
    case REIS_KIND_TOUCH_UP:
        return all(1, is(f[0], r.touch_up.touch_id));
    case REIS_KIND_TOUCH_CANCEL:
        return all(1, is(f[0], r.touch_cancel.touch_id));
    case REIS_KIND_TEXT_KEYSYM:
        return all(2, is(f[0], r.text_keysym.keysym) && is(f[1], r.text_keysym.state));
    case REIS_KIND_TEXT_UTF8:
        return all(1, is(f[0], r.text_utf8.length));
    case REIS_KIND_GESTURE_SWIPE:
        return all(3, is(f[0], r.gesture_swipe.fingers) && is_float(f[1], r.gesture_swipe.dx) && is_float(f[2], r.gesture_swipe.dy));
    case REIS_KIND_GESTURE_PINCH:
        return all(1, is_float(f[0], r.gesture_pinch.scale));
    case REIS_KIND_PONG:
        return all(2, is(f[0], r.pong.ping) && is(f[1], r.pong.callback_data));
    }
    return 0;
}
