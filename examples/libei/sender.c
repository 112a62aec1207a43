/* A client on libei that sends input: it binds all that a seat gives, and each device that is resumed sends some input of each of
 * its capabilities. It shows what it is told.
 *
 *     sender PATH [DEVICE]
 *
 * With the name of a device it closes that device once it has sent, and when it is gone binds nothing but pointers. When it gets
 * one anew it disconnects. */
#include "show.h"

#include <stdio.h>
#include <string.h>

/* linux/input-event-codes.h */
enum { LEFT_BUTTON = 0x110, KEY_OF_A = 30 };

static const char *closed;
static bool leaves;
static uint32_t sequence;
static uint64_t time;

/* ---- input: what is in a frame belongs together ---- */

static void end_frame(struct ei_device *device) {
    time += 1000;
    ei_device_frame(device, time);
}

static void point(struct ei_device *device) {
    ei_device_pointer_motion(device, 3.5, -1);
    end_frame(device);
}

static void point_absolute(struct ei_device *device) {
    ei_device_pointer_motion_absolute(device, 100.5, 100.25);
    end_frame(device);
}

static void press_button(struct ei_device *device) {
    ei_device_button_button(device, LEFT_BUTTON, true);
    end_frame(device);
    ei_device_button_button(device, LEFT_BUTTON, false);
    end_frame(device);
}

static void scroll(struct ei_device *device) {
    ei_device_scroll_delta(device, 0.5, -15);
    end_frame(device);
    ei_device_scroll_discrete(device, -120, 240);
    end_frame(device);
    ei_device_scroll_stop(device, false, true);
    ei_device_scroll_cancel(device, true, false);
    end_frame(device);
}

static void press_key(struct ei_device *device) {
    ei_device_keyboard_key(device, KEY_OF_A, true);
    end_frame(device);
    ei_device_keyboard_key(device, KEY_OF_A, false);
    end_frame(device);
}

/* Two fingers: one goes up, and one is cancelled. */
static void touch(struct ei_device *device) {
    struct ei_touch *first = ei_device_touch_new(device), *second = ei_device_touch_new(device);
    ei_touch_down(first, 10, 20);
    ei_touch_down(second, 30.5, 40);
    end_frame(device);
    ei_touch_motion(first, 11, 21);
    end_frame(device);
    ei_touch_up(first);
    ei_touch_cancel(second);
    end_frame(device);
    ei_touch_unref(first);
    ei_touch_unref(second);
}

static void send_input(struct ei_device *device) {
    static void (*const inputs[CAPABILITIES])(struct ei_device *) = {point, point_absolute, press_key, touch, scroll, press_button};
    ei_device_start_emulating(device, ++sequence);
    for (int i = 0; i < CAPABILITIES; i++) {
        if (ei_device_has_capability(device, capabilities[i]))
            inputs[i](device);
    }
    ei_device_stop_emulating(device);
}

/* ---- seats and devices ---- */

static bool is_named(struct ei_device *device) {
    return closed != NULL && strcmp(ei_device_get_name(device), closed) == 0;
}

static void resumed(struct ei_device *device) {
    if (leaves) {
        ei_disconnect(ei_device_get_context(device));
        return;
    }
    send_input(device);
    if (is_named(device))
        ei_device_close(device);
}

static void removed(struct ei_device *device) {
    if (leaves || !is_named(device))
        return;
    leaves = true;
    ei_seat_unbind_capabilities(ei_device_get_seat(device), EI_DEVICE_CAP_POINTER_ABSOLUTE, EI_DEVICE_CAP_KEYBOARD,
                                EI_DEVICE_CAP_TOUCH, EI_DEVICE_CAP_SCROLL, EI_DEVICE_CAP_BUTTON, NULL);
}

static void act(struct ei_event *event) {
    switch (ei_event_get_type(event)) {
    case EI_EVENT_SEAT_ADDED:
        bind_all(ei_event_get_seat(event));
        break;
    case EI_EVENT_DEVICE_RESUMED:
        resumed(ei_event_get_device(event));
        break;
    case EI_EVENT_DEVICE_REMOVED:
        removed(ei_event_get_device(event));
        break;
    default:
        break;
    }
}

int main(int count, char **words) {
    if (count < 2) {
        fprintf(stderr, "usage: sender PATH [DEVICE]\n");
        return 2;
    }
    closed = count > 2 ? words[2] : NULL;
    struct ei *ei = ei_new_sender(NULL);
    int status = run(ei, "sender", words[1], act);
    ei_unref(ei);
    return status;
}
