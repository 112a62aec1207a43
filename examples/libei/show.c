#include "show.h"

#include <errno.h>
#include <inttypes.h>
#include <poll.h>
#include <stdio.h>
#include <string.h>
#include <time.h>
#include <unistd.h>

const enum ei_device_capability capabilities[CAPABILITIES] = {
    EI_DEVICE_CAP_POINTER, EI_DEVICE_CAP_POINTER_ABSOLUTE, EI_DEVICE_CAP_KEYBOARD,
    EI_DEVICE_CAP_TOUCH,   EI_DEVICE_CAP_SCROLL,           EI_DEVICE_CAP_BUTTON,
};

static const char *const capability_names[CAPABILITIES] = {"pointer", "pointer_absolute", "keyboard", "touch", "scroll", "button"};

void bind_all(struct ei_seat *seat) {
    ei_seat_bind_capabilities(seat, EI_DEVICE_CAP_POINTER, EI_DEVICE_CAP_POINTER_ABSOLUTE, EI_DEVICE_CAP_KEYBOARD,
                              EI_DEVICE_CAP_TOUCH, EI_DEVICE_CAP_SCROLL, EI_DEVICE_CAP_BUTTON, NULL);
}

/* ---- seats and devices ---- */

static const char *name_of(struct ei_seat *seat) {
    const char *name = ei_seat_get_name(seat);
    return name == NULL ? "without a name" : name;
}

static void show_seat(struct ei_seat *seat) {
    printf("seat %s:", name_of(seat));
    for (int i = 0; i < CAPABILITIES; i++) {
        if (ei_seat_has_capability(seat, capabilities[i]))
            printf(" %s", capability_names[i]);
    }
    printf("\n");
}

/* Size and first line of the keymap, as they stand in the file that came. */
static void show_keymap(struct ei_keymap *keymap) {
    char text[32];
    ssize_t count = pread(ei_keymap_get_fd(keymap), text, sizeof text - 1, 0);
    text[count < 0 ? 0 : count] = 0;
    printf("  keymap of type %d, %zu bytes: %.*s\n", ei_keymap_get_type(keymap), ei_keymap_get_size(keymap),
           (int)strcspn(text, "\n"), text);
}

static void show_region(struct ei_region *region) {
    const char *mapping_id = ei_region_get_mapping_id(region);
    printf("  region at %" PRIu32 ",%" PRIu32 ", %" PRIu32 "x%" PRIu32 ", scale %g, mapping id %s\n", ei_region_get_x(region),
           ei_region_get_y(region), ei_region_get_width(region), ei_region_get_height(region), ei_region_get_physical_scale(region),
           mapping_id == NULL ? "none" : mapping_id);
}

static void show_device(struct ei_device *device) {
    struct ei_region *region;
    bool is_virtual = ei_device_get_type(device) == EI_DEVICE_TYPE_VIRTUAL;
    printf("device %s of seat %s, %s:", ei_device_get_name(device), name_of(ei_device_get_seat(device)),
           is_virtual ? "virtual" : "physical");
    for (int i = 0; i < CAPABILITIES; i++) {
        if (ei_device_has_capability(device, capabilities[i]))
            printf(" %s", capability_names[i]);
    }
    printf("\n");
    if (!is_virtual)
        printf("  %" PRIu32 "x%" PRIu32 " mm\n", ei_device_get_width(device), ei_device_get_height(device));
    for (size_t i = 0; (region = ei_device_get_region(device, i)) != NULL; i++)
        show_region(region);
    if (ei_device_keyboard_get_keymap(device) != NULL)
        show_keymap(ei_device_keyboard_get_keymap(device));
}

/* ---- input ---- */

static void show_fields(struct ei_event *event) {
    switch (ei_event_get_type(event)) {
    case EI_EVENT_DEVICE_START_EMULATING:
        printf(" %" PRIu32, ei_event_emulating_get_sequence(event));
        break;
    case EI_EVENT_KEYBOARD_MODIFIERS:
        printf(" depressed %" PRIu32 " latched %" PRIu32, ei_event_keyboard_get_xkb_mods_depressed(event),
               ei_event_keyboard_get_xkb_mods_latched(event));
        printf(" locked %" PRIu32 " group %" PRIu32, ei_event_keyboard_get_xkb_mods_locked(event),
               ei_event_keyboard_get_xkb_group(event));
        break;
    case EI_EVENT_POINTER_MOTION:
        printf(" %g %g", ei_event_pointer_get_dx(event), ei_event_pointer_get_dy(event));
        break;
    case EI_EVENT_POINTER_MOTION_ABSOLUTE:
        printf(" %g %g", ei_event_pointer_get_absolute_x(event), ei_event_pointer_get_absolute_y(event));
        break;
    case EI_EVENT_BUTTON_BUTTON:
        printf(" %" PRIu32 " %d", ei_event_button_get_button(event), ei_event_button_get_is_press(event));
        break;
    case EI_EVENT_SCROLL_DELTA:
        printf(" %g %g", ei_event_scroll_get_dx(event), ei_event_scroll_get_dy(event));
        break;
    case EI_EVENT_SCROLL_DISCRETE:
        printf(" %" PRId32 " %" PRId32, ei_event_scroll_get_discrete_dx(event), ei_event_scroll_get_discrete_dy(event));
        break;
    case EI_EVENT_SCROLL_STOP:
    case EI_EVENT_SCROLL_CANCEL:
        printf(" %d %d", ei_event_scroll_get_stop_x(event), ei_event_scroll_get_stop_y(event));
        break;
    case EI_EVENT_KEYBOARD_KEY:
        printf(" %" PRIu32 " %d", ei_event_keyboard_get_key(event), ei_event_keyboard_get_key_is_press(event));
        break;
    case EI_EVENT_TOUCH_DOWN:
    case EI_EVENT_TOUCH_MOTION:
        printf(" %" PRIu32 " at %g %g", ei_event_touch_get_id(event), ei_event_touch_get_x(event), ei_event_touch_get_y(event));
        break;
    case EI_EVENT_TOUCH_UP:
        printf(" %" PRIu32 "%s", ei_event_touch_get_id(event), ei_event_touch_get_is_cancel(event) ? " cancelled" : "");
        break;
    default:
        break;
    }
}

/* Whether libei gives the event a time: that of its frame. */
static bool has_time(enum ei_event_type type) {
    return type == EI_EVENT_FRAME || type >= EI_EVENT_POINTER_MOTION;
}

void show(struct ei_event *event) {
    enum ei_event_type type = ei_event_get_type(event);
    struct ei_device *device = ei_event_get_device(event);
    if (type == EI_EVENT_SEAT_ADDED) {
        show_seat(ei_event_get_seat(event));
    } else if (type == EI_EVENT_DEVICE_ADDED) {
        show_device(device);
    } else {
        printf("%s", ei_event_type_to_string(type) + strlen("EI_EVENT_"));
        if (device != NULL)
            printf(" %s", ei_device_get_name(device));
        else if (type == EI_EVENT_SEAT_REMOVED)
            printf(" %s", name_of(ei_event_get_seat(event)));
        show_fields(event);
        if (has_time(type))
            printf(", %" PRIu64, ei_event_get_time(event));
        printf("\n");
    }
}

/* ---- the loop ---- */

static void show_warning(struct ei *ei, enum ei_log_priority priority, const char *message, struct ei_log_context *context) {
    (void)ei, (void)context;
    printf("libei: %s: %s\n", priority == EI_LOG_PRIORITY_WARNING ? "warning" : "error", message);
}

static long now(void) {
    struct timespec time;
    clock_gettime(CLOCK_MONOTONIC, &time);
    return time.tv_sec * 1000 + time.tv_nsec / 1000000;
}

/* All events that are there. Whether the connection goes on. */
static bool take(struct ei *ei, void (*act)(struct ei_event *event)) {
    bool goes_on = true;
    struct ei_event *event;
    ei_dispatch(ei);
    while ((event = ei_get_event(ei)) != NULL) {
        goes_on = goes_on && ei_event_get_type(event) != EI_EVENT_DISCONNECT;
        show(event);
        act(event);
        ei_event_unref(event);
    }
    fflush(stdout);
    return goes_on;
}

int run(struct ei *ei, const char *name, const char *path, void (*act)(struct ei_event *event)) {
    long end = now() + 10000;
    ei_log_set_handler(ei, show_warning);
    ei_log_set_priority(ei, EI_LOG_PRIORITY_WARNING);
    ei_configure_name(ei, name);
    int refused = ei_setup_backend_socket(ei, path);
    if (refused != 0) {
        fprintf(stderr, "%s: %s\n", path, strerror(-refused));
        return 1;
    }
    struct pollfd polled = {.fd = ei_get_fd(ei), .events = POLLIN};
    while (take(ei, act)) {
        long left = end - now();
        if (left <= 0 || (poll(&polled, 1, (int)left) < 0 && errno != EINTR)) {
            fprintf(stderr, "no end\n");
            return 1;
        }
    }
    return 0;
}
