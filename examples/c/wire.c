#include "wire.h"

#include <stdarg.h>
#include <stdlib.h>
#include <string.h>

const char *const all_interfaces[] = {"ei_connection", "ei_callback", "ei_pingpong", "ei_seat", "ei_device", "ei_pointer",
    "ei_pointer_absolute", "ei_scroll", "ei_button", "ei_keyboard", "ei_touchscreen", "ei_text", "ei_x_gesture", NULL};

uint32_t version_of(const char *interface) {
    if (strcmp(interface, "ei_device") == 0)
        return 3;
    return strcmp(interface, "ei_seat") == 0 || strcmp(interface, "ei_touchscreen") == 0 ? 2 : 1;
}

static void put(struct stream *stream, const void *bytes, size_t count) {
    if (count > MOST_STREAM - stream->count)
        abort();
    memcpy(stream->bytes + stream->count, bytes, count);
    stream->count += count;
}

/* This machine's numbers are little-endian, as those of the protocol. */
static void put_word(struct stream *stream, uint32_t word) {
    put(stream, &word, sizeof word);
}

static void put_long(struct stream *stream, uint64_t number) {
    put(stream, &number, sizeof number);
}

static void put_float(struct stream *stream, float number) {
    put(stream, &number, sizeof number);
}

/* A text, one closing byte, and padding. */
static void put_text(struct stream *stream, const char *text) {
    static const uint8_t zeros[4];
    size_t length = strlen(text) + 1;
    put_word(stream, (uint32_t)length);
    put(stream, text, length);
    put(stream, zeros, (4 - length % 4) % 4);
}

void add(struct stream *stream, uint64_t object, uint32_t opcode, const char *kinds, ...) {
    va_list values;
    size_t start = stream->count;
    put_long(stream, object);
    put_word(stream, 0);
    put_word(stream, opcode);
    va_start(values, kinds);
    for (const char *kind = kinds; *kind != 0; kind++) {
        if (*kind == 'w')
            put_word(stream, va_arg(values, uint32_t));
        else if (*kind == 'f')
            put_float(stream, (float)va_arg(values, double));
        else if (*kind == 'l')
            put_long(stream, va_arg(values, uint64_t));
        else if (*kind == 't')
            put_text(stream, va_arg(values, const char *));
        else
            put_word(stream, 0);
    }
    va_end(values);
    uint32_t length = (uint32_t)(stream->count - start);
    memcpy(stream->bytes + start + 8, &length, sizeof length);
}

void add_handshake(struct stream *stream, const char *const *interfaces, uint32_t context_type, const char *name) {
    add(stream, 0, 0, "w", 1u);
    for (; *interfaces != NULL; interfaces++)
        add(stream, 0, 4, "tw", *interfaces, version_of(*interfaces));
    add(stream, 0, 2, "w", context_type);
    add(stream, 0, 3, "t", name);
    add(stream, 0, 1, "");
}

void add_welcome(struct stream *stream, const char *const *interfaces, uint32_t serial) {
    add(stream, 0, 0, "w", 1u);
    for (; *interfaces != NULL; interfaces++)
        add(stream, 0, 1, "tw", *interfaces, version_of(*interfaces));
    add(stream, 0, 2, "wlw", serial, (uint64_t)CONNECTION, 1u);
}

uint32_t word_at(const uint8_t *bytes) {
    uint32_t word;
    memcpy(&word, bytes, sizeof word);
    return word;
}

uint64_t long_at(const uint8_t *bytes) {
    uint64_t number;
    memcpy(&number, bytes, sizeof number);
    return number;
}

size_t whole_message(const uint8_t *bytes, size_t count) {
    if (count < 16)
        return 0;
    size_t length = word_at(bytes + 8);
    return length >= 16 && length <= count ? length : 0;
}
