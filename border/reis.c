/* The calls of reis.h, over the exports of the proved part.
 *
 * This file is outside the proof, and is all that stands between it and a caller in C: it answers NULL and a struct of another
 * size, gives a pointer to something where a caller may have none, and passes everything else on as it came. Nothing is
 * decided here. */
#include "exports.h"

uint32_t reis_version(void) {
    return REIS_VERSION;
}

/* Whether there is no pointer to items, though there are to be some. */
static int is_missing(const void *items, size_t count) {
    return items == NULL && count != 0;
}

/* What the exports are passed for NULL beside a count of 0. Nothing is read or written there. */
static const uint8_t no_bytes[1];
static const uint32_t no_handles[1];
static const reis_region no_regions[1];

/* The bytes of a text. */
static const uint8_t *bytes_of(const char *text) {
    return text == NULL ? no_bytes : (const uint8_t *)text;
}

/* The number of an answer, as the exports give it. */
static reis_answer answer_of(uint32_t number) {
    return (reis_answer)number;
}

/* ---- a session ---- */

reis_answer reis_session_start(reis_session *session, uint32_t serial, uint64_t capabilities, uint32_t pieces) {
    if (session == NULL)
        return REIS_NULL;
    return answer_of(reis_c_start(session, serial, capabilities, pieces));
}

reis_answer reis_session_feed(reis_session *session, const uint8_t *bytes, size_t count, const uint32_t *handles,
                              size_t handle_count, uint64_t time) {
    if (session == NULL || is_missing(bytes, count) || is_missing(handles, handle_count))
        return REIS_NULL;
    return answer_of(reis_c_feed(session, bytes == NULL ? no_bytes : bytes, count, handles == NULL ? no_handles : handles,
                                 handle_count, time));
}

reis_answer reis_session_end_of_input(reis_session *session) {
    if (session == NULL)
        return REIS_NULL;
    return answer_of(reis_c_end_of_input(session));
}

reis_answer reis_session_unsent(reis_session *session, const uint8_t **bytes, size_t *count, const uint32_t **handles,
                                size_t *handle_count) {
    const uint8_t *lent = no_bytes;
    const uint32_t *lent_handles = no_handles;
    if (session == NULL || bytes == NULL || count == NULL || handles == NULL || handle_count == NULL)
        return REIS_NULL;
    reis_answer answer = answer_of(reis_c_unsent(session, &lent, count, &lent_handles, handle_count));
    *bytes = *count == 0 ? NULL : lent;
    *handles = *handle_count == 0 ? NULL : lent_handles;
    return answer;
}

reis_answer reis_session_sent(reis_session *session, size_t bytes, size_t handles) {
    if (session == NULL)
        return REIS_NULL;
    return answer_of(reis_c_sent(session, bytes, handles));
}

/* Two exports write a number where reis.h has an enum. */
reis_answer reis_session_client(reis_session *session, reis_context_type *context_type, uint8_t *name, size_t room,
                                size_t *length) {
    uint8_t nothing[1] = {0};
    uint32_t number = 0;
    if (session == NULL || context_type == NULL || is_missing(name, room) || length == NULL)
        return REIS_NULL;
    reis_answer answer = answer_of(reis_c_client(session, &number, name == NULL ? nothing : name, room, length));
    *context_type = (reis_context_type)number;
    return answer;
}

reis_answer reis_session_free(reis_session *session) {
    if (session == NULL)
        return REIS_NULL;
    return answer_of(reis_c_free(session));
}

/* ---- requests ---- */

reis_answer reis_session_next_request(reis_session *session, reis_request *request) {
    if (session == NULL || request == NULL)
        return REIS_NULL;
    return answer_of(reis_c_next_request(session, request));
}

reis_answer reis_session_request_text(reis_session *session, uint8_t *text, size_t room, size_t *length) {
    uint8_t nothing[1] = {0};
    if (session == NULL || is_missing(text, room) || length == NULL)
        return REIS_NULL;
    return answer_of(reis_c_request_text(session, text == NULL ? nothing : text, room, length));
}

/* ---- the end ---- */

reis_answer reis_session_end(reis_session *session, reis_end *end) {
    uint32_t number = REIS_END_GOES_ON;
    if (session == NULL || end == NULL)
        return REIS_NULL;
    reis_answer answer = answer_of(reis_c_end(session, &number));
    *end = (reis_end)number;
    return answer;
}

reis_answer reis_session_end_text(reis_session *session, uint8_t *text, size_t room, size_t *length) {
    uint8_t nothing[1] = {0};
    if (session == NULL || is_missing(text, room) || length == NULL)
        return REIS_NULL;
    return answer_of(reis_c_end_text(session, text == NULL ? nothing : text, room, length));
}

/* ---- a connection ---- */

reis_answer reis_connection_start(reis_connection *connection, uint32_t serial, uint32_t flags) {
    if (connection == NULL)
        return REIS_NULL;
    return answer_of(reis_c_connection_start(connection, serial, flags));
}

reis_answer reis_connection_feed(reis_connection *connection, const uint8_t *bytes, size_t count, const uint32_t *handles,
                                 size_t handle_count, uint64_t time) {
    if (connection == NULL || is_missing(bytes, count) || is_missing(handles, handle_count))
        return REIS_NULL;
    return answer_of(reis_c_connection_feed(connection, bytes == NULL ? no_bytes : bytes, count,
                                            handles == NULL ? no_handles : handles, handle_count, time));
}

reis_answer reis_connection_end_of_input(reis_connection *connection) {
    if (connection == NULL)
        return REIS_NULL;
    return answer_of(reis_c_connection_end_of_input(connection));
}

reis_answer reis_connection_unsent(reis_connection *connection, const uint8_t **bytes, size_t *count, const uint32_t **handles,
                                   size_t *handle_count) {
    const uint8_t *lent = no_bytes;
    const uint32_t *lent_handles = no_handles;
    if (connection == NULL || bytes == NULL || count == NULL || handles == NULL || handle_count == NULL)
        return REIS_NULL;
    reis_answer answer = answer_of(reis_c_connection_unsent(connection, &lent, count, &lent_handles, handle_count));
    *bytes = *count == 0 ? NULL : lent;
    *handles = *handle_count == 0 ? NULL : lent_handles;
    return answer;
}

reis_answer reis_connection_sent(reis_connection *connection, size_t bytes) {
    if (connection == NULL)
        return REIS_NULL;
    return answer_of(reis_c_connection_sent(connection, bytes));
}

reis_answer reis_connection_next_request(reis_connection *connection, reis_request *request) {
    if (connection == NULL || request == NULL)
        return REIS_NULL;
    return answer_of(reis_c_connection_next_request(connection, request));
}

reis_answer reis_connection_request_text(reis_connection *connection, uint8_t *text, size_t room, size_t *length) {
    uint8_t nothing[1] = {0};
    if (connection == NULL || is_missing(text, room) || length == NULL)
        return REIS_NULL;
    return answer_of(reis_c_connection_request_text(connection, text == NULL ? nothing : text, room, length));
}

reis_answer reis_connection_client(reis_connection *connection, reis_context_type *context_type, uint8_t *name, size_t room,
                                   size_t *length) {
    uint8_t nothing[1] = {0};
    uint32_t number = 0;
    if (connection == NULL || context_type == NULL || is_missing(name, room) || length == NULL)
        return REIS_NULL;
    reis_answer answer = answer_of(reis_c_connection_client(connection, &number, name == NULL ? nothing : name, room, length));
    *context_type = (reis_context_type)number;
    return answer;
}

reis_answer reis_connection_end(reis_connection *connection, reis_end *end) {
    uint32_t number = REIS_END_GOES_ON;
    if (connection == NULL || end == NULL)
        return REIS_NULL;
    reis_answer answer = answer_of(reis_c_connection_end(connection, &number));
    *end = (reis_end)number;
    return answer;
}

reis_answer reis_connection_disconnect(reis_connection *connection, reis_reason reason, const char *explanation, size_t length) {
    if (connection == NULL || is_missing(explanation, length))
        return REIS_NULL;
    return answer_of(reis_c_connection_disconnect(connection, (uint32_t)reason, bytes_of(explanation), length));
}

reis_answer reis_connection_free(reis_connection *connection) {
    if (connection == NULL)
        return REIS_NULL;
    return answer_of(reis_c_connection_free(connection));
}

reis_answer reis_connection_ping(reis_connection *connection, uint64_t *ping) {
    if (connection == NULL || ping == NULL)
        return REIS_NULL;
    return answer_of(reis_c_connection_ping(connection, ping));
}

reis_answer reis_connection_add_seat(reis_connection *connection, const char *name, size_t length, uint64_t capabilities,
                                     uint64_t *seat) {
    if (connection == NULL || is_missing(name, length) || seat == NULL)
        return REIS_NULL;
    return answer_of(reis_c_connection_add_seat(connection, bytes_of(name), length, capabilities, seat));
}

reis_answer reis_connection_remove_seat(reis_connection *connection, uint64_t seat) {
    if (connection == NULL)
        return REIS_NULL;
    return answer_of(reis_c_connection_remove_seat(connection, seat));
}

/* Of a struct of another size nothing but the size is read. */
reis_answer reis_connection_add_device(reis_connection *connection, uint64_t seat, const reis_device *described, uint64_t *device) {
    if (connection == NULL || described == NULL || device == NULL)
        return REIS_NULL;
    if (described->size != sizeof *described) {
        *device = 0;
        return REIS_SIZE;
    }
    if (is_missing(described->name, described->name_length) || is_missing(described->regions, described->region_count) ||
        is_missing(described->mapping_ids, described->mapping_ids_length))
        return REIS_NULL;
    reis_c_device plain = {.capabilities = described->capabilities,
                           .type = (uint32_t)described->type,
                           .width = described->width,
                           .height = described->height,
                           .keymap_type = (uint32_t)described->keymap_type,
                           .keymap = described->keymap,
                           .keymap_size = described->keymap_size};
    return answer_of(reis_c_connection_add_device(connection, seat, &plain,
                                                  described->regions == NULL ? no_regions : described->regions,
                                                  described->region_count, bytes_of(described->mapping_ids),
                                                  described->mapping_ids_length, bytes_of(described->name),
                                                  described->name_length, device));
}

reis_answer reis_connection_remove_device(reis_connection *connection, uint64_t device) {
    if (connection == NULL)
        return REIS_NULL;
    return answer_of(reis_c_connection_remove_device(connection, device));
}

reis_answer reis_connection_resume(reis_connection *connection, uint64_t device) {
    if (connection == NULL)
        return REIS_NULL;
    return answer_of(reis_c_connection_resume(connection, device));
}

reis_answer reis_connection_pause(reis_connection *connection, uint64_t device) {
    if (connection == NULL)
        return REIS_NULL;
    return answer_of(reis_c_connection_pause(connection, device));
}

reis_answer reis_connection_device_has(reis_connection *connection, uint64_t device, uint64_t capability, uint32_t *has) {
    if (connection == NULL || has == NULL)
        return REIS_NULL;
    return answer_of(reis_c_connection_device_has(connection, device, capability, has));
}

reis_answer reis_connection_modifiers(reis_connection *connection, uint64_t device, uint32_t depressed, uint32_t locked,
                                      uint32_t latched, uint32_t group) {
    if (connection == NULL)
        return REIS_NULL;
    return answer_of(reis_c_connection_modifiers(connection, device, depressed, locked, latched, group));
}

reis_answer reis_connection_start_emulating(reis_connection *connection, uint64_t device, uint32_t sequence) {
    if (connection == NULL)
        return REIS_NULL;
    return answer_of(reis_c_connection_start_emulating(connection, device, sequence));
}

reis_answer reis_connection_stop_emulating(reis_connection *connection, uint64_t device) {
    if (connection == NULL)
        return REIS_NULL;
    return answer_of(reis_c_connection_stop_emulating(connection, device));
}

reis_answer reis_connection_frame(reis_connection *connection, uint64_t device, uint64_t time) {
    if (connection == NULL)
        return REIS_NULL;
    return answer_of(reis_c_connection_frame(connection, device, time));
}

reis_answer reis_connection_send(reis_connection *connection, const reis_request *input, const char *text, size_t length) {
    if (connection == NULL || input == NULL || is_missing(text, length))
        return REIS_NULL;
    return answer_of(reis_c_connection_send(connection, input, bytes_of(text), length));
}
