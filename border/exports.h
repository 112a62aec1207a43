/* What the proved part of the library exports: crates/reis_c/src/exports.rt and connection_exports.rt, as C declares it. Here no pointer may be NULL. */
#ifndef EXPORTS_H
#define EXPORTS_H

#include "reis.h"

uint32_t reis_c_start(reis_session *session, uint32_t serial, uint64_t capabilities, uint32_t pieces);
uint32_t reis_c_feed(reis_session *session, const uint8_t *bytes, size_t count, const uint32_t *handles, size_t handle_count,
                     uint64_t time);
uint32_t reis_c_end_of_input(reis_session *session);
uint32_t reis_c_unsent(reis_session *session, const uint8_t **bytes, size_t *count, const uint32_t **handles,
                       size_t *handle_count);
uint32_t reis_c_sent(reis_session *session, size_t bytes, size_t handles);
uint32_t reis_c_client(reis_session *session, uint32_t *context_type, uint8_t *name, size_t room, size_t *length);
uint32_t reis_c_free(reis_session *session);
uint32_t reis_c_next_request(reis_session *session, reis_request *request);
uint32_t reis_c_request_text(reis_session *session, uint8_t *text, size_t room, size_t *length);
uint32_t reis_c_end(reis_session *session, uint32_t *end);
uint32_t reis_c_end_text(reis_session *session, uint8_t *text, size_t room, size_t *length);

/* A device without its pointers, as the exports take it. */
typedef struct reis_c_device {
    uint64_t capabilities;
    uint32_t type;
    uint32_t width;
    uint32_t height;
    uint32_t keymap_type;
    uint32_t keymap;
    uint32_t keymap_size;
} reis_c_device;

uint32_t reis_c_connection_start(reis_connection *connection, uint32_t serial, uint32_t flags);
uint32_t reis_c_connection_feed(reis_connection *connection, const uint8_t *bytes, size_t count, const uint32_t *handles,
                                size_t handle_count, uint64_t time);
uint32_t reis_c_connection_end_of_input(reis_connection *connection);
uint32_t reis_c_connection_unsent(reis_connection *connection, const uint8_t **bytes, size_t *count, const uint32_t **handles,
                                  size_t *handle_count);
uint32_t reis_c_connection_sent(reis_connection *connection, size_t bytes);
uint32_t reis_c_connection_next_request(reis_connection *connection, reis_request *request);
uint32_t reis_c_connection_request_text(reis_connection *connection, uint8_t *text, size_t room, size_t *length);
uint32_t reis_c_connection_client(reis_connection *connection, uint32_t *context_type, uint8_t *name, size_t room, size_t *length);
uint32_t reis_c_connection_end(reis_connection *connection, uint32_t *end);
uint32_t reis_c_connection_disconnect(reis_connection *connection, uint32_t reason, const uint8_t *text, size_t length);
uint32_t reis_c_connection_free(reis_connection *connection);
uint32_t reis_c_connection_ping(reis_connection *connection, uint64_t *ping);
uint32_t reis_c_connection_add_seat(reis_connection *connection, const uint8_t *name, size_t length, uint64_t capabilities,
                                    uint64_t *seat);
uint32_t reis_c_connection_remove_seat(reis_connection *connection, uint64_t seat);
uint32_t reis_c_connection_add_device(reis_connection *connection, uint64_t seat, const reis_c_device *described,
                                      const reis_region *regions, size_t region_count, const uint8_t *mapping_ids,
                                      size_t mapping_ids_length, const uint8_t *name, size_t name_length, uint64_t *device);
uint32_t reis_c_connection_remove_device(reis_connection *connection, uint64_t device);
uint32_t reis_c_connection_resume(reis_connection *connection, uint64_t device);
uint32_t reis_c_connection_pause(reis_connection *connection, uint64_t device);
uint32_t reis_c_connection_device_has(reis_connection *connection, uint64_t device, uint64_t capability, uint32_t *has);
uint32_t reis_c_connection_modifiers(reis_connection *connection, uint64_t device, uint32_t depressed, uint32_t locked,
                                     uint32_t latched, uint32_t group);
uint32_t reis_c_connection_start_emulating(reis_connection *connection, uint64_t device, uint32_t sequence);
uint32_t reis_c_connection_stop_emulating(reis_connection *connection, uint64_t device);
uint32_t reis_c_connection_frame(reis_connection *connection, uint64_t device, uint64_t time);
uint32_t reis_c_connection_send(reis_connection *connection, const reis_request *input, const uint8_t *text, size_t length);

#endif
