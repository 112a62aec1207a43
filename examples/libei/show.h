/* What a client on libei is told, a line each. */
#ifndef SHOW_H
#define SHOW_H

#include <libei.h>

/* The capabilities that libei knows, by rising bits. */
enum { CAPABILITIES = 6 };
extern const enum ei_device_capability capabilities[CAPABILITIES];

/* Binds all of them that the seat gives. */
void bind_all(struct ei_seat *seat);

/* Shows an event, and of a seat and a device all that the server told of them. */
void show(struct ei_event *event);

/* Connects to the server on the path, and hands each event to `act`, behind its line, until the server or the client has ended the
 * connection. What libei warns of is shown too. The status to end with: 1 where there is no server, or no end in ten seconds. */
int run(struct ei *ei, const char *name, const char *path, void (*act)(struct ei_event *event));

#endif
