/* A client on libei that receives input: it binds all that a seat gives, and shows what it is told.
 *
 *     receiver PATH */
#include "show.h"

#include <stdio.h>

static void act(struct ei_event *event) {
    if (ei_event_get_type(event) == EI_EVENT_SEAT_ADDED)
        bind_all(ei_event_get_seat(event));
}

int main(int count, char **words) {
    if (count != 2) {
        fprintf(stderr, "usage: receiver PATH\n");
        return 2;
    }
    struct ei *ei = ei_new_receiver(NULL);
    int status = run(ei, "receiver", words[1], act);
    ei_unref(ei);
    return status;
}
