/* A path that a server listens on. */
#ifndef LISTEN_H
#define LISTEN_H

/* A socket that listens on the path; -1 where there is none, and then the path is as it was, and standard error has a line on
 * why. */
int listen_on(const char *path);

/* Closes it, and removes its path. */
void listen_no_more(int listener, const char *path);

#endif
