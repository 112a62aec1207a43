#include "listen.h"

#include <errno.h>
#include <stdio.h>
#include <string.h>
#include <sys/socket.h>
#include <sys/un.h>
#include <unistd.h>

/* Why there is no listener, in a line. */
static int refused(const char *path, int error) {
    const char *why = strerror(error);
    if (error == EADDRINUSE)
        why = "it is taken: a server listens there, or one that is gone left it";
    else if (error == ENOENT || error == ENOTDIR)
        why = "its folder isn't there";
    else if (error == EACCES || error == EPERM || error == EROFS)
        why = "there is no right to make it";
    else if (error == ENAMETOOLONG)
        why = "the path of a socket has at most 107 bytes";
    fprintf(stderr, "%s: %s\n", path, why);
    return -1;
}

int listen_on(const char *path) {
    struct sockaddr_un name = {.sun_family = AF_UNIX};
    if (strlen(path) >= sizeof name.sun_path)
        return refused(path, ENAMETOOLONG);
    strcpy(name.sun_path, path);
    int listener = socket(AF_UNIX, SOCK_STREAM | SOCK_CLOEXEC | SOCK_NONBLOCK, 0);
    if (listener == -1)
        return refused(path, errno);
    int error = 0;
    if (bind(listener, (struct sockaddr *)&name, sizeof name) != 0) {
        error = errno;
    } else if (listen(listener, 16) != 0) {
        error = errno;
        unlink(path);
    }
    if (error == 0)
        return listener;
    close(listener);
    return refused(path, error);
}

void listen_no_more(int listener, const char *path) {
    close(listener);
    unlink(path);
}
