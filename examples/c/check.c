#include "check.h"

#include <dirent.h>
#include <stdio.h>
#include <string.h>

static unsigned long passed;
static unsigned long failed;
static const char *running = "";
static size_t running_first;
static size_t running_second;

void check(bool good, const char *what, const char *file, int line) {
    if (good) {
        passed++;
        return;
    }
    failed++;
    printf("%s:%d: %s (%s %zu %zu)\n", file, line, what, running, running_first, running_second);
}

void checking(const char *name, size_t first, size_t second) {
    running = name;
    running_first = first;
    running_second = second;
}

int checked(const char *program) {
    printf("%s: %lu passed, %lu failed\n", program, passed, failed);
    return failed == 0 && passed > 0 ? 0 : 1;
}

size_t open_files(void) {
    size_t count = 0;
    DIR *folder = opendir("/proc/self/fd");
    while (folder != NULL && readdir(folder) != NULL)
        count++;
    CHECK(folder != NULL && closedir(folder) == 0);
    return count;
}

size_t load_all(struct worked *sessions, int count, char **paths) {
    if (count < 1 || count > MOST_SESSIONS)
        return 0;
    for (int i = 0; i < count; i++) {
        if (!load_worked(&sessions[i], paths[i])) {
            printf("no worked session: %s\n", paths[i]);
            return 0;
        }
    }
    return (size_t)count;
}

const struct worked *named(const struct worked *sessions, size_t count, const char *name) {
    for (size_t i = 0; i < count; i++) {
        if (strcmp(sessions[i].name, name) == 0)
            return &sessions[i];
    }
    checking(name, 0, 0);
    CHECK(false);
    return sessions;
}
