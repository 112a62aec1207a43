/* Tests of memory and descriptors of a server over the library's own heap: a thousand sessions, each over a socket pair, leave
 * both as they were.
 *
 *     growth SESSION .. */
#include "check.h"
#include "play.h"

#include <malloc.h>
#include <stdio.h>
#include <unistd.h>

enum { FIRST = 20, MANY = 1000, MOST_GROWTH = 512 /* kilobytes */ };

/* The bytes that are taken from malloc; 0 where the compiler's sanitizers have put another one in its place. */
static size_t taken(void) {
    return mallinfo2().uordblks;
}

/* How much of the process is in memory, in kilobytes. */
static long resident(void) {
    long pages = 0;
    FILE *file = fopen("/proc/self/statm", "r");
    CHECK(file != NULL && fscanf(file, "%*d %ld", &pages) == 1);
    if (file != NULL)
        fclose(file);
    return pages * (sysconf(_SC_PAGESIZE) / 1024);
}

/* Plays a session, whole; or so many turns of it, and then both ends are closed. */
static void play_once(const struct worked *worked, int most) {
    static struct play play;
    begin(&play, worked, 50, 50);
    int turns = 0;
    while (turns < most && turn(&play))
        turns++;
    if (turns < most) {
        finish(&play);
    } else {
        connection_close(&play.connection);
        close(play.client);
    }
}

/* Plays sessions, of which each third one breaks off. */
static void play_many(const struct worked *sessions, size_t count, int many) {
    for (int i = 0; i < many; i++)
        play_once(&sessions[(size_t)i % count], i % 3 == 2 ? i % 7 : MOST_TURNS);
}

int main(int word_count, char **words) {
    static struct worked sessions[MOST_SESSIONS];
    size_t count = load_all(sessions, word_count - 1, words + 1);
    if (count == 0)
        return 2;
    checking("growth", 0, 0);
    play_many(sessions, count, FIRST);
    size_t bytes = taken();
    size_t files = open_files();
    long before = resident();
    play_many(sessions, count, MANY);
    long after = resident();
    CHECK(taken() == bytes);
    CHECK(open_files() == files);
#ifndef __SANITIZE_ADDRESS__
    CHECK(after - before <= MOST_GROWTH);
#endif
    printf("growth: %d sessions, %ld kB more\n", MANY, after - before);
    return checked("growth");
}
