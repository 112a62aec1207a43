/* What the tests are written with. */
#ifndef CHECK_H
#define CHECK_H

#include "worked.h"

/* Shows a test that fails. */
#define CHECK(good) check((good), #good, __FILE__, __LINE__)

void check(bool good, const char *what, const char *file, int line);

/* What the tests run on from here, which is shown where one fails. */
void checking(const char *name, size_t first, size_t second);

/* The status to end with; it shows how many tests went well. */
int checked(const char *program);

/* How many files this process has open. */
size_t open_files(void);

enum { MOST_SESSIONS = 16 };

/* Loads the sessions of these files. How many there are; 0 where one isn't as it should be. */
size_t load_all(struct worked *sessions, int count, char **paths);

/* The session of that name; the first where there is none. */
const struct worked *named(const struct worked *sessions, size_t count, const char *name);

#endif
