/* A caller that loads the library when it is run, and has no inline code of the header: what the functions themselves answer
 * for NULL, and that a session begins and ends.
 *
 *     loaded LIBRARY */
#include "reis.h"

#include <dlfcn.h>
#include <stdio.h>
#include <string.h>

static void *library;
static unsigned failed;

static void expect(int good, const char *what) {
    failed += !good;
    if (!good)
        printf("loaded: %s\n", what);
}

/* A function of the library, into a pointer to one of its type. */
static void find(const char *name, void *function) {
    void *at = dlsym(library, name);
    expect(at != NULL, name);
    memcpy(function, &at, sizeof at);
}

static void check_version(void) {
    uint32_t (*version)(void);
    const char *(*name)(reis_kind);
    find("reis_version", &version);
    find("reis_kind_name", &name);
    expect(version() == REIS_VERSION, "the version");
    expect(strcmp(name(REIS_KIND_KEY), "key") == 0, "the name of a kind");
}

static void check_session(void) {
    reis_answer (*start)(reis_session *, uint32_t, uint64_t, uint32_t);
    reis_answer (*unsent)(reis_session *, const uint8_t **, size_t *, const uint32_t **, size_t *);
    reis_answer (*end)(reis_session *);
    reis_session session = {0};
    const uint8_t *bytes = NULL;
    const uint32_t *handles = NULL;
    size_t count = 0;
    size_t handle_count = 0;
    find("reis_session_start", &start);
    find("reis_session_unsent", &unsent);
    find("reis_session_free", &end);
    expect(start(NULL, 1, 1, 1) == REIS_NULL, "start without a session");
    expect(start(&session, 1, REIS_ALL_CAPABILITIES, REIS_NO_PIECE_LIMIT) == REIS_OK, "start");
    expect(unsent(&session, &bytes, &count, &handles, NULL) == REIS_NULL, "unsent without a count of handles");
    expect(unsent(&session, &bytes, &count, &handles, &handle_count) == REIS_OK && count == 20, "the greeting");
    expect(end(NULL) == REIS_NULL, "free without a session");
    expect(end(&session) == REIS_OK && end(&session) == REIS_NO_SESSION, "free");
}

int main(int count, char **words) {
    library = count == 2 ? dlopen(words[1], RTLD_NOW) : NULL;
    if (library == NULL) {
        fprintf(stderr, "loaded: %s\n", count == 2 ? dlerror() : "usage: loaded LIBRARY");
        return 2;
    }
    check_version();
    check_session();
    expect(dlsym(library, "reis_c_start") == NULL && dlsym(library, "rattle_alloc") == NULL, "what isn't public is seen");
    return failed == 0 ? 0 : 1;
}
