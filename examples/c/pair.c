/* Tests of a server's connection over a socket pair: the worked sessions in odd cuts, with replies that are taken a few bytes
 * at a time, and two at once.
 *
 *     pair SESSION .. */
#include "check.h"
#include "play.h"

/* ---- the worked sessions ---- */

static const size_t cuts[] = {1, 3, 7, 16, 29, 41, 143, MOST_WORKED};
static const size_t takes[] = {1, 5, 17, MOST_WORKED};

static void play_whole(const struct worked *worked, size_t cut, size_t take) {
    static struct play play;
    checking(worked->name, cut, take);
    begin(&play, worked, cut, take);
    for (int turns = 0; turns < MOST_TURNS && turn(&play); turns++)
        CHECK(is_front(&play));
    finish(&play);
}

static void test_worked(const struct worked *worked) {
    for (size_t i = 0; i < sizeof cuts / sizeof cuts[0]; i++) {
        for (size_t j = 0; j < sizeof takes / sizeof takes[0]; j++)
            play_whole(worked, cuts[i], takes[j]);
    }
}

/* Two sessions, turn by turn. */
static void test_two(const struct worked *one, const struct worked *other) {
    static struct play first, second;
    checking(one->name, 3, 5);
    begin(&first, one, 3, 5);
    begin(&second, other, 7, 2);
    bool more = true;
    for (int turns = 0; turns < MOST_TURNS && more; turns++) {
        more = turn(&first);
        more = turn(&second) || more;
    }
    finish(&first);
    checking(other->name, 7, 2);
    finish(&second);
}

/* ---- all ---- */

int main(int word_count, char **words) {
    static struct worked sessions[MOST_SESSIONS];
    size_t count = load_all(sessions, word_count - 1, words + 1);
    for (size_t i = 0; i < count; i++) {
        test_worked(&sessions[i]);
        for (size_t j = 0; j < count; j++)
            test_two(&sessions[i], &sessions[j]);
    }
    return checked("pair");
}
