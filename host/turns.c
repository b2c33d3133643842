#include "turns.h"

#include <errno.h>
#include <fcntl.h>
#include <stdbool.h>
#include <string.h>
#include <sys/file.h>
#include <sys/stat.h>
#include <time.h>
#include <unistd.h>

#include "clock.h"

/* Putting files in their places takes a moment: who waits for longer waits for something else. */
static const double patience = 10;

typedef struct {
    int file;
    struct stat is;
} folder;

static int order_of(const folder *one, const folder *other)
{
    return one->is.st_dev != other->is.st_dev   ? (one->is.st_dev < other->is.st_dev ? -1 : 1)
           : one->is.st_ino != other->is.st_ino ? (one->is.st_ino < other->is.st_ino ? -1 : 1)
                                                : 0;
}

/* All runs take folders in the same order, each once, so that no two wait for each other. */
static unsigned sort_in(folder *sorted, unsigned count, folder more)
{
    unsigned at = 0;
    while (at < count && order_of(&sorted[at], &more) < 0) {
        at++;
    }
    if (at < count && order_of(&sorted[at], &more) == 0) {
        close(more.file);
        return count;
    }
    memmove(sorted + at + 1, sorted + at, (count - at) * sizeof *sorted);
    sorted[at] = more;
    return count + 1;
}

static bool hold(int file, double until)
{
    while (flock(file, LOCK_EX | LOCK_NB) != 0) {
        struct timespec a_while = {0, 5000000};
        if (errno != EWOULDBLOCK && errno != EINTR) {
            return true; /* no locks here: nothing to hold */
        }
        if (seconds_now() >= until) {
            return false;
        }
        nanosleep(&a_while, NULL);
    }
    return true;
}

const char *take_turn(const int *folders, unsigned count, turn *taken)
{
    folder sorted[MOST_FOLDERS];
    double until = seconds_now() + patience;
    bool all = true;
    taken->count = 0;
    for (unsigned k = 0; k < count; k++) {
        folder more = {.file = openat(folders[k], ".", O_RDONLY | O_DIRECTORY | O_CLOEXEC)};
        if (more.file >= 0 && fstat(more.file, &more.is) == 0) {
            taken->count = sort_in(sorted, taken->count, more);
        }
    }
    for (unsigned k = 0; k < taken->count; k++) {
        taken->held[k] = sorted[k].file;
        all = all && hold(sorted[k].file, until);
    }
    if (!all) {
        end_turn(taken);
    }
    return all ? NULL : "another run is putting files there";
}

void end_turn(turn *taken)
{
    for (unsigned k = 0; k < taken->count; k++) {
        close(taken->held[k]);
    }
    taken->count = 0;
}
