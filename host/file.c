#include "file.h"

#include <errno.h>
#include <fcntl.h>
#include <poll.h>
#include <signal.h>
#include <stdio.h>
#include <stdlib.h>
#include <string.h>
#include <sys/stat.h>
#include <unistd.h>

#include "clock.h"

enum { FIRST_ROOM = 1 << 16 };

/* What is being read; of a pipe the octets may be long in coming. */
typedef struct {
    int from;
    bool pipe;
    struct stat first; /* as it was opened */
    whole_file *file;
    size_t room;
} reading;

void hold_standard_files(void)
{
    for (int number = 0; number <= STDERR_FILENO; number++) {
        if (fcntl(number, F_GETFD) < 0 && open("/dev/null", O_RDONLY) < 0) {
            _exit(EXIT_FAILURE);
        }
    }
    signal(SIGPIPE, SIG_IGN);
    signal(SIGXFSZ, SIG_IGN);
}

/* The clock begins with the first pipe that is read. */
static double seconds_left(void)
{
    static double until;
    double now = seconds_now();
    until = until == 0 ? now + PIPE_SECONDS : until;
    return until - now;
}

/* Whether there is something to read, or its end, before time is up. */
static bool wait_for(int from)
{
    for (;;) {
        double left = seconds_left();
        struct pollfd end = {from, POLLIN, 0};
        int ready = left <= 0 ? 0 : poll(&end, 1, (int)(left * 1000) + 1);
        if (ready >= 0 || errno != EINTR) {
            return ready > 0;
        }
    }
}

/* As read() answers, but never later than the deadline; then errno is ETIMEDOUT.  A FIFO that nobody
 * has opened for writing reads as ended: it is waited for once before that is believed. */
static ssize_t read_in_time(const reading *r)
{
    bool waited = !r->pipe || r->file->length > 0;
    while (!r->pipe || seconds_left() > 0) {
        ssize_t count = read(r->from, r->file->octets + r->file->length, r->room - r->file->length);
        bool later = count < 0 ? errno == EAGAIN : count == 0 && !waited;
        if (!later && (count >= 0 || errno != EINTR)) {
            return count;
        }
        if (later && !wait_for(r->from)) {
            break;
        }
        waited = waited || later;
    }
    errno = ETIMEDOUT;
    return -1;
}

static const char *why_unread(const reading *r)
{
    static char late[64];
    if (errno != ETIMEDOUT) {
        return strerror(errno);
    }
    snprintf(late, sizeof late,
             r->file->length == 0 ? "no octets came within %d seconds"
                                  : "its octets did not all come within %d seconds",
             PIPE_SECONDS);
    return late;
}

static const char *read_octets(reading *r, size_t most)
{
    whole_file *file = r->file;
    for (bool ended = false; !ended && file->length < most;) {
        if (file->length == r->room) {
            size_t room = r->room == 0 ? FIRST_ROOM : r->room * 2;
            r->room = r->room > most / 2 || room > most ? most : room;
            uint8_t *more = realloc(file->octets, r->room);
            if (more == NULL) {
                return "there is not enough memory";
            }
            file->octets = more;
        }
        ssize_t count = read_in_time(r);
        if (count < 0) {
            return why_unread(r);
        }
        file->length += (size_t)count;
        ended = count == 0;
    }
    return NULL;
}

/* Judged once it is open, so that nothing else can take its place behind the judgement; without
 * waiting, since a FIFO would make open() wait for a writer. */
static const char *open_input(const char *name, bool plain_only, reading *r)
{
    const char *wrong_kind = plain_only ? "this is no plain file"
                                        : "this is neither a file nor a pipe";
    r->from = open(name, O_RDONLY | O_NONBLOCK | O_CLOEXEC | O_NOCTTY);
    if (r->from < 0) {
        return errno == ENXIO ? wrong_kind : strerror(errno);
    }
    if (fstat(r->from, &r->first) != 0) {
        return strerror(errno);
    }
    mode_t kind = r->first.st_mode;
    r->pipe = S_ISFIFO(kind);
    return S_ISDIR(kind)                               ? strerror(EISDIR)
           : S_ISREG(kind) || (r->pipe && !plain_only) ? NULL
                                                       : wrong_kind;
}

/* What was read of a file that was written meanwhile may be half of the old and half of the new. */
static const char *check_unchanged(const reading *r)
{
    struct stat now;
    const struct stat *first = &r->first;
    if (fstat(r->from, &now) != 0) {
        return strerror(errno);
    }
    bool same = r->pipe ||
                (now.st_size == first->st_size && now.st_mtim.tv_sec == first->st_mtim.tv_sec &&
                 now.st_mtim.tv_nsec == first->st_mtim.tv_nsec);
    return same ? NULL : "it was written while it was read";
}

static const char *read_kind(const char *name, bool plain_only, size_t most, whole_file *file)
{
    reading r = {.from = -1, .file = file};
    *file = (whole_file){NULL, 0};
    const char *why = open_input(name, plain_only, &r);
    if (why == NULL) {
        why = read_octets(&r, most);
    }
    if (why == NULL) {
        why = check_unchanged(&r);
    }
    if (r.from >= 0) {
        close(r.from);
    }
    if (why != NULL) {
        free(file->octets);
        *file = (whole_file){NULL, 0};
    }
    return why;
}

const char *read_file(const char *name, size_t most, whole_file *file)
{
    return read_kind(name, false, most, file);
}

const char *read_plain_file(const char *name, size_t most, whole_file *file)
{
    return read_kind(name, true, most, file);
}

bool same_file(const char *one, const char *other)
{
    struct stat first, second;
    return stat(one, &first) == 0 && stat(other, &second) == 0 && first.st_dev == second.st_dev &&
           first.st_ino == second.st_ino;
}

const char *standard_file(const char *name)
{
    struct stat named, standard;
    for (int number = STDOUT_FILENO; number <= STDERR_FILENO; number++) {
        if (stat(name, &named) == 0 && fstat(number, &standard) == 0 && S_ISREG(standard.st_mode) &&
            named.st_dev == standard.st_dev && named.st_ino == standard.st_ino) {
            return number == STDOUT_FILENO ? "standard output" : "standard error";
        }
    }
    return NULL;
}
