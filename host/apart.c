#include "apart.h"

#include <errno.h>
#include <fcntl.h>
#include <poll.h>
#include <signal.h>
#include <string.h>
#include <sys/mman.h>
#include <sys/prctl.h>
#include <sys/random.h>
#include <sys/resource.h>
#include <sys/wait.h>
#include <time.h>
#include <unistd.h>

#include "apart_inside.h"
#include "clock.h"

/* How long the file of samples may stay busy after its writer has ended: a look at that process by
 * another keeps its memory for a moment. */
static const double seal_seconds = 1;

#ifndef MFD_NOEXEC_SEAL
#define MFD_NOEXEC_SEAL 8U /* no data is ever a program; some systems insist on it */
#endif

enum { SLICE = 20 }; /* milliseconds between two looks at the process */

/* The pipe's content so far: a report is read into, and one octet more shows what is too long. */
typedef struct {
    uint8_t octets[sizeof(apart_letter) + 1];
    size_t length;
    bool ended;
} apart_mail;

static void rest(long nanoseconds)
{
    struct timespec a_while = {0, nanoseconds};
    nanosleep(&a_while, NULL);
}

static void take_mail(int pipe_end, int milliseconds, apart_mail *mail)
{
    struct pollfd end = {pipe_end, POLLIN, 0};
    if (mail->ended || mail->length == sizeof mail->octets) {
        rest(100000);
        return;
    }
    if (poll(&end, 1, milliseconds) > 0) {
        ssize_t count = read(pipe_end, mail->octets + mail->length,
                             sizeof mail->octets - mail->length);
        mail->length += count > 0 ? (size_t)count : 0;
        mail->ended = count == 0;
    }
}

/* Whether the process ended by itself; it is gone afterwards, whatever it did. */
static bool await(pid_t worker, int pipe_end, double clock, apart_mail *mail, int *status,
                  double *spent)
{
    double until = seconds_now() + clock;
    struct rusage used = {.ru_utime = {0, 0}};
    bool in_time = true;
    while (wait4(worker, status, WNOHANG, &used) == 0) {
        take_mail(pipe_end, SLICE, mail);
        in_time = in_time && seconds_now() < until;
        if (!in_time || mail->length == sizeof mail->octets) {
            kill(worker, SIGKILL);
        }
    }
    take_mail(pipe_end, 0, mail);
    *spent = seconds_used(&used);
    return in_time;
}

/* What became of the process.  It is believed only where all fits: its letter is whole and has the
 * token, and it ended as no library ends a program. */
static apart_end judge(bool in_time, int status, const apart_mail *mail, const apart_letter *due,
                       apart_report *report)
{
    int killer = WIFSIGNALED(status) ? WTERMSIG(status) : 0;
    int left = WIFEXITED(status) ? WEXITSTATUS(status) : -1;
    apart_letter letter;
    if (!in_time) {
        return APART_TOO_LATE;
    }
    if (killer == SIGPROF || killer == SIGXCPU) {
        return APART_TOO_SLOW;
    }
    if (killer == SIGSYS) {
        return APART_FORBIDDEN;
    }
    if (left == LEFT_NO_SANDBOX || left == LEFT_NO_ROOM) {
        return left == LEFT_NO_ROOM ? APART_NO_ROOM : APART_NO_SANDBOX;
    }
    if (left != LEFT_DONE || mail->length != sizeof letter) {
        return APART_BROKE_OFF;
    }
    memcpy(&letter, mail->octets, sizeof letter);
    if (memcmp(letter.token, due->token, sizeof letter.token) != 0) {
        return APART_BROKE_OFF;
    }
    *report = letter.report;
    report->words[APART_WORDS - 1] = 0;
    return APART_DONE;
}

/* The system seals the file only where no process can write it any more. */
static bool seal(int file)
{
    double until = seconds_now() + seal_seconds;
    while (fcntl(file, F_ADD_SEALS, F_SEAL_WRITE | F_SEAL_GROW | F_SEAL_SHRINK | F_SEAL_SEAL) !=
           0) {
        if (errno != EBUSY || seconds_now() >= until) {
            return false;
        }
        rest(1000000);
    }
    return true;
}

/* A bound on files holds for this one too, and is told by the call that fails. */
static int make_file(size_t octets)
{
    signal(SIGXFSZ, SIG_IGN);
    unsigned kind = MFD_CLOEXEC | MFD_ALLOW_SEALING;
    int file = memfd_create("samples", kind | MFD_NOEXEC_SEAL);
    if (file < 0 && errno == EINVAL) { /* a kernel before 6.3 */
        file = memfd_create("samples", kind);
    }
    if (file >= 0 && ftruncate(file, (off_t)octets) != 0) {
        int why = errno;
        close(file);
        errno = why;
        return -1;
    }
    return file;
}

static void close_keeping_errno(int file)
{
    int why = errno;
    if (file >= 0) {
        close(file);
    }
    errno = why;
}

static apart_end work_in_process(apart_work *work, const void *about, const apart_bounds *bounds,
                                 apart_samples *samples, apart_report *report)
{
    int ends[2], status = 0, nowhere = open("/dev/null", O_RDWR | O_CLOEXEC);
    apart_letter due = {.token = {0}};
    apart_mail mail = {.length = 0};
    if (nowhere < 0 || getrandom(due.token, sizeof due.token, 0) != sizeof due.token ||
        pipe2(ends, O_CLOEXEC) != 0) {
        close_keeping_errno(nowhere);
        return APART_NOT_STARTED;
    }
    signal(SIGCHLD, SIG_DFL);  /* where it is ignored, nobody learns how a process ended */
    prctl(PR_SET_DUMPABLE, 0); /* nor may the work, without its sandbox, trace this process */
    pid_t parent = getpid(), worker = fork();
    if (worker == 0) {
        work_inside(work, about, bounds, samples, &due, ends[1], nowhere, parent);
    }
    close_keeping_errno(ends[1]);
    close_keeping_errno(nowhere);
    apart_end end = APART_NOT_STARTED;
    if (worker > 0) {
        bool in_time = await(worker, ends[0], bounds->clock, &mail, &status, &samples->spent);
        end = judge(in_time, status, &mail, &due, report);
    }
    close_keeping_errno(ends[0]);
    return end;
}

apart_end do_apart(apart_work *work, const void *about, const apart_bounds *bounds, size_t octets,
                   apart_samples *samples, apart_report *report)
{
    *samples = (apart_samples){.file = make_file(octets), .octets = octets};
    if (samples->file < 0) {
        return APART_NOT_STARTED;
    }
    apart_end end = work_in_process(work, about, bounds, samples, report);
    if (end == APART_DONE && !seal(samples->file)) {
        end = APART_BROKE_OFF;
    }
    if (end != APART_DONE) {
        drop_samples(samples);
    }
    return end;
}

void drop_samples(apart_samples *samples)
{
    close_keeping_errno(samples->file);
    samples->file = -1;
}

/* Shared, so that not even who may trace this process writes over them (/proc/PID/mem gives it octets
 * of its own where they are not); older systems refuse to share a sealed file even for reading. */
uint8_t *map_samples(apart_samples *samples, void *at)
{
    static const int kinds[] = {MAP_SHARED, MAP_PRIVATE};
    void *mapped = MAP_FAILED;
    for (int k = 0; k < 2 && mapped == MAP_FAILED; k++) {
        mapped = mmap(at, samples->octets, PROT_READ, kinds[k] | (at == NULL ? 0 : MAP_FIXED),
                      samples->file, 0);
    }
    drop_samples(samples);
    return mapped == MAP_FAILED ? NULL : mapped;
}
