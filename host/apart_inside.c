#include "apart_inside.h"

#include <linux/audit.h>
#include <linux/filter.h>
#include <linux/seccomp.h>
#include <math.h>
#include <signal.h>
#include <string.h>
#include <sys/mman.h>
#include <sys/prctl.h>
#include <sys/resource.h>
#include <sys/syscall.h>
#include <sys/time.h>
#include <unistd.h>

/* Beside what the work may take: the codecs' and the C library's own.  PIPE is the only descriptor
 * that leads anywhere. */
enum { MEMORY_BESIDE = 64 << 20, PIPE = 3 };

/* ---- What the system may be asked for ---- */

#if defined(__x86_64__)
#define MACHINE AUDIT_ARCH_X86_64
#elif defined(__aarch64__)
#define MACHINE AUDIT_ARCH_AARCH64
#endif

/* Memory that is not to be executed, the report and the end; any other call ends the process. */
static bool close_off(void)
{
#ifdef MACHINE
#define LOAD(field) BPF_STMT(BPF_LD | BPF_W | BPF_ABS, offsetof(struct seccomp_data, field))
#define IF(test, value, yes, no) BPF_JUMP(BPF_JMP | test | BPF_K, value, yes, no)
#define END(action) BPF_STMT(BPF_RET | BPF_K, SECCOMP_RET_##action)
#define ALLOW(call) IF(BPF_JEQ, call, 0, 1), END(ALLOW)
    struct sock_filter steps[] = {
        /* the numbers of calls are this machine's */
        LOAD(arch),
        IF(BPF_JEQ, MACHINE, 1, 0),
        END(KILL_PROCESS),
        LOAD(nr),
        ALLOW(SYS_brk),
        ALLOW(SYS_munmap),
        ALLOW(SYS_mremap),
        ALLOW(SYS_sysinfo),
        ALLOW(SYS_exit_group),
        /* write, to the pipe */
        IF(BPF_JEQ, SYS_write, 0, 4),
        LOAD(args[0]),
        IF(BPF_JEQ, PIPE, 0, 1),
        END(ALLOW),
        END(KILL_PROCESS),
        /* madvise, but for what would take memory from the whole machine, as root may */
        IF(BPF_JEQ, SYS_madvise, 0, 4),
        LOAD(args[2]),
        IF(BPF_JGE, MADV_HWPOISON, 1, 0),
        END(ALLOW),
        END(KILL_PROCESS),
        /* mmap, without PROT_EXEC */
        IF(BPF_JEQ, SYS_mmap, 0, 3),
        LOAD(args[2]),
        IF(BPF_JSET, PROT_EXEC, 1, 0),
        END(ALLOW),
        END(KILL_PROCESS),
    };
    struct sock_fprog filter = {sizeof steps / sizeof *steps, steps};
    return prctl(PR_SET_SECCOMP, SECCOMP_MODE_FILTER, &filter) == 0;
#else
    return false;
#endif
}

/* ---- Bounds ---- */

static void lower(int resource, rlim_t bound)
{
    struct rlimit now;
    if (getrlimit(resource, &now) == 0) {
        now.rlim_cur = now.rlim_max != RLIM_INFINITY && now.rlim_max < bound ? now.rlim_max : bound;
        now.rlim_max = now.rlim_cur;
        setrlimit(resource, &now);
    }
}

/* Whether one page more has room below a bound of the address space. */
static bool has_room_below(rlim_t bound, const struct rlimit *now)
{
    struct rlimit tried = {bound, now->rlim_max};
    size_t page = (size_t)sysconf(_SC_PAGESIZE);
    void *more = setrlimit(RLIMIT_AS, &tried) != 0
                     ? MAP_FAILED
                     : mmap(NULL, page, PROT_NONE, MAP_PRIVATE | MAP_ANONYMOUS, -1, 0);
    return more != MAP_FAILED && munmap(more, page) == 0;
}

/* The address space of this process now, in octets and to a page: found by trying bounds, since not
 * every system shows /proc. */
static rlim_t address_space(void)
{
    struct rlimit now;
    rlim_t low = 0, high = (rlim_t)1 << 56, page = (rlim_t)sysconf(_SC_PAGESIZE);
    if (getrlimit(RLIMIT_AS, &now) != 0) {
        return 0;
    }
    high = now.rlim_max < high ? now.rlim_max : high;
    while (high - low > page) {
        rlim_t middle = low + (high - low) / 2;
        *(has_room_below(middle, &now) ? &high : &low) = middle;
    }
    return high;
}

/* The processor's time ends the process by a signal: to a microsecond, and again by the second.  That
 * one kills, which tells nothing of time, and so must not come at the same tick. */
static void bound_work(const apart_bounds *bounds)
{
    double whole = floor(bounds->seconds);
    struct itimerval alarm = {
        .it_value = {(time_t)whole, (suseconds_t)((bounds->seconds - whole) * 999999) + 1}};
    lower(RLIMIT_AS, address_space() + (rlim_t)bounds->memory + MEMORY_BESIDE);
    lower(RLIMIT_CORE, 0);
    lower(RLIMIT_FSIZE, 0);
    lower(RLIMIT_NPROC, 0);
    lower(RLIMIT_CPU, (rlim_t)whole + 2);
    setitimer(ITIMER_PROF, &alarm, NULL);
}

/* ---- What the process has ---- */

/* Its own samples, between pages that end it when they are touched; null where there is no room.
 * The samples of others, which it inherited for reading, go. */
static uint8_t *own_samples(const apart_bounds *bounds, const apart_samples *samples)
{
    size_t page = (size_t)sysconf(_SC_PAGESIZE);
    size_t octets = (samples->octets + page - 1) / page * page;
    if (bounds->hidden != NULL && munmap(bounds->hidden, bounds->hidden_octets) != 0) {
        return NULL;
    }
    uint8_t *around = mmap(NULL, octets + 2 * page, PROT_NONE,
                           MAP_PRIVATE | MAP_ANONYMOUS | MAP_NORESERVE, -1, 0);
    if (around == MAP_FAILED) {
        return NULL;
    }
    void *own = mmap(around + page, samples->octets, PROT_READ | PROT_WRITE, MAP_SHARED | MAP_FIXED,
                     samples->file, 0);
    return own == MAP_FAILED ? NULL : own;
}

/* Nowhere to write words to, the pipe, and no other descriptor. */
static bool leave_only_pipe(int pipe_end, int nowhere)
{
    for (int number = 0; number < PIPE; number++) {
        if (dup2(nowhere, number) < 0) {
            return false;
        }
    }
    return dup2(pipe_end, PIPE) == PIPE && close_range(PIPE + 1, ~0u, 0) == 0;
}

static void forget_signals(void)
{
    sigset_t none;
    sigemptyset(&none);
    for (int number = 1; number < NSIG; number++) {
        signal(number, SIG_DFL);
    }
    sigprocmask(SIG_SETMASK, &none, NULL);
}

static uint8_t *shut_in(const apart_bounds *bounds, const apart_samples *samples, int pipe_end,
                        int nowhere, pid_t parent)
{
    forget_signals();
    /* an end with the parent's, whatever ends that */
    if (prctl(PR_SET_PDEATHSIG, SIGKILL) != 0 || getppid() != parent) {
        _exit(LEFT_NOT_SHUT_IN);
    }
    uint8_t *own = own_samples(bounds, samples);
    if (own == NULL) {
        _exit(LEFT_NO_ROOM);
    }
    bound_work(bounds);
    if (prctl(PR_SET_NO_NEW_PRIVS, 1, 0, 0, 0) != 0 || prctl(PR_SET_DUMPABLE, 0) != 0 ||
        !leave_only_pipe(pipe_end, nowhere) || (!bounds->no_sandbox && !close_off())) {
        _exit(bounds->no_sandbox ? LEFT_NOT_SHUT_IN : LEFT_NO_SANDBOX);
    }
    return own;
}

_Noreturn void work_inside(apart_work *work, const void *about, const apart_bounds *bounds,
                           const apart_samples *samples, const apart_letter *due, int pipe_end,
                           int nowhere, pid_t parent)
{
    apart_letter letter = *due;
    memset(&letter.report, 0, sizeof letter.report);
    uint8_t *own = shut_in(bounds, samples, pipe_end, nowhere, parent);
    work(about, own, &letter.report);
    bool sent = write(PIPE, &letter, sizeof letter) == sizeof letter;
    _exit(sent ? LEFT_DONE : LEFT_NOT_SHUT_IN);
}
