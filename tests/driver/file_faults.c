/* Loaded before the C library: file systems that can do less, and a fault or a signal at one of the
 * calls that change names or wait for the disk.
 *   NO_NAMELESS, NO_EXCHANGE  no file without a name; no two files change places
 *   AT_CALL, and FAULT or SIGNAL  the number of the call, and its errno or the signal sent before it
 *   MEANWHILE, MEANWHILE_FROM  before the second read the first file gets the octets of the second */
#include <errno.h>
#include <fcntl.h>
#include <signal.h>
#include <stdarg.h>
#include <stdio.h>
#include <stdlib.h>
#include <sys/syscall.h>
#include <unistd.h>

static int number_in(const char *name)
{
    const char *text = getenv(name);
    return text == NULL ? 0 : atoi(text);
}

/* Whether this call fails. */
static int fails(void)
{
    static int calls;
    if (++calls != number_in("AT_CALL")) {
        return 0;
    }
    if (number_in("SIGNAL") != 0) {
        kill(getpid(), number_in("SIGNAL"));
    }
    errno = number_in("FAULT");
    return errno != 0;
}

static int open_in(int folder, const char *name, int flags, mode_t mode)
{
    if ((flags & O_TMPFILE) == O_TMPFILE && number_in("NO_NAMELESS")) {
        errno = EOPNOTSUPP;
        return -1;
    }
    return (int)syscall(SYS_openat, folder, name, flags, mode);
}

int openat(int folder, const char *name, int flags, ...)
{
    va_list more;
    va_start(more, flags);
    mode_t mode = flags & (O_CREAT | O_TMPFILE) ? va_arg(more, mode_t) : 0;
    va_end(more);
    return open_in(folder, name, flags, mode);
}

int __openat_2(int folder, const char *name, int flags)
{
    return open_in(folder, name, flags, 0);
}

int fsync(int file)
{
    return fails() ? -1 : (int)syscall(SYS_fsync, file);
}

int linkat(int folder, const char *from, int other, const char *to, int flags)
{
    return fails() ? -1 : (int)syscall(SYS_linkat, folder, from, other, to, flags);
}

int renameat2(int folder, const char *from, int other, const char *to, unsigned flags)
{
    if (flags == RENAME_EXCHANGE && number_in("NO_EXCHANGE")) {
        errno = EINVAL;
        return -1;
    }
    return fails() ? -1 : (int)syscall(SYS_renameat2, folder, from, other, to, flags);
}

int renameat(int folder, const char *from, int other, const char *to)
{
    return renameat2(folder, from, other, to, 0);
}

int rename(const char *from, const char *to)
{
    return renameat2(AT_FDCWD, from, AT_FDCWD, to, 0);
}

int unlinkat(int folder, const char *name, int flags)
{
    return fails() ? -1 : (int)syscall(SYS_unlinkat, folder, name, flags);
}

int unlink(const char *name)
{
    return unlinkat(AT_FDCWD, name, 0);
}

/* A while later, since the time of a change is told in steps. */
static void write_meanwhile(const char *name, const char *from)
{
    static char octets[1 << 20];
    int source = open(from, O_RDONLY), to = open(name, O_WRONLY);
    long count;
    usleep(20000);
    while ((count = syscall(SYS_read, source, octets, sizeof octets)) > 0) {
        if (write(to, octets, (size_t)count) != count) {
            abort();
        }
    }
    close(source);
    close(to);
}

ssize_t read(int file, void *octets, size_t count)
{
    static int reads;
    const char *name = getenv("MEANWHILE"), *from = getenv("MEANWHILE_FROM");
    if (name != NULL && *from != 0 && ++reads == 2) {
        write_meanwhile(name, from);
    }
    return syscall(SYS_read, file, octets, count);
}
