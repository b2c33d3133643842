/* Seconds, by the clock and of the processor. */
#ifndef CLOCK_H
#define CLOCK_H

#include <sys/resource.h>
#include <time.h>

/* They only go forward. */
static inline double seconds_now(void)
{
    struct timespec now;
    clock_gettime(CLOCK_MONOTONIC, &now);
    return (double)now.tv_sec + (double)now.tv_nsec / 1e9;
}

static inline double seconds_used(const struct rusage *used)
{
    return (double)(used->ru_utime.tv_sec + used->ru_stime.tv_sec) +
           (double)(used->ru_utime.tv_usec + used->ru_stime.tv_usec) / 1e6;
}

/* What this process and those that it waited for have taken of the processors. */
static inline double processor_seconds(void)
{
    struct rusage own = {.ru_utime = {0, 0}}, others = {.ru_utime = {0, 0}};
    getrusage(RUSAGE_SELF, &own);
    getrusage(RUSAGE_CHILDREN, &others);
    return seconds_used(&own) + seconds_used(&others);
}

#endif
