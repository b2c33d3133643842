#define _POSIX_C_SOURCE 199309L
#include "kit.h"

#include <stdio.h>
#include <time.h>

uint32_t any(uint32_t below)
{
    static uint64_t seed = 0x9e3779b97f4a7c15u;
    seed ^= seed << 13;
    seed ^= seed >> 7;
    seed ^= seed << 17;
    return (uint32_t)(seed >> 32) % below;
}

uint8_t octet_near(uint8_t v)
{
    static const uint8_t edges[] = {0, 1, 2, 3, 4, 8, 15, 16, 63, 64, 128, 255};
    switch (any(4)) {
    case 0: return (uint8_t)(v ^ 1u << any(8));
    case 1: return (uint8_t)(v + 1 - 2 * any(2));
    case 2: return edges[any(sizeof edges)];
    default: return (uint8_t)any(256);
    }
}

static double now(void)
{
    struct timespec t;
    clock_gettime(CLOCK_MONOTONIC, &t);
    return (double)t.tv_sec * 1e9 + (double)t.tv_nsec;
}

volatile uint64_t sink;

// The mean of so many calls.
static double mean(side *f, const void *work, unsigned calls)
{
    double from = now();
    for (unsigned i = 0; i < calls; i++)
        sink = f(work);
    return (now() - from) / calls;
}

// The best of each side counts: other work on the machine slows all of them, and none makes one
// faster. Each round another side is first and the order turns round, since what a side leaves in the
// caches serves the next.
void take_turns(side *const sides[], size_t count, const void *work, double round_ns, int rounds,
                double best[])
{
    unsigned calls = 1;
    if (mean(sides[count - 1], work, 1) < round_ns)
        calls += (unsigned)(round_ns / (mean(sides[count - 1], work, 10) + 1));
    for (int i = 0; i < rounds; i++)
        for (size_t j = 0; j < count; j++) {
            size_t turn = ((size_t)i + j) % count,
                   k = i / (int)count % 2 == 0 ? turn : count - 1 - turn;
            double t = mean(sides[k], work, calls);
            best[k] = t < best[k] ? t : best[k];
        }
}

static uint64_t proved_coloured(const void *work)
{
    const struct pair *p = work;
    return p->proved(p->coloured);
}

static uint64_t proved_grey(const void *work)
{
    const struct pair *p = work;
    return p->proved(p->grey);
}

static uint64_t c_coloured(const void *work)
{
    const struct pair *p = work;
    return p->c(p->coloured);
}

static uint64_t c_grey(const void *work)
{
    const struct pair *p = work;
    return p->c(p->grey);
}

void take_pair(const struct pair *p, double round_ns, int rounds, double best[OF_PAIR])
{
    static side *const sides[OF_PAIR] = {proved_coloured, proved_grey, c_coloured, c_grey};
    take_turns(sides, OF_PAIR, p, round_ns, rounds, best);
}

void print_pair(const char *name, const double best[OF_PAIR])
{
    printf("%s: grey layers take %.2f times what coloured ones take; in C %.2f\n", name,
           best[1] / best[0], best[3] / best[2]);
}

void forget(double *times, size_t count)
{
    for (size_t k = 0; k < count; k++)
        times[k] = NO_TIME;
}
