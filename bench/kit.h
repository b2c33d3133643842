// What the benchmarks share: a generator, and the timing of sides that do the same work.
#ifndef BENCH_KIT_H
#define BENCH_KIT_H

#include <stddef.h>
#include <stdint.h>

// A generator of its own, so that every run and every machine has the same work.
uint32_t any(uint32_t below);

// An octet near v, or at an edge of a rule, or any.
uint8_t octet_near(uint8_t v);

// One side of a comparison: its answer goes where no compiler can leave the call out.
typedef uint64_t side(const void *work);

// Times `count` sides on the same work, in nanoseconds a call, and lowers what is best so far. A
// round calls each as often as fills `round_ns`, at least once.
#define NO_TIME 1e18
void take_turns(side *const sides[], size_t count, const void *work, double round_ns, int rounds,
                double best[]);

// The same work with coloured layers and with grey ones, for the proved side and for one in C.
struct pair {
    side *proved, *c;
    const void *coloured, *grey;
};

// In turns, as above; of each side first coloured, then grey.
#define OF_PAIR 4
void take_pair(const struct pair *p, double round_ns, int rounds, double best[OF_PAIR]);

void print_pair(const char *name, const double best[OF_PAIR]);

// Sets times to NO_TIME.
void forget(double *times, size_t count);

#endif
