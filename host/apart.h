/* Work on data that strangers made, done in a process of its own that can do nothing else: it fills
 * its own samples, reports what it found, and has no other way to the outside.  Whatever becomes of
 * it, its text, its exit and its traces stay there. */
#ifndef APART_H
#define APART_H

#include <stdbool.h>
#include <stddef.h>
#include <stdint.h>

enum { APART_WORDS = 256 };

/* What the work tells of itself: what it found, the rows that it delivered, and words for people. */
typedef struct {
    uint32_t found, rows;
    char words[APART_WORDS];
} apart_report;

typedef void apart_work(const void *about, uint8_t *samples, apart_report *report);

typedef struct {
    size_t memory;         /* octets that it may take for itself, besides the samples */
    double seconds, clock; /* of the processor, and by the clock */
    bool no_sandbox;       /* do without the system's, where it has none */
    void *hidden;          /* what its process must not have: unmapped there; null for nothing */
    size_t hidden_octets;
} apart_bounds;

/* Only after APART_DONE is the report the work's own. */
typedef enum {
    APART_DONE,        /* it reported, and ended as it must */
    APART_NOT_STARTED, /* the system gave no memory file, pipe or process: errno tells */
    APART_NO_SANDBOX,  /* the system has none, so the work was not begun */
    APART_NO_ROOM,     /* its process had no room for the samples */
    APART_FORBIDDEN,   /* it asked the system for what it may not */
    APART_BROKE_OFF,
    APART_TOO_SLOW, /* by the processor's time */
    APART_TOO_LATE  /* by the clock */
} apart_end;

/* Samples that one process may fill and, from then on, nobody: a file without a name. */
typedef struct {
    int file; /* -1 where there is none */
    size_t octets;
    double spent; /* processor seconds that filling took */
} apart_samples;

/* `octets` of samples filled by the work.  After APART_DONE they are sealed: no process can write
 * them, now or later, and none had kept them.  After any other end there are none. */
apart_end do_apart(apart_work *work, const void *about, const apart_bounds *bounds, size_t octets,
                   apart_samples *samples, apart_report *report);

void drop_samples(apart_samples *samples);

/* Where the samples can be read, at the address `at` or, where that is null, anywhere; null where
 * they cannot.  The file is closed: munmap is all that is left to do. */
uint8_t *map_samples(apart_samples *samples, void *at);

#endif
