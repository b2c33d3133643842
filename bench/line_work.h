// The lines that are timed, and small ones, good and damaged, on which all composers must agree
// first.
#ifndef BENCH_LINE_WORK_H
#define BENCH_LINE_WORK_H

#include "line.h"

#include <stdbool.h>

#define WIDTH 4096 // of a line, and
#define LINES 16   // of a stripe, where a row says nothing else
#define MOST_SHEET (64 * 15 * RECORD_SIZE)
#define MOST_SAMPLES (256u << 20)

struct work {
    uint8_t sheet[MOST_SHEET + RECORD_SIZE], planes[16 * 5 + 4];
    size_t sheet_size, planes_size;
    uint8_t *samples;
    size_t samples_size;
    uint32_t stripe, line;
    uint8_t unseen[3];
    size_t room;
};

// Which layers are not read: none; masks and images in turn, layers 3, 4, 7, 8, 11, 12 and 15; or
// both layers of every other pair, 4, 5, 8, 9, 12 and 13.
enum unread { ALL_READ, HALF_UNREAD, PAIRS_UNREAD };

// What a timed line or band is made of.
struct shape {
    uint32_t width, height, layers, k;
    uint32_t run;   // main pixels of a mask that are alike; 0: each sample by itself
    uint32_t ones;  // of 16 runs in masks above that layer; 0: eight
    uint32_t above; // and below it eight
    enum unread unread;
    bool shared; // one stretch of samples for all image layers, one for all masks
    bool grey;   // all image layers have one component
};

// The rows of every number of layers, ratio, kind of masks and share of what is read.
#define PIXEL_ROWS (3 * 6 * 2 * 2)

struct shape pixel_shape(size_t row);
const char *pixel_name(const struct shape *s);

// A stripe of this shape behind others of as many layers, so high each; all that the shape has read
// is listed.
void make_behind(struct work *w, const struct shape *s, uint32_t stripes, uint32_t height);

// The same page with the grey layers coloured: three octets a sample. The samples are the caller's,
// and have room.
void make_coloured(struct work *w, const struct work *grey);

// Small calls, good and damaged; some layers are grey. Larger ones have rows of many blocks.
void make_small(struct work *w);
void make_larger(struct work *w);
void damage(struct work *w);

// The line that a composer makes of it.
spirerook_answer composed(composer *f, const struct work *w, uint8_t *out);

#endif
