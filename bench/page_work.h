// The pages that are timed, and small ones, good and damaged, on which all readers must agree first.
#ifndef BENCH_PAGE_WORK_H
#define BENCH_PAGE_WORK_H

#include "fillers.h"
#include "octets.h"

#include <stdbool.h>

#define MB 1048576
#define LONGEST (16 * MB - 1)
#define MOST_LAYERS (66 * 2)

struct page {
    uint8_t octets[LONGEST + 1];
    size_t size;
    size_t start, end;          // of the layer, where there is one only
    size_t counts[MOST_LAYERS]; // where each layer's number of components stands
    unsigned layers;
};

// One stripe with a background alone; one of the four places of the page is filled, the others get
// `nothing`.
void make_large(struct page *p, size_t size, filler *optionals, filler *segments, filler *data,
                filler *behind);

// A few stripes of small layers, as most damage wants them; with fill, some of them grey.
void make_small(struct page *p, unsigned stripes, bool filled);

// A layer is grey by its count alone: a reader passes over what stands behind it.
void make_grey(struct page *p, unsigned layer);

void damage(struct page *p);

#endif
