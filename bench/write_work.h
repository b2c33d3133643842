// The sheets and data that are timed, and small ones, good and damaged, on which all writers must
// agree first.
#ifndef BENCH_WRITE_WORK_H
#define BENCH_WRITE_WORK_H

#include "octets.h"

#define MB 1048576
#define LONGEST (16 * MB - 1)
#define SHEET_SIZE (64 * 3 * RECORD_SIZE)

struct work {
    uint8_t sheet[SHEET_SIZE], data[LONGEST + 1];
    size_t sheet_size, data_size;
    size_t counts[64 * 2]; // where in the data each picture's number of components stands
    unsigned pictures;
    uint8_t page[LONGEST + 1]; // as the proved call writes it
    size_t page_size;          // 0: a refusal
};

// A page of about 16 MB: a mask alone, or a background alone with scan data of this kind.
void make_mask(struct work *w);
void make_random(struct work *w);
void make_stuffed(struct work *w);
void make_scans(struct work *w);
void make_restarts(struct work *w);

// 64 stripes: on one picture of 130 KB, or of 16 MB; of small layers with data of their own.
void make_shared_small(struct work *w);
void make_shared_large(struct work *w);
void make_small(struct work *w);

// A few stripes of small layers, some of them grey.
void make_some_grey(struct work *w, unsigned stripes);

// Grey by the count alone, which is all that the walk looks at, and in the records on this picture.
void make_grey(struct work *w, unsigned picture);

void damage(struct work *w);

#endif
