// One layer over a part of a row of pixels.
#ifndef BENCH_COAT_H
#define BENCH_COAT_H

#include <stdbool.h>
#include <stddef.h>
#include <stdint.h>

// What is laid: one word all over; samples of three octets or of one, k pixels each; or words, a
// pixel each.
enum source { ONE, THREES, GREYS, WORDS };

// How: as it is; where the mask is not 0; or, the mask not being known, where it is what is there.
enum way { LAY, PICK, AGREE };

// How a mask is looked at, from what the line before had in it: in blocks of sixteen; in fours of
// blocks first, most of them being 0; or not at all, most blocks being mixed.
enum look { PLAIN, SPARSE, DENSE };

// Pixels are counted from the first one at which a sample begins; before it are the last ones of
// another sample, and where all are among those the count is below 0.
struct coat {
    enum source source;
    uint32_t k; // 1, 2, 3, 4, 6 or 12
    enum way way;
    enum look look;
    bool last; // READ_MORE octets behind the row must not be read
    uint32_t word, unseen;
    ptrdiff_t before, count;
    const uint8_t *up, *mask; // of that first pixel
};

#define READ_MORE 8

// Answers how the mask should be looked at in the next line.
enum look put_coat(uint8_t *out, const struct coat *c);

// So many samples as k pixels each: of a mask as octets, of an image as words. Some octets behind
// are written too.
#define SPREAD_MORE (16 * 12 * 4)
void spread_mask(uint8_t *out, const uint8_t *samples, size_t count, uint32_t k);
void spread_image(uint8_t *out, const uint8_t *samples, size_t count, uint32_t k, uint32_t size);

#endif
