/* Painting a whole stripe, straight from the papers and nothing else.
 *
 * This is a yardstick for the proved library: it shares no code with it, and
 * with the reference's own lines (line.h) no more than the judge of the sheet,
 * so that a band held to lines is a test of both.  Words in quotation marks are
 * those of the paper, or of request 2026-12, "Band engine", where they speak of
 * painting and cropping, of 2026-01 where they speak of an unseen colour, and of
 * 2026-07 where they speak of lightness. */
#ifndef REFERENCE_BAND_H
#define REFERENCE_BAND_H

#include "page.h"

/* What a band call is lent, which stripe it names, from 0; and "the unseen
 * colour as three octets". */
struct reference_band_call {
    const uint8_t *sheet;
    size_t sheet_octets;
    const uint8_t *planes;
    size_t plane_octets;
    const uint8_t *samples;
    size_t sample_octets;
    uint32_t stripe;
    uint8_t unseen[3]; /* "A colour is three CIELAB code octets" */
};

/* Done: `out` begins with the octets counted, four a pixel, the page's width by
 * the stripe's height, lines from the top down.  "Octets past the result stay";
 * a refusal changes no octet.  The place of a refusal is a record of the sheet,
 * an entry of the plane list, or 0. */
struct reference_answer reference_band(const struct reference_band_call *call, uint8_t *out,
                                       size_t out_octets);

#endif
