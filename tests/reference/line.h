/* Composing one line of pixels, straight from the paper and nothing else.
 *
 * This is a yardstick for the proved library: it shares no code with it, is
 * written in the paper's words and order and takes its time.  Words in
 * quotation marks are the paper's own, or those of request 2026-01, "Grey where
 * we cannot see", where they speak of an unseen colour, and of request 2026-07,
 * "Grey layers", where they speak of lightness. */
#ifndef REFERENCE_LINE_H
#define REFERENCE_LINE_H

#include "page.h"

enum { COLOUR_OCTETS = 3 }; /* "A colour is three CIELAB code octets" */

/* What a line call is lent, which line it names: "a stripe and a line of that
 * stripe, from 0"; and "the unseen colour as three octets". */
struct reference_line_call {
    const uint8_t *sheet;
    size_t sheet_octets;
    const uint8_t *planes;
    size_t plane_octets;
    const uint8_t *samples;
    size_t sample_octets;
    uint32_t stripe, line;
    uint8_t unseen[COLOUR_OCTETS];
};

/* Done: `out` begins with the octets counted, four a pixel of the page's width.
 * "Octets past the result stay"; a refusal changes no octet.  The place of a
 * refusal is a record of the sheet, an entry of the plane list, or 0. */
struct reference_answer reference_line(const struct reference_line_call *call, uint8_t *out,
                                       size_t out_octets);

#endif
