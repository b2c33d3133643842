/* Reading a Mode 1 page into a sheet, straight from the paper and nothing else.
 *
 * This is a yardstick for the proved library: it shares no code with it, is
 * written in the paper's words and order and takes its time.  Words in
 * quotation marks are the paper's own. */
#ifndef REFERENCE_PAGE_H
#define REFERENCE_PAGE_H

#include <stddef.h>
#include <stdint.h>

enum {
    MOST_STRIPES = 64,      /* "1 to 64 stripes" */
    LAYERS_OF_A_STRIPE = 3, /* mask, background and foreground */
    MOST_RECORDS = MOST_STRIPES * LAYERS_OF_A_STRIPE
};

/* A number of the paper's table with its place and the records (reading) or
 * octets (writing, lines) written, or those of a part.  "Done has place 0 and
 * returns the records or octets written, or the length of the part handed out;
 * a refusal returns 0 of them." */
struct reference_answer {
    unsigned number, place;
    unsigned long long count;
};

/* Reads a page of any octets and any length.  Done: the sheet begins with the
 * records.  "Octets past the result stay"; a refusal changes no octet. */
struct reference_answer reference_read(const uint8_t *page, size_t page_octets, uint8_t *sheet,
                                       size_t sheet_octets);

#endif
