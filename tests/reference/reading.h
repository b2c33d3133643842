/* A page while it is read: what is known so far, and how a field is taken.
 *
 * A step of reading answers whether reading goes on; where it does not,
 * `number` and `place` tell why.  Words in quotation marks are the paper's
 * own. */
#ifndef REFERENCE_READING_H
#define REFERENCE_READING_H

#include "page.h"
#include "sheet.h"

#include <stdbool.h>

struct reading {
    const uint8_t *page;
    size_t octets;
    size_t at; /* the first octet that was not read; never behind the end */
    unsigned number;
    size_t place;
    uint32_t mask_coder;
    uint32_t image_coder;
    uint32_t main_resolution;
    uint32_t page_width;
    uint32_t heights; /* the sum of the stripes' heights so far */
    uint32_t stripes; /* how many were read whole */
    struct record records[MOST_RECORDS];
};

/* Ends the reading; answers false, so that a step can end with it. */
bool refuse(struct reading *reading, unsigned number, size_t place);

/* The next field of `size` octets, and where it stands.  "The place is the
 * first octet of the field at fault." */
bool read_field(struct reading *reading, size_t size, size_t *field);

/* "All numbers are most significant octet first." */
uint32_t number_at(const struct reading *reading, size_t at, size_t size);

/* The next field as a number. */
bool read_number(struct reading *reading, size_t size, size_t *field, uint32_t *number);

/* A marker of the page that is due, FF and the code. */
bool read_marker_due(struct reading *reading, uint8_t code);

/* The length of a segment of the page. */
bool read_length(struct reading *reading, size_t *field, uint32_t *length);

/* "the four octets 4D 52 43 n": which n is due, the caller knows. */
bool read_ident(struct reading *reading, size_t *field, uint32_t *n);

#endif
