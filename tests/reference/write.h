/* Writing a Mode 1 page from a sheet, straight from the paper and nothing else.
 *
 * This is a yardstick for the proved library: it shares no code with it, is
 * written in the paper's words and order and takes its time.  Words in
 * quotation marks are the paper's own. */
#ifndef REFERENCE_WRITE_H
#define REFERENCE_WRITE_H

#include "page.h"

/* "The writer takes a sheet and the buffer its starts point into."  Done: the
 * page begins with the octets counted.  "Octets past the result stay"; a
 * refusal changes no octet.  The place of a refusal is a record of the sheet,
 * or 0. */
struct reference_answer reference_write(const uint8_t *sheet, size_t sheet_octets,
                                        const uint8_t *data, size_t data_octets, uint8_t *page,
                                        size_t page_octets);

#endif
