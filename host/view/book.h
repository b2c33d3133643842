/* What is shown: a page and, where there is one, its pencil. */
#ifndef BOOK_H
#define BOOK_H

#include <spirerook.h>

#include "file.h"
#include "options.h"
#include "pencil.h"

typedef struct {
    whole_file page, pencil;
    pencil_source source;
    uint8_t sheet[SPIREROOK_SHEET_OCTETS + SPIREROOK_RECORD_OCTETS];
    size_t sheet_octets, stripes;
    size_t first[SPIREROOK_STRIPES + 1]; /* the first record of each stripe, and the end */
} book;

/* STATUS_WHOLE, or the status to leave with: what is refused is said on standard error. */
int open_book(const options *asked, book *opened);

void close_book(book *opened);

/* Layer 2 tells the size of a stripe and the resolution of the page. */
static inline const uint8_t *mask_of_stripe(const book *opened, size_t stripe)
{
    return spirerook_record_at(opened->sheet, opened->first[stripe] + 1);
}

#endif
