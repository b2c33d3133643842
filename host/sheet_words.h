/* Why the library refuses a sheet, in words: it tells the record alone. */
#ifndef SHEET_WORDS_H
#define SHEET_WORDS_H

#include <stddef.h>
#include <stdint.h>

/* Where the rules stand, for those who read the words. */
#define SHEET_RULES "docs/FIELDS.md, section 7"

/* The first rule, in the order of the paper, that the record at the place of a BadSheet breaks with
 * those before it; where the place is the number of whole records, what is wrong with the sheet's
 * end.  A phrase without a capital or a full stop. */
const char *broken_rule(const uint8_t *sheet, size_t octets, size_t record);

#endif
