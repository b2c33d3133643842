/* "Numbers that a call returns", those that a call can give;
 * DONE and BAD_SHEET stand in sheet.h. */
#ifndef REFERENCE_NUMBERS_H
#define REFERENCE_NUMBERS_H

enum {
    SHORT = 1,       /* "a field, or coded data, does not fit whole" */
    BAD_MARK = 2,    /* "a page marker or ident due is not there" */
    BAD_LENGTH = 3,  /* "a segment length breaks its rule above" */
    BAD_VERSION = 4, /* "version not 0" */
    BAD_MODE = 5,    /* "mode not 1; in writing, some N above 3" */
    BAD_CODER = 6,   /* "coder octet not listed" */
    BAD_RES = 7,     /* "main resolution not listed, or a layer's not listed or
                        no divisor" */
    BAD_WIDTH = 8,   /* "page width outside its range" */
    BAD_TYPE = 9,    /* "type refused above" */
    BAD_STRIPE = 10, /* "height, sum, offset or mask length wrong; a 65th
                        stripe; none" */
    BAD_LAYER = 11,  /* "the JPEG walk breaks a rule other than 1, 3 and 7" */
    TRAILING = 12,   /* "an octet other than 0 after the end" */
    NO_ROOM = 13,    /* "the output buffer is smaller than the result" */
    BAD_PLANE = 15,  /* "a listed layer is absent, uncoded, out of order, or runs
                        past the sample buffer" */
    MISMATCH = 16,   /* "in writing: a layer's JPEG walk fails, ends elsewhere
                        or disagrees with its record; or two coded masks have
                        different coders" */
    BAD_LINE = 17,   /* "no such stripe or line, or no such layer" */
    TOO_LONG = 18    /* "a page, read or to be written, over 16,777,215
                        octets" */
};

#endif
