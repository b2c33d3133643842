/* The page is read field by field in the paper's order ("The page, Mode 1").
 * The sheet is written when all is read and fits. */
#include "page.h"

#include "jpeg.h"
#include "numbers.h"
#include "reading.h"
#include "stripe.h"

enum {
    MOST_OCTETS = 16777215, /* TOO_LONG is "over 16,777,215 octets" */
    START_LENGTH = 16,      /* "length 16" */
    /* "The length must equal what they need": itself, the ident, the type, two
     * base colours, two offsets, the height and the mask length. */
    STRIPE_LENGTH = 2 + 4 + 1 + 3 + 3 + 8 + 8 + 4 + 4
};

/* "Mask coder octet: 0, 1, 2, 4 or 8. Image coder octet: 0 or 1." */
static bool read_coders(struct reading *reading)
{
    size_t field;
    if (!read_number(reading, 1, &field, &reading->mask_coder)) {
        return false;
    }
    if (reading->mask_coder != 0 && reading->mask_coder != 1 && reading->mask_coder != 2 &&
        reading->mask_coder != 4 && reading->mask_coder != 8) {
        return refuse(reading, BAD_CODER, field);
    }
    if (!read_number(reading, 1, &field, &reading->image_coder)) {
        return false;
    }
    if (reading->image_coder != 0 && reading->image_coder != 1) {
        return refuse(reading, BAD_CODER, field);
    }
    return true;
}

/* "FF D8, then the start of page segment: FF ED, length 16, the four octets
 * 4D 52 43 n with n = 00, version 00, mode 01, one mask coder octet, one image
 * coder octet, two octets of main mask resolution, four of page width." */
static bool read_start_of_page(struct reading *reading)
{
    size_t field, length_field;
    uint32_t length, n, version, mode;
    if (!read_marker_due(reading, 0xD8) || !read_marker_due(reading, 0xED) ||
        !read_length(reading, &length_field, &length) || !read_ident(reading, &field, &n)) {
        return false;
    }
    if (n != 0x00) {
        return refuse(reading, BAD_MARK, field);
    }
    /* "A segment's ident is judged before a length that depends on it" */
    if (length != START_LENGTH) {
        return refuse(reading, BAD_LENGTH, length_field);
    }
    if (!read_number(reading, 1, &field, &version)) {
        return false;
    }
    if (version != 0) {
        return refuse(reading, BAD_VERSION, field);
    }
    if (!read_number(reading, 1, &field, &mode)) {
        return false;
    }
    if (mode != 1) {
        return refuse(reading, BAD_MODE, field);
    }
    if (!read_coders(reading)) {
        return false;
    }
    if (!read_number(reading, 2, &field, &reading->main_resolution)) {
        return false;
    }
    /* "Resolutions: 100, 200, 300, 400, 600, 1200." */
    if (!jpeg_resolution_is_listed(reading->main_resolution)) {
        return refuse(reading, BAD_RES, field);
    }
    if (!read_number(reading, 4, &field, &reading->page_width)) {
        return false;
    }
    /* "Width 1 to 32,768." */
    if (reading->page_width < 1 || reading->page_width > 32768) {
        return refuse(reading, BAD_WIDTH, field);
    }
    return true;
}

/* "Any number of optional segments: FF ED, length, 4D 52 43 n with n from 03 to
 * FE. The length counts itself and is at least 6. They are skipped."  "an
 * optional one (after its ident) that passes the page's end is Short at its
 * first octet, unjudged" */
static bool skip_optional_body(struct reading *reading, uint32_t length)
{
    size_t body;
    return read_field(reading, length - 6, &body);
}

/* What follows an FF ED behind the start of page. */
static bool read_segment(struct reading *reading)
{
    size_t length_field, ident;
    uint32_t length, n;
    if (!read_length(reading, &length_field, &length) || !read_ident(reading, &ident, &n)) {
        return false;
    }
    if (n == 0x01) {
        /* "A 65th stripe is faulted at its ident" */
        if (reading->stripes == MOST_STRIPES) {
            return refuse(reading, BAD_STRIPE, ident);
        }
        if (length != STRIPE_LENGTH) {
            return refuse(reading, BAD_LENGTH, length_field);
        }
        return read_stripe(reading);
    }
    /* Optional segments stand before the stripes; behind the first stripe only
     * n = 01 is due. */
    if (n >= 0x03 && n <= 0xFE && reading->stripes == 0) {
        return skip_optional_body(reading, length);
    }
    return refuse(reading, BAD_MARK, ident);
}

/* Optional segments and stripes up to and with the first FF D9 of the end. */
static bool read_segments(struct reading *reading)
{
    for (;;) {
        size_t marker;
        if (!read_field(reading, 2, &marker)) {
            return false;
        }
        uint32_t octets = number_at(reading, marker, 2);
        if (octets == 0xFFD9) {
            /* "1 to 64 stripes"; "a page without stripes at the FF D9" */
            if (reading->stripes == 0) {
                return refuse(reading, BAD_STRIPE, marker);
            }
            return true;
        }
        if (octets != 0xFFED) {
            return refuse(reading, BAD_MARK, marker);
        }
        if (!read_segment(reading)) {
            return false;
        }
    }
}

/* "then zero octets only" */
static bool read_zeros(struct reading *reading)
{
    while (reading->at < reading->octets) {
        if (reading->page[reading->at] != 0) {
            return refuse(reading, TRAILING, reading->at);
        }
        reading->at += 1;
    }
    return true;
}

/* "A page is, in order"; "The end is two fields of FF D9." */
static bool read_page(struct reading *reading)
{
    return read_start_of_page(reading) && read_marker_due(reading, 0xD9) && /* termination number */
           read_segments(reading) && read_marker_due(reading, 0xD9) && read_zeros(reading);
}

static void put(uint8_t *octets, size_t at, size_t size, uint32_t number)
{
    for (size_t k = size; k > 0; k--) {
        octets[at + k - 1] = (uint8_t)(number % 256);
        number /= 256;
    }
}

/* "The sheet": the table of a record. */
static void put_record(uint8_t *octets, const struct record *record)
{
    put(octets, 0, 2, record->stripe);
    put(octets, 2, 1, record->layer);
    put(octets, 3, 1, record->coder);
    put(octets, 4, 2, record->x);
    put(octets, 6, 2, record->y);
    put(octets, 8, 2, record->width);
    put(octets, 10, 2, record->height);
    put(octets, 12, 2, record->resolution);
    put(octets, 14, 1, record->colour[0]);
    put(octets, 15, 1, record->colour[1]);
    put(octets, 16, 1, record->colour[2]);
    put(octets, 17, 1, record->grey);
    put(octets, 18, 4, record->start);
    put(octets, 22, 4, record->length);
    put(octets, 26, 2, 0);
}

static struct reference_answer refusal(unsigned number, size_t place)
{
    struct reference_answer answer = {number, (unsigned)place, 0};
    return answer;
}

/* "Reading: TooLong first, with place 0; then the first fault in page order;
 * NoRoom last, place 0." */
struct reference_answer reference_read(const uint8_t *page, size_t page_octets, uint8_t *sheet,
                                       size_t sheet_octets)
{
    if (page_octets > MOST_OCTETS) {
        return refusal(TOO_LONG, 0);
    }
    struct reading reading = {0};
    reading.page = page;
    reading.octets = page_octets;
    if (!read_page(&reading)) {
        return refusal(reading.number, reading.place);
    }
    size_t records = (size_t)reading.stripes * LAYERS_OF_A_STRIPE;
    if (sheet_octets < records * RECORD_OCTETS) {
        return refusal(NO_ROOM, 0);
    }
    for (size_t i = 0; i < records; i++) {
        put_record(sheet + i * RECORD_OCTETS, &reading.records[i]);
    }
    struct reference_answer answer = {DONE, 0, records};
    return answer;
}
