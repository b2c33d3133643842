/* All is judged before the first octet is written, so that a refusal changes
 * nothing.  Once BadSheet and BadMode are passed every stripe has just layers 1
 * to 3, in this order. */
#include "write.h"

#include "jpeg.h"
#include "numbers.h"
#include "sheet.h"

#include <stdbool.h>

enum {
    LONGEST = 16777215, /* TOO_LONG is "over 16,777,215 octets" */
    /* FF D8, FF ED, length, ident, version, mode, two coder octets, main
     * resolution, page width, FF D9 */
    START_OCTETS = 2 + 2 + 2 + 4 + 1 + 1 + 1 + 1 + 2 + 4 + 2,
    /* FF ED, length, ident, type, two base colours, two offsets, height, mask
     * length (9.3) */
    STRIPE_OCTETS = 2 + 2 + 4 + 1 + 3 + 3 + 8 + 8 + 4 + 4,
    END_OCTETS = 4 /* "FF D9 FF D9", and "no padding" */
};

/* What a writer is given. */
struct source {
    const uint8_t *sheet;
    size_t records;
    const uint8_t *data;
    size_t octets;
};

/* A page while it is written. */
struct pen {
    uint8_t *page;
    size_t at; /* the first octet that was not written */
};

/* "A layer is coded when its length is not 0." */
static bool is_coded(struct record r)
{
    return r.length != 0;
}

/* "Layer 2's width and resolution are the same in all stripes": record 1 is
 * layer 2 of stripe 0. */
static struct record first_mask(const struct source *source)
{
    return sheet_record(source->sheet, 1);
}

/* "BadMode at the first layer above 3" */
static bool find_layer_above_3(const struct source *source, size_t *place)
{
    for (size_t i = 0; i < source->records; i++) {
        if (sheet_record(source->sheet, i).layer > 3) {
            *place = i;
            return true;
        }
    }
    return false;
}

/* SHORT: "coded data, does not fit whole" into the buffer that the starts point
 * into. */
static bool is_short(const struct source *source, struct record r)
{
    return (uint64_t)r.start + r.length > source->octets;
}

/* MISMATCH: "a layer's JPEG walk fails, ends elsewhere or disagrees with its
 * record".  The walk sees the record's data and nothing behind it. */
static bool disagrees(const struct source *source, struct record r)
{
    struct jpeg_layer layer = jpeg_walk(source->data + r.start, r.length, 0,
                                        first_mask(source).resolution);
    if (layer.number != DONE) {
        return true;
    }
    if (layer.end != r.length) {
        return true;
    }
    /* Request 2026-07: "in writing, a disagreement is Mismatch" */
    if (layer.components != (r.grey == 1 ? 1 : 3)) {
        return true;
    }
    return layer.width != r.width || layer.height != r.height || layer.resolution != r.resolution;
}

/* MISMATCH: "or two coded masks have different coders", at the later one. */
static bool has_other_coder_before(const struct source *source, size_t i)
{
    struct record mask = sheet_record(source->sheet, i);
    for (size_t j = 0; j < i; j++) {
        struct record before = sheet_record(source->sheet, j);
        if (before.layer == 2 && is_coded(before) && before.coder != mask.coder) {
            return true;
        }
    }
    return false;
}

/* "each record in order (Short before Mismatch)"; DONE where a record is at no
 * fault. */
static unsigned judge_record(const struct source *source, size_t i)
{
    struct record r = sheet_record(source->sheet, i);
    if (!is_coded(r)) {
        return DONE;
    }
    if (is_short(source, r)) {
        return SHORT;
    }
    if (r.layer == 2) {
        return has_other_coder_before(source, i) ? MISMATCH : DONE;
    }
    return disagrees(source, r) ? MISMATCH : DONE;
}

/* The octets of the page that would be written.  Records may share data, so
 * that the sum can be far above what is lent. */
static uint64_t page_size(const struct source *source)
{
    uint64_t size = START_OCTETS + END_OCTETS;
    for (size_t i = 0; i < source->records; i++) {
        struct record r = sheet_record(source->sheet, i);
        if (r.layer == 1) {
            size += STRIPE_OCTETS;
        }
        size += r.length;
    }
    return size;
}

/* "All numbers are most significant octet first." */
static void put(struct pen *pen, size_t size, uint32_t number)
{
    for (size_t k = size; k > 0; k--) {
        pen->page[pen->at + k - 1] = (uint8_t)(number % 256);
        number /= 256;
    }
    pen->at += size;
}

/* "the four octets 4D 52 43 n" */
static void put_ident(struct pen *pen, uint32_t n)
{
    put(pen, 1, 0x4D);
    put(pen, 1, 0x52);
    put(pen, 1, 0x43);
    put(pen, 1, n);
}

/* The coded octets as they stand; none where the layer is not coded. */
static void put_data(struct pen *pen, const struct source *source, struct record r)
{
    for (size_t k = 0; k < r.length; k++) {
        put(pen, 1, source->data[r.start + k]);
    }
}

/* "It names in each coder octet the coder used, or 0": that of the coded masks,
 * or of the coded image layers, which are all the same. */
static uint32_t coder_used(const struct source *source, bool of_masks)
{
    for (size_t i = 0; i < source->records; i++) {
        struct record r = sheet_record(source->sheet, i);
        if (is_coded(r) && (r.layer == 2) == of_masks) {
            return r.coder;
        }
    }
    return 0;
}

/* "FF D8, then the start of page segment: FF ED, length 16, the four octets
 * 4D 52 43 n with n = 00, version 00, mode 01, one mask coder octet, one image
 * coder octet, two octets of main mask resolution, four of page width."  Then
 * "FF D9 (termination number)", and "no optional segment". */
static void put_start_of_page(struct pen *pen, const struct source *source)
{
    struct record mask = first_mask(source);
    put(pen, 2, 0xFFD8);
    put(pen, 2, 0xFFED);
    put(pen, 2, 16);
    put_ident(pen, 0x00);
    put(pen, 1, 0); /* version */
    put(pen, 1, 1); /* mode */
    put(pen, 1, coder_used(source, true));
    put(pen, 1, coder_used(source, false));
    put(pen, 2, mask.resolution);
    put(pen, 4, mask.width);
    put(pen, 2, 0xFFD9);
}

/* "bit 0 background, bit 1 mask, bit 2 foreground" */
static uint32_t type_of(struct record layer_1, struct record layer_2, struct record layer_3)
{
    return (is_coded(layer_1) ? 1u : 0u) + (is_coded(layer_2) ? 2u : 0u) +
           (is_coded(layer_3) ? 4u : 0u);
}

static void put_colour(struct pen *pen, struct record r)
{
    for (size_t k = 0; k < 3; k++) {
        put(pen, 1, r.colour[k]);
    }
}

/* "gives absent layers offset 0", as the sheet does: "Not coded: ... offsets
 * ... are 0". */
static void put_offset(struct pen *pen, struct record r)
{
    put(pen, 4, r.x);
    put(pen, 4, r.y);
}

/* "A stripe is FF ED, length, 4D 52 43 01 and the fields of 9.3 in its order:
 * type, background base colour, foreground base colour, background offset,
 * foreground offset, stripe height, mask length. ... Then come the coded layers
 * present: mask, background, foreground." */
static void put_stripe(struct pen *pen, const struct source *source, size_t first)
{
    struct record layer_1 = sheet_record(source->sheet, first);
    struct record layer_2 = sheet_record(source->sheet, first + 1);
    struct record layer_3 = sheet_record(source->sheet, first + 2);
    put(pen, 2, 0xFFED);
    put(pen, 2, STRIPE_OCTETS - 2); /* the marker is not counted */
    put_ident(pen, 0x01);
    put(pen, 1, type_of(layer_1, layer_2, layer_3));
    put_colour(pen, layer_1);
    put_colour(pen, layer_3);
    put_offset(pen, layer_1);
    put_offset(pen, layer_3);
    put(pen, 4, layer_2.height);
    put(pen, 4, layer_2.length);
    put_data(pen, source, layer_2);
    put_data(pen, source, layer_1);
    put_data(pen, source, layer_3);
}

/* "A page is, in order" */
static void put_page(struct pen *pen, const struct source *source)
{
    put_start_of_page(pen, source);
    for (size_t i = 0; i < source->records; i += LAYERS_OF_A_STRIPE) {
        put_stripe(pen, source, i);
    }
    put(pen, 2, 0xFFD9);
    put(pen, 2, 0xFFD9);
}

static struct reference_answer refusal(unsigned number, size_t place)
{
    struct reference_answer answer = {number, (unsigned)place, 0};
    return answer;
}

/* "Writing: BadSheet, BadMode at the first layer above 3, each record in order
 * (Short before Mismatch), TooLong, NoRoom. ... For these the place is the
 * record ..., else 0." */
struct reference_answer reference_write(const uint8_t *sheet, size_t sheet_octets,
                                        const uint8_t *data, size_t data_octets, uint8_t *page,
                                        size_t page_octets)
{
    struct verdict verdict = sheet_judge(sheet, sheet_octets);
    struct source source = {sheet, verdict.records, data, data_octets};
    size_t place;
    if (verdict.number != DONE) {
        return refusal(verdict.number, verdict.place);
    }
    if (find_layer_above_3(&source, &place)) {
        return refusal(BAD_MODE, place);
    }
    for (size_t i = 0; i < source.records; i++) {
        unsigned number = judge_record(&source, i);
        if (number != DONE) {
            return refusal(number, i);
        }
    }
    uint64_t size = page_size(&source);
    if (size > LONGEST) {
        return refusal(TOO_LONG, 0);
    }
    if (page_octets < size) {
        return refusal(NO_ROOM, 0);
    }
    struct pen pen = {page, 0};
    put_page(&pen, &source);
    struct reference_answer answer = {DONE, 0, pen.at};
    return answer;
}
