#include "stripe.h"

#include "jpeg.h"
#include "numbers.h"

/* The fields of a stripe's segment behind its ident. */
struct stripe {
    uint32_t type;
    uint32_t background_colour[3];
    uint32_t foreground_colour[3];
    uint32_t background_x;
    uint32_t background_y;
    uint32_t foreground_x;
    uint32_t foreground_y;
    uint32_t height;
    uint32_t mask_length;
};

/* "bit 0 background, bit 1 mask, bit 2 foreground" */
static bool has_background(uint32_t type)
{
    return (type & 1) != 0;
}

static bool has_mask(uint32_t type)
{
    return (type & 2) != 0;
}

static bool has_foreground(uint32_t type)
{
    return (type & 4) != 0;
}

static bool read_type(struct reading *reading, struct stripe *stripe)
{
    size_t field;
    if (!read_number(reading, 1, &field, &stripe->type)) {
        return false;
    }
    uint32_t type = stripe->type;
    /* "0, 5 and anything above 7 are refused." */
    if (type == 0 || type == 5 || type > 7) {
        return refuse(reading, BAD_TYPE, field);
    }
    /* "A type that names a layer whose coder octet is 0 is BadType." */
    if (has_mask(type) && reading->mask_coder == 0) {
        return refuse(reading, BAD_TYPE, field);
    }
    if ((has_background(type) || has_foreground(type)) && reading->image_coder == 0) {
        return refuse(reading, BAD_TYPE, field);
    }
    return true;
}

/* 9.3: "3 octets" */
static bool read_colour(struct reading *reading, uint32_t colour[3])
{
    size_t field;
    if (!read_field(reading, 3, &field)) {
        return false;
    }
    for (size_t k = 0; k < 3; k++) {
        colour[k] = reading->page[field + k];
    }
    return true;
}

/* 9.3: "8 octets", "horizontal offset, vertical offset".  "A present layer's
 * offsets are at most 65,535; an absent layer's are read, dropped and not
 * judged." */
static bool read_offset(struct reading *reading, bool present, uint32_t *x, uint32_t *y)
{
    size_t field;
    if (!read_field(reading, 8, &field)) {
        return false;
    }
    *x = number_at(reading, field, 4);
    *y = number_at(reading, field + 4, 4);
    if (present && (*x > 65535 || *y > 65535)) {
        return refuse(reading, BAD_STRIPE, field);
    }
    return true;
}

/* "Stripe height 1 to 65,535; their sum at most 65,535." */
static bool read_height(struct reading *reading, struct stripe *stripe)
{
    size_t field;
    if (!read_number(reading, 4, &field, &stripe->height)) {
        return false;
    }
    if (stripe->height < 1 || stripe->height > 65535) {
        return refuse(reading, BAD_STRIPE, field);
    }
    if (reading->heights + stripe->height > 65535) {
        return refuse(reading, BAD_STRIPE, field);
    }
    reading->heights += stripe->height;
    return true;
}

/* "Mask length is zero exactly when the type has no mask." */
static bool read_mask_length(struct reading *reading, struct stripe *stripe)
{
    size_t field;
    if (!read_number(reading, 4, &field, &stripe->mask_length)) {
        return false;
    }
    if ((stripe->mask_length == 0) != !has_mask(stripe->type)) {
        return refuse(reading, BAD_STRIPE, field);
    }
    return true;
}

/* "and the fields of 9.3 in its order: type, background base colour, foreground
 * base colour, background offset, foreground offset, stripe height, mask
 * length" */
static bool read_stripe_fields(struct reading *reading, struct stripe *stripe)
{
    return read_type(reading, stripe) && read_colour(reading, stripe->background_colour) &&
           read_colour(reading, stripe->foreground_colour) &&
           read_offset(reading, has_background(stripe->type), &stripe->background_x,
                       &stripe->background_y) &&
           read_offset(reading, has_foreground(stripe->type), &stripe->foreground_x,
                       &stripe->foreground_y) &&
           read_height(reading, stripe) && read_mask_length(reading, stripe);
}

/* "Not coded: coder, start, offsets, width and height are 0 and resolution is
 * the main one." */
static struct record uncoded_record(const struct reading *reading, uint32_t layer)
{
    struct record record = {0};
    record.stripe = reading->stripes; /* "stripe, from 0" */
    record.layer = layer;
    record.resolution = reading->main_resolution;
    return record;
}

/* Only the stripe tells an image layer's base colour, coded or not. */
static struct record image_record(const struct reading *reading, uint32_t layer,
                                  const uint32_t colour[3])
{
    struct record record = uncoded_record(reading, layer);
    for (size_t k = 0; k < 3; k++) {
        record.colour[k] = colour[k];
    }
    return record;
}

/* "Layer 2 is the exception: its offsets are always 0, its width is the page
 * width and its height the stripe height, coded or not (a virtual mask)"; "Even
 * layers have base colour 0 0 0." */
static struct record mask_record(const struct reading *reading, const struct stripe *stripe)
{
    struct record record = uncoded_record(reading, 2);
    record.width = reading->page_width;
    record.height = stripe->height;
    return record;
}

/* The mask ends by its length.  SHORT: "coded data ... does not fit whole" */
static bool read_mask(struct reading *reading, const struct stripe *stripe, struct record *record)
{
    size_t start;
    if (!read_field(reading, stripe->mask_length, &start)) {
        return false;
    }
    record->coder = reading->mask_coder;
    record->start = (uint32_t)start;
    record->length = stripe->mask_length;
    return true;
}

/* "No length is given for layers 1 and 3 in Mode 1. The JPEG stream is
 * walked" */
static bool read_image(struct reading *reading, uint32_t x, uint32_t y, struct record *record)
{
    size_t start = reading->at;
    struct jpeg_layer layer = jpeg_walk(reading->page, reading->octets, start,
                                        reading->main_resolution);
    if (layer.number != DONE) {
        return refuse(reading, layer.number, layer.place);
    }
    reading->at = layer.end;
    record->coder = reading->image_coder;
    record->x = x;
    record->y = y;
    record->width = layer.width;
    record->height = layer.height;
    record->resolution = layer.resolution;
    /* Request 2026-07: "octet 17 of a JPEG layer: 1 for one component, 0 for
     * three, and 0 in all other records" */
    record->grey = layer.components == 1 ? 1 : 0;
    record->start = (uint32_t)start;
    record->length = (uint32_t)(layer.end - start);
    return true;
}

bool read_stripe(struct reading *reading)
{
    struct stripe stripe;
    if (!read_stripe_fields(reading, &stripe)) {
        return false;
    }
    struct record background = image_record(reading, 1, stripe.background_colour);
    struct record mask = mask_record(reading, &stripe);
    struct record foreground = image_record(reading, 3, stripe.foreground_colour);
    /* "Then come the coded layers present: mask, background, foreground." */
    if (has_mask(stripe.type) && !read_mask(reading, &stripe, &mask)) {
        return false;
    }
    if (has_background(stripe.type) &&
        !read_image(reading, stripe.background_x, stripe.background_y, &background)) {
        return false;
    }
    if (has_foreground(stripe.type) &&
        !read_image(reading, stripe.foreground_x, stripe.foreground_y, &foreground)) {
        return false;
    }
    /* "ordered by stripe and then by layer as numbers" */
    struct record *records = reading->records + reading->stripes * LAYERS_OF_A_STRIPE;
    records[0] = background;
    records[1] = mask;
    records[2] = foreground;
    reading->stripes += 1;
    return true;
}
