/* "a stripe painted layer by layer into a band buffer, bottom layer first, rows
 * cropped once per layer".  Between two layers all that is known stands in the
 * band itself: a pixel of mark 1 has its colour, whatever the unread layers so
 * far hold; one of mark 0 may have several.  So each layer is looked at once,
 * and no content is tried.
 *
 * All is judged before the first octet is written, so that a refusal changes
 * nothing.  Sizes and positions are 64 bits wide: a band has up to 32,768 by
 * 65,535 pixels of four octets, and a layer up to 65,535 by 65,535 samples. */
#include "band.h"

#include "numbers.h"
#include "sheet.h"

#include <stdbool.h>
#include <string.h>

enum {
    ENTRY_OCTETS = 5, /* "an entry is five octets, the layer and four of start" */
    PIXEL_OCTETS = 4, /* "four octets a pixel: the colour and 1 for seen" */
    COLOUR_OCTETS = 3,
    MARK = 3,        /* where a pixel has its mark, behind the colour */
    MOST_LAYERS = 15 /* "N odd, 3 to 15" */
};

/* A layer of the stripe, as the sheet and the plane list tell it. */
struct layer {
    struct record record;
    uint64_t k;             /* "main resolution / layer resolution" */
    const uint8_t *samples; /* null: "A coded layer that isn't listed is unread" */
};

/* The stripe that is painted; no layers where there is no such stripe. */
struct stripe {
    const struct reference_band_call *call;
    uint32_t layers; /* N */
    struct layer layer[MOST_LAYERS + 1];
    uint64_t width, height;
};

/* Main pixels of the stripe, from the first to before the last. */
struct area {
    uint64_t left, right, top, below;
};

/* A sample: "a known colour, or not known". */
struct sample {
    bool known;
    uint8_t colour[COLOUR_OCTETS];
};

enum bit { ZERO, ONE, UNKNOWN };

static bool is_coded(struct record r)
{
    return r.length != 0; /* "A layer is coded when its length is not 0." */
}

static bool is_grey(struct record r)
{
    return r.grey == 1; /* "octet 17 of a JPEG layer: 1 for one component" */
}

/* Judging */

/* Layer 2's "width is the page width and its height the stripe height, coded or
 * not", its resolution "the main one".  Only for a sheet that keeps the rules. */
static struct stripe find_stripe(const struct reference_band_call *call)
{
    struct stripe stripe = {.call = call, .layers = 0};
    for (size_t i = 0; i < call->sheet_octets / RECORD_OCTETS; i++) {
        struct record r = sheet_record(call->sheet, i);
        if (r.stripe == call->stripe) {
            stripe.layer[r.layer].record = r;
            stripe.layers = r.layer;
        }
    }
    struct record second = stripe.layer[2].record;
    stripe.width = second.width;
    stripe.height = second.height;
    for (uint32_t layer = 1; layer <= stripe.layers; layer++) {
        stripe.layer[layer].k = second.resolution / stripe.layer[layer].record.resolution;
    }
    return stripe;
}

/* "Mask samples are one octet (0 is 0, all else 1), image samples three"; planes
 * of grey layers "hold one octet a sample, the lightness code". */
static uint64_t sample_size(struct record r)
{
    return r.layer % 2 == 0 || is_grey(r) ? 1 : COLOUR_OCTETS;
}

/* "All numbers are most significant octet first." */
static uint64_t start_of(const uint8_t *entry)
{
    return (uint64_t)entry[1] << 24 | (uint64_t)entry[2] << 16 | (uint64_t)entry[3] << 8 | entry[4];
}

/* BadPlane: "a listed layer is absent, uncoded, out of order, or runs past the
 * sample buffer"; the layer of the entry before is `before`, and 0 of the first,
 * so that layer 0 is out of order. */
static bool is_good_entry(const struct stripe *stripe, const uint8_t *entry, uint32_t before)
{
    uint32_t layer = entry[0];
    if (layer <= before || layer > stripe->layers) {
        return false;
    }
    struct record r = stripe->layer[layer].record;
    uint64_t size = (uint64_t)r.width * r.height * sample_size(r);
    return is_coded(r) && start_of(entry) + size <= stripe->call->sample_octets;
}

/* Tells the stripe which of its layers were read.  False: the entry at `place` is
 * bad, or there is only a part of it: "a part entry is BadPlane". */
static bool take_planes(struct stripe *stripe, size_t *place)
{
    const struct reference_band_call *call = stripe->call;
    uint32_t before = 0;
    for (*place = 0; *place < call->plane_octets / ENTRY_OCTETS; ++*place) {
        const uint8_t *entry = call->planes + *place * ENTRY_OCTETS;
        if (!is_good_entry(stripe, entry, before)) {
            return false;
        }
        before = entry[0];
        stripe->layer[before].samples = call->samples + start_of(entry);
    }
    return call->plane_octets % ENTRY_OCTETS == 0;
}

/* Layers at a pixel */

static uint64_t smaller(uint64_t one, uint64_t other)
{
    return one < other ? one : other;
}

/* "a layer covers width x k by height x k main pixels from its offset", of which
 * those count that the stripe has; of an uncoded layer there are none. */
static struct area area_within(const struct stripe *stripe, const struct layer *layer)
{
    struct record r = layer->record;
    struct area area = {0, 0, 0, 0};
    if (is_coded(r)) {
        area.left = smaller(r.x, stripe->width);
        area.right = smaller(r.x + r.width * layer->k, stripe->width);
        area.top = smaller(r.y, stripe->height);
        area.below = smaller(r.y + r.height * layer->k, stripe->height);
    }
    return area;
}

static bool is_inside(struct area area, uint64_t x, uint64_t y)
{
    return x >= area.left && x < area.right && y >= area.top && y < area.below;
}

/* "Inside, pixel (x, y) takes sample ((x - xo) / k, (y - yo) / k), rounded down",
 * of samples that stand "row by row". */
static const uint8_t *octets_at(const struct layer *layer, uint64_t x, uint64_t y)
{
    struct record r = layer->record;
    uint64_t column = (x - r.x) / layer->k;
    uint64_t row = (y - r.y) / layer->k;
    return layer->samples + (row * r.width + column) * sample_size(r);
}

/* An image layer.  "Outside, an image layer gives its base colour"; of a grey
 * layer's sample "the colour is that octet, then 128, then 96". */
static struct sample image_at(const struct layer *layer, struct area area, uint64_t x, uint64_t y)
{
    struct sample sample = {true, {0, 128, 96}};
    struct record r = layer->record;
    if (!is_inside(area, x, y)) {
        for (size_t i = 0; i < COLOUR_OCTETS; i++) {
            sample.colour[i] = (uint8_t)r.colour[i];
        }
    } else if (layer->samples == NULL) {
        sample.known = false;
    } else {
        memcpy(sample.colour, octets_at(layer, x, y), sample_size(r));
    }
    return sample;
}

/* "an uncoded layer 2 gives 1 all over a stripe whose layer 3 is coded" */
static bool is_virtual(const struct stripe *stripe, uint32_t layer)
{
    return layer == 2 && !is_coded(stripe->layer[2].record) && is_coded(stripe->layer[3].record);
}

/* The crop of a mask and of the image over it: where the mask can be other than
 * 0.  "Outside ... a mask gives 0", and "An uncoded mask gives 0". */
static struct area crop_of(const struct stripe *stripe, uint32_t mask)
{
    if (is_virtual(stripe, mask)) {
        struct area all = {0, stripe->width, 0, stripe->height};
        return all;
    }
    return area_within(stripe, &stripe->layer[mask]);
}

/* A mask within its crop. */
static enum bit mask_at(const struct stripe *stripe, uint32_t mask, uint64_t x, uint64_t y)
{
    const struct layer *layer = &stripe->layer[mask];
    if (is_virtual(stripe, mask)) {
        return ONE;
    }
    if (layer->samples == NULL) {
        return UNKNOWN;
    }
    return octets_at(layer, x, y)[0] == 0 ? ZERO : ONE;
}

/* Painting */

static uint8_t *pixel_at(const struct stripe *stripe, uint8_t *band, uint64_t x, uint64_t y)
{
    return band + (y * stripe->width + x) * PIXEL_OCTETS;
}

/* "the colour and 1 for seen"; else the unseen colour, "its mark still 0". */
static void put_sample(const struct stripe *stripe, uint8_t *pixel, struct sample sample)
{
    memcpy(pixel, sample.known ? sample.colour : stripe->call->unseen, COLOUR_OCTETS);
    pixel[MARK] = sample.known ? 1 : 0;
}

/* Whether the pixel has the sample's colour, as far as both are known: the mark
 * tells, and no colour stands for what is not known. */
static bool is_same(const uint8_t *pixel, struct sample sample)
{
    return sample.known && pixel[MARK] == 1 && memcmp(pixel, sample.colour, COLOUR_OCTETS) == 0;
}

/* "mask 1 takes the layer just above, mask 0 keeps".  Of a mask that is not known
 * both are possible: the pixel stays seen where they agree. */
static void paint_pixel(const struct stripe *stripe, uint8_t *pixel, enum bit bit,
                        struct sample sample)
{
    if (bit == UNKNOWN) {
        sample.known = is_same(pixel, sample);
    }
    if (bit != ZERO) {
        put_sample(stripe, pixel, sample);
    }
}

/* "Start with layer 1", which gives every pixel its octets. */
static void paint_first(const struct stripe *stripe, uint8_t *band)
{
    const struct layer *first = &stripe->layer[1];
    struct area area = area_within(stripe, first);
    for (uint64_t y = 0; y < stripe->height; y++) {
        for (uint64_t x = 0; x < stripe->width; x++) {
            put_sample(stripe, pixel_at(stripe, band, x, y), image_at(first, area, x, y));
        }
    }
}

/* A mask and "the layer just above". */
static void paint_pair(const struct stripe *stripe, uint8_t *band, uint32_t mask)
{
    const struct layer *image = &stripe->layer[mask + 1];
    struct area crop = crop_of(stripe, mask);
    struct area area = area_within(stripe, image);
    for (uint64_t y = crop.top; y < crop.below; y++) {
        for (uint64_t x = crop.left; x < crop.right; x++) {
            paint_pixel(stripe, pixel_at(stripe, band, x, y), mask_at(stripe, mask, x, y),
                        image_at(image, area, x, y));
        }
    }
}

/* Answers */

static struct reference_answer refusal(unsigned number, size_t place)
{
    struct reference_answer answer = {number, (unsigned)place, 0};
    return answer;
}

/* "Refusals: those of a line in that order, BadLine meaning only the stripe." */
struct reference_answer reference_band(const struct reference_band_call *call, uint8_t *out,
                                       size_t out_octets)
{
    struct verdict verdict = sheet_judge(call->sheet, call->sheet_octets);
    size_t place;
    if (verdict.number != DONE) {
        return refusal(verdict.number, verdict.place);
    }
    struct stripe stripe = find_stripe(call);
    if (stripe.layers == 0) {
        return refusal(BAD_LINE, 0);
    }
    if (!take_planes(&stripe, &place)) {
        return refusal(BAD_PLANE, place);
    }
    uint64_t size = stripe.width * stripe.height * PIXEL_OCTETS;
    if (out_octets < size) {
        return refusal(NO_ROOM, 0);
    }
    paint_first(&stripe, out);
    for (uint32_t mask = 2; mask < stripe.layers; mask += 2) {
        paint_pair(&stripe, out, mask);
    }
    struct reference_answer answer = {DONE, 0, size};
    return answer;
}
