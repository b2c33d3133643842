/* All is judged before the first octet is written, so that a refusal changes
 * nothing.
 *
 * Whether a pixel is seen is found out by trying: contents of the unread
 * samples that stand at this pixel are put in place one after the other, the
 * pixel is composed under each, and it is seen exactly if one colour comes out
 * of all.  Nothing here works with samples that are not known.
 *
 * Sizes and positions are 64 bits wide: a layer may have 65,535 rows of 65,535
 * samples of three octets, and 65,535 samples of 12 main pixels each. */
#include "line.h"

#include "numbers.h"
#include "sheet.h"

#include <stdbool.h>

enum {
    ENTRY_OCTETS = 5, /* "an entry is five octets, the layer and four of
                         start" */
    PIXEL_OCTETS = 4, /* "A line is four octets a pixel" */
    MOST_LAYERS = 15, /* "N odd, 3 to 15" */
    PROBES = 2        /* values tried of an unread sample: both of a bit, and
                         see `choose_probes` for a colour */
};

/* What a line is composed of: the call, and the records of the stripe that it
 * names, by their layers; no layers where there is no such stripe. */
struct work {
    const struct reference_line_call *call;
    uint32_t layers; /* N */
    struct record record[MOST_LAYERS + 1];
};

/* An entry of "the plane list". */
struct plane {
    uint32_t layer;
    uint64_t start;
};

/* All layers of a stripe at one pixel.  A colour is its three octets as one
 * number; the value of a mask is 0 or 1. */
struct pixel {
    uint32_t layers;                 /* N */
    uint32_t value[MOST_LAYERS + 1]; /* of each layer, under some content */
    bool unread[MOST_LAYERS + 1];    /* whether a content may choose it */
    bool grey[MOST_LAYERS + 1];      /* and then among greys only */
};

/* "A layer is coded when its length is not 0." */
static bool is_coded(struct record r)
{
    return r.length != 0;
}

static bool is_mask(uint32_t layer)
{
    return layer % 2 == 0;
}

/* "octet 17 of a JPEG layer: 1 for one component" */
static bool is_grey(struct record r)
{
    return r.grey == 1;
}

/* The records of the stripe.  Only for a sheet that keeps the rules: "Each has
 * layers 1 to N". */
static struct work find_stripe(const struct reference_line_call *call)
{
    struct work work = {.call = call, .layers = 0};
    for (size_t i = 0; i < call->sheet_octets / RECORD_OCTETS; i++) {
        struct record r = sheet_record(call->sheet, i);
        if (r.stripe == call->stripe) {
            work.record[r.layer] = r;
            work.layers = r.layer;
        }
    }
    return work;
}

/* BadLine: "no such stripe or line".  Layer 2's "height the stripe height". */
static bool has_line(const struct work *work)
{
    return work->layers != 0 && work->call->line < work->record[2].height;
}

/* The plane list */

static struct plane plane_at(const struct reference_line_call *call, size_t i)
{
    const uint8_t *octets = call->planes + i * ENTRY_OCTETS;
    struct plane plane = {octets[0], 0};
    /* "All numbers are most significant octet first." */
    for (size_t k = 1; k < ENTRY_OCTETS; k++) {
        plane.start = plane.start * 256 + octets[k];
    }
    return plane;
}

/* "Mask samples are one octet ..., image samples three, row by row."  "Planes of
 * such layers", which are grey, "hold one octet a sample, the lightness
 * code". */
static uint64_t sample_size(struct record r)
{
    return is_mask(r.layer) || is_grey(r) ? 1 : 3;
}

/* BadPlane: "a listed layer is absent, uncoded, out of order, or runs past the
 * sample buffer"; "layers rising", so that a layer listed twice is out of
 * order. */
static bool is_bad_plane(const struct work *work, size_t i)
{
    struct plane plane = plane_at(work->call, i);
    if (plane.layer < 1 || plane.layer > work->layers) {
        return true;
    }
    struct record r = work->record[plane.layer];
    if (!is_coded(r)) {
        return true;
    }
    for (size_t j = 0; j < i; j++) {
        if (plane_at(work->call, j).layer >= plane.layer) {
            return true;
        }
    }
    uint64_t size = (uint64_t)r.width * r.height * sample_size(r);
    return plane.start + size > work->call->sample_octets;
}

/* "a part entry is BadPlane": at the number of whole entries, which come before
 * it. */
static bool find_bad_plane(const struct work *work, size_t *place)
{
    size_t whole = work->call->plane_octets / ENTRY_OCTETS;
    for (size_t i = 0; i < whole; i++) {
        if (is_bad_plane(work, i)) {
            *place = i;
            return true;
        }
    }
    *place = whole;
    return work->call->plane_octets % ENTRY_OCTETS != 0;
}

/* "A coded layer that isn't listed is unread." */
static bool find_plane(const struct reference_line_call *call, uint32_t layer, struct plane *found)
{
    for (size_t i = 0; i < call->plane_octets / ENTRY_OCTETS; i++) {
        if (plane_at(call, i).layer == layer) {
            *found = plane_at(call, i);
            return true;
        }
    }
    return false;
}

/* The layers at a pixel */

static uint32_t colour_of(uint32_t first, uint32_t second, uint32_t third)
{
    return first * 65536 + second * 256 + third;
}

/* Of a grey layer's sample: "the colour is that octet, then 128, then 96". */
static uint32_t grey_of(uint32_t lightness)
{
    return colour_of(lightness, 128, 96);
}

/* "k = main resolution / layer resolution, and a layer covers width x k by
 * height x k main pixels from its offset" */
static bool is_inside(struct record r, uint64_t k, uint64_t x, uint64_t y)
{
    uint64_t right = r.x + r.width * k;
    uint64_t below = r.y + r.height * k;
    return x >= r.x && x < right && y >= r.y && y < below;
}

/* "Outside, an image layer gives its base colour and a mask gives 0."  Of an
 * uncoded layer all is outside, but for the virtual mask: "an uncoded layer 2
 * gives 1 all over a stripe whose layer 3 is coded." */
static uint32_t value_outside(const struct work *work, struct record r)
{
    if (!is_mask(r.layer)) {
        return colour_of(r.colour[0], r.colour[1], r.colour[2]);
    }
    if (r.layer == 2 && !is_coded(r) && is_coded(work->record[3])) {
        return 1;
    }
    return 0;
}

/* "Inside, pixel (x, y) takes sample ((x - xo) / k, (y - yo) / k), rounded
 * down."  "Mask samples are one octet (0 is 0, all else 1), image samples
 * three, row by row", but of a grey layer one. */
static uint32_t value_read(const struct reference_line_call *call, struct record r,
                           struct plane plane, uint64_t k, uint64_t x)
{
    uint64_t column = (x - r.x) / k;
    uint64_t row = (call->line - r.y) / k;
    uint64_t number = row * r.width + column;
    const uint8_t *sample = call->samples + (plane.start + number * sample_size(r));
    if (is_mask(r.layer)) {
        return sample[0] == 0 ? 0 : 1;
    }
    if (is_grey(r)) {
        return grey_of(sample[0]);
    }
    return colour_of(sample[0], sample[1], sample[2]);
}

/* What the sheet and the samples that were read say of a layer at pixel x of
 * the line. */
static void look_at_layer(const struct work *work, uint32_t layer, uint64_t x, struct pixel *pixel)
{
    struct plane plane;
    struct record r = work->record[layer];
    uint64_t k = work->record[2].resolution / r.resolution;
    if (!is_coded(r) || !is_inside(r, k, x, work->call->line)) {
        pixel->value[layer] = value_outside(work, r);
    } else if (find_plane(work->call, layer, &plane)) {
        pixel->value[layer] = value_read(work->call, r, plane, k, x);
    } else {
        pixel->unread[layer] = true;
        pixel->grey[layer] = is_grey(r);
    }
}

static struct pixel pixel_at(const struct work *work, uint64_t x)
{
    struct pixel pixel = {work->layers, {0}, {false}, {false}};
    for (uint32_t layer = 1; layer <= work->layers; layer++) {
        look_at_layer(work, layer, x, &pixel);
    }
    return pixel;
}

/* The colour of a pixel */

/* "Start with layer 1. For layers 2, 4, 6 and so on upward: mask 1 takes the
 * layer just above, mask 0 keeps." */
static uint32_t compose(const struct pixel *pixel)
{
    uint32_t colour = pixel->value[1];
    for (uint32_t mask = 2; mask < pixel->layers; mask += 2) {
        if (pixel->value[mask] == 1) {
            colour = pixel->value[mask + 1];
        }
    }
    return colour;
}

/* Whether a layer that is known at this pixel has this colour. */
static bool is_known_colour(const struct pixel *pixel, uint32_t colour)
{
    for (uint32_t layer = 1; layer <= pixel->layers; layer += 2) {
        if (!pixel->unread[layer] && pixel->value[layer] == colour) {
            return true;
        }
    }
    return false;
}

/* What is tried of unread samples. */
struct probes {
    uint32_t colour[PROBES];
    uint32_t grey[PROBES]; /* "Unread grey layers can hold only such colours" */
};

/* The colours tried of an unread image sample: the first two that no known
 * layer has here, and of a grey layer's the first two greys; at most eight
 * layers are known, so there are always two.  Two are enough.  A pixel's colour
 * is the value of one image layer, and the mask bits alone choose which.  Where
 * two contents give two colours, look at the layers that their bits choose.  If
 * one of these layers is unread, the same bits and its two probes give two
 * colours; if both are known, the same two sets of bits give the same two
 * colours as before, whatever the probes are.  All sets of bits are tried, so
 * the trials differ too. */
static struct probes choose_probes(const struct pixel *pixel)
{
    struct probes probes;
    uint32_t colour = 0;
    uint32_t lightness = 0;
    for (size_t i = 0; i < PROBES; i++) {
        while (is_known_colour(pixel, colour)) {
            colour++;
        }
        while (is_known_colour(pixel, grey_of(lightness))) {
            lightness++;
        }
        probes.colour[i] = colour++;
        probes.grey[i] = grey_of(lightness++);
    }
    return probes;
}

/* How many contents are tried: each unread sample, bit or colour, takes two
 * values free of all others, and there are at most 15: 32,768. */
static uint32_t count_contents(const struct pixel *pixel)
{
    uint32_t contents = 1;
    for (uint32_t layer = 1; layer <= pixel->layers; layer++) {
        contents *= pixel->unread[layer] ? PROBES : 1;
    }
    return contents;
}

/* "A possible content gives every sample of every unread layer any value, 0 or
 * 1 in a mask and any three octets in an image layer, each free of all
 * others", of a grey layer any lightness: the content of this number. */
static void put_content(struct pixel *pixel, uint32_t number, const struct probes *probes)
{
    for (uint32_t layer = 1; layer <= pixel->layers; layer++) {
        if (pixel->unread[layer]) {
            uint32_t choice = number % PROBES;
            number /= PROBES;
            const uint32_t *probe = pixel->grey[layer] ? probes->grey : probes->colour;
            pixel->value[layer] = is_mask(layer) ? choice : probe[choice];
        }
    }
}

/* Whether every content gives one colour, and which. */
static bool is_seen(struct pixel *pixel, uint32_t *colour)
{
    struct probes probes = choose_probes(pixel);
    put_content(pixel, 0, &probes);
    *colour = compose(pixel);
    for (uint32_t i = 1; i < count_contents(pixel); i++) {
        put_content(pixel, i, &probes);
        if (compose(pixel) != *colour) {
            return false;
        }
    }
    return true;
}

/* "the colour and 1 for seen"; an unseen pixel has the unseen colour, "its mark
 * still 0".  Nothing else depends on that colour, so that a seen pixel may have
 * it too. */
static void put_pixel(uint8_t *octets, bool seen, uint32_t colour, uint32_t unseen)
{
    uint32_t shown = seen ? colour : unseen;
    octets[0] = (uint8_t)(shown / 65536);
    octets[1] = (uint8_t)(shown / 256 % 256);
    octets[2] = (uint8_t)(shown % 256);
    octets[3] = seen ? 1 : 0;
}

/* Answers */

static struct reference_answer refusal(unsigned number, size_t place)
{
    struct reference_answer answer = {number, (unsigned)place, 0};
    return answer;
}

/* "Lines: BadSheet, BadLine, BadPlane, NoRoom. ... For these the place is the
 * record or list entry, else 0." */
struct reference_answer reference_line(const struct reference_line_call *call, uint8_t *out,
                                       size_t out_octets)
{
    struct verdict verdict = sheet_judge(call->sheet, call->sheet_octets);
    size_t place;
    if (verdict.number != DONE) {
        return refusal(verdict.number, verdict.place);
    }
    struct work work = find_stripe(call);
    if (!has_line(&work)) {
        return refusal(BAD_LINE, 0);
    }
    if (find_bad_plane(&work, &place)) {
        return refusal(BAD_PLANE, place);
    }
    /* layer 2's "width is the page width" */
    uint64_t size = (uint64_t)work.record[2].width * PIXEL_OCTETS;
    if (out_octets < size) {
        return refusal(NO_ROOM, 0);
    }
    uint32_t unseen = colour_of(call->unseen[0], call->unseen[1], call->unseen[2]);
    for (uint64_t x = 0; x < work.record[2].width; x++) {
        uint32_t colour;
        struct pixel pixel = pixel_at(&work, x);
        bool seen = is_seen(&pixel, &colour);
        put_pixel(out + x * PIXEL_OCTETS, seen, colour, unseen);
    }
    struct reference_answer answer = {DONE, 0, size};
    return answer;
}
