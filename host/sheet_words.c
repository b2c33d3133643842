/* The rules of a sheet, one question each.  All records before the one asked about are known to
 * break none, and a rule is asked only where those above it are kept: so the layers below are found
 * in the records just before. */
#include "sheet_words.h"

#include <spirerook.h>
#include <stdbool.h>

/* A record, the one before it, and layers 1 and 2 of its stripe: null where there is none. */
typedef struct {
    const uint8_t *sheet, *at, *before, *first, *second;
    size_t number;
    uint32_t stripe, layer;
} asked;

/* This layer of the record's stripe, among the records before it. */
static const uint8_t *layer_below(const asked *of, uint32_t layer)
{
    for (size_t k = of->number; k > 0; k--) {
        const uint8_t *record = spirerook_record_at(of->sheet, k - 1);
        if (spirerook_record_stripe(record) != of->stripe) {
            return NULL;
        }
        if (spirerook_record_layer(record) == layer) {
            return record;
        }
    }
    return NULL;
}

static asked ask(const uint8_t *sheet, size_t number)
{
    asked of = {.sheet = sheet, .at = spirerook_record_at(sheet, number), .number = number};
    of.before = number == 0 ? NULL : spirerook_record_at(sheet, number - 1);
    of.stripe = spirerook_record_stripe(of.at);
    of.layer = spirerook_record_layer(of.at);
    of.first = layer_below(&of, 1);
    of.second = layer_below(&of, 2);
    return of;
}

/* ---- Places ---- */

static bool is_same_stripe(const asked *of)
{
    return of->before != NULL && spirerook_record_stripe(of->before) == of->stripe;
}

static bool too_many(const asked *of)
{
    return of->number >= SPIREROOK_RECORDS;
}

static bool out_of_order(const asked *of)
{
    return of->before != NULL &&
           (of->stripe < spirerook_record_stripe(of->before) ||
            (is_same_stripe(of) && of->layer < spirerook_record_layer(of->before)));
}

static bool not_zero(const asked *of)
{
    return of->at[26] != 0 || of->at[27] != 0;
}

static bool stripe_gap(const asked *of)
{
    return of->stripe > (of->before == NULL ? 0 : spirerook_record_stripe(of->before) + 1);
}

static bool stripe_high(const asked *of)
{
    return of->stripe >= SPIREROOK_STRIPES;
}

static bool layer_gap(const asked *of)
{
    uint32_t below = is_same_stripe(of) ? spirerook_record_layer(of->before) : 0;
    return of->layer == 0 || of->layer > below + 1;
}

static bool layer_twice(const asked *of)
{
    return is_same_stripe(of) && of->layer == spirerook_record_layer(of->before);
}

static bool layer_high(const asked *of)
{
    return of->layer > SPIREROOK_LAYERS;
}

static bool may_end(uint32_t layer)
{
    return layer >= 3 && layer % 2 == 1;
}

static bool ends_badly(const asked *of)
{
    return of->before != NULL && !is_same_stripe(of) &&
           !may_end(spirerook_record_layer(of->before));
}

/* ---- Coded and not ---- */

static bool is_coded(const asked *of)
{
    return spirerook_record_coded(of->at) != 0;
}

static bool mask_coder(const asked *of)
{
    uint32_t coder = spirerook_record_coder(of->at);
    return is_coded(of) && spirerook_record_mask(of->at) && coder != 1 && coder != 2 &&
           coder != 4 && coder != 8;
}

static bool image_coder(const asked *of)
{
    return is_coded(of) && !spirerook_record_mask(of->at) && spirerook_record_coder(of->at) != 1;
}

static bool not_grey(const asked *of)
{
    uint32_t grey = spirerook_record_grey(of->at);
    bool may_be = is_coded(of) && !spirerook_record_mask(of->at) &&
                  spirerook_record_coder(of->at) == 1;
    return grey > (may_be ? 1 : 0);
}

static bool no_samples(const asked *of)
{
    return is_coded(of) && spirerook_record_samples(of->at) == 0;
}

static bool data_far(const asked *of)
{
    return is_coded(of) &&
           spirerook_record_length(of->at) > UINT32_MAX - spirerook_record_start(of->at);
}

static bool uncoded_coder(const asked *of)
{
    return !is_coded(of) && spirerook_record_coder(of->at) != 0;
}

static bool uncoded_start(const asked *of)
{
    return !is_coded(of) && spirerook_record_start(of->at) != 0;
}

static bool has_offset(const asked *of)
{
    return spirerook_record_x(of->at) != 0 || spirerook_record_y(of->at) != 0;
}

static bool uncoded_offset(const asked *of)
{
    return !is_coded(of) && of->layer != 2 && has_offset(of);
}

static bool uncoded_size(const asked *of)
{
    return !is_coded(of) && of->layer != 2 &&
           (spirerook_record_width(of->at) != 0 || spirerook_record_height(of->at) != 0);
}

/* ---- Layer 2, which tells the page's sides ---- */

static bool page_offset(const asked *of)
{
    return of->layer == 2 && has_offset(of);
}

static bool page_width(const asked *of)
{
    uint32_t width = spirerook_record_width(of->at);
    return of->layer == 2 && (width == 0 || width > SPIREROOK_WIDTH);
}

static bool stripe_height(const asked *of)
{
    return of->layer == 2 && spirerook_record_height(of->at) == 0;
}

static bool page_height(const asked *of)
{
    uint64_t sum = 0;
    for (size_t k = 0; of->layer == 2 && k <= of->number; k++) {
        const uint8_t *record = spirerook_record_at(of->sheet, k);
        sum += spirerook_record_layer(record) == 2 ? spirerook_record_height(record) : 0;
    }
    return sum > SPIREROOK_HEIGHT;
}

/* Record 1 is layer 2 of stripe 0. */
static bool other_width(const asked *of)
{
    return of->layer == 2 && of->number > 1 &&
           spirerook_record_width(of->at) !=
               spirerook_record_width(spirerook_record_at(of->sheet, 1));
}

static bool other_resolution(const asked *of)
{
    return of->layer == 2 && of->number > 1 &&
           spirerook_record_resolution(of->at) !=
               spirerook_record_resolution(spirerook_record_at(of->sheet, 1));
}

/* ---- Resolutions: layer 1's is matched at layer 2 ---- */

static bool not_listed(const asked *of)
{
    uint32_t resolution = spirerook_record_resolution(of->at);
    return resolution != 100 && resolution != 200 && resolution != 300 && resolution != 400 &&
           resolution != 600 && resolution != 1200;
}

static bool differs(const uint8_t *layer, const uint8_t *second)
{
    return layer != NULL && second != NULL && !spirerook_record_coded(layer) &&
           spirerook_record_resolution(layer) != spirerook_record_resolution(second);
}

static bool no_divisor(const uint8_t *layer, const uint8_t *second)
{
    uint32_t resolution = layer == NULL ? 0 : spirerook_record_resolution(layer);
    return resolution != 0 && second != NULL &&
           spirerook_record_resolution(second) % resolution != 0;
}

static bool first_differs(const asked *of)
{
    return of->layer == 2 && differs(of->first, of->at);
}

static bool first_no_divisor(const asked *of)
{
    return of->layer == 2 && no_divisor(of->first, of->at);
}

static bool upper_differs(const asked *of)
{
    return of->layer > 2 && differs(of->at, of->second);
}

static bool upper_no_divisor(const asked *of)
{
    return of->layer > 2 && no_divisor(of->at, of->second);
}

/* ---- Colours and the choice of layers ---- */

static bool mask_colour(const asked *of)
{
    const uint8_t *base = spirerook_record_base(of->at);
    return spirerook_record_mask(of->at) && (base[0] != 0 || base[1] != 0 || base[2] != 0);
}

static bool is_third(const asked *of)
{
    return of->layer == 3 && of->first != NULL && of->second != NULL;
}

static bool none_coded(const asked *of)
{
    return is_third(of) && !spirerook_record_coded(of->first) &&
           !spirerook_record_coded(of->second) && !is_coded(of);
}

static bool two_unparted(const asked *of)
{
    return is_third(of) && spirerook_record_coded(of->first) &&
           !spirerook_record_coded(of->second) && is_coded(of);
}

/* clang-format off */
/* In the order of the paper; but how resolutions match is asked only of such as there are. */
static const struct {
    bool (*breaks)(const asked *of);
    const char *words;
} rules[] = {
    {too_many, "a sheet has at most 960 records"},
    {out_of_order, "records must stand in order of stripe, and in a stripe of layer"},
    {not_zero, "octets 26 and 27 of a record must be 0"},
    {stripe_gap, "stripes must run 0, 1, 2 with no gap"},
    {stripe_high, "a sheet has at most 64 stripes"},
    {layer_gap, "a stripe's layers must run 1, 2, 3 with no gap"},
    {layer_twice, "a stripe must have each layer once"},
    {layer_high, "a stripe has at most 15 layers"},
    {ends_badly, "the stripe before must end with an odd layer, 3 or above"},
    {mask_coder, "a coded mask's coder must be 1, 2, 4 or 8"},
    {image_coder, "a coded image's coder must be 1"},
    {not_grey, "octet 17 of a record must be 0, or 1 in that of a coded image of coder 1"},
    {no_samples, "a coded layer's width and height must not be 0"},
    {data_far, "a coded layer's start plus its length must be below 2^32"},
    {uncoded_coder, "a layer that is not coded must have coder 0"},
    {uncoded_start, "a layer that is not coded must have start 0"},
    {uncoded_offset, "a layer that is not coded must have offsets 0 0"},
    {uncoded_size, "a layer that is not coded must have width and height 0, but for layer 2"},
    {page_offset, "layer 2 must have offsets 0 0"},
    {page_width, "layer 2's width, which is the page's, must be 1 to 32768"},
    {stripe_height, "layer 2's height, which is the stripe's, must be 1 to 65535"},
    {page_height, "the heights of all stripes must sum to 65535 at most"},
    {other_width, "layer 2 must have the same width in all stripes"},
    {other_resolution, "layer 2 must have the same resolution in all stripes"},
    {not_listed, "a resolution must be 100, 200, 300, 400, 600 or 1200"},
    {first_differs, "layer 1 is not coded, so its resolution must be layer 2's"},
    {first_no_divisor, "layer 1's resolution must divide layer 2's"},
    {upper_differs, "a layer that is not coded must have layer 2's resolution"},
    {upper_no_divisor, "a layer's resolution must divide layer 2's"},
    {mask_colour, "a mask's base colour must be 0 0 0"},
    {none_coded, "at least one of layers 1 to 3 must be coded"},
    {two_unparted, "layers 1 and 3 must not both be coded without layer 2"},
};
/* clang-format on */

/* No whole record stands at the place. */
static const char *broken_end(const uint8_t *sheet, size_t octets)
{
    size_t records = octets / SPIREROOK_RECORD_OCTETS;
    if (octets % SPIREROOK_RECORD_OCTETS != 0) {
        return "a sheet must end with a whole record of 28 octets";
    }
    if (records == 0) {
        return "a sheet must not be empty";
    }
    return may_end(spirerook_record_layer(spirerook_record_at(sheet, records - 1)))
               ? NULL
               : "the last stripe must end with an odd layer, 3 or above";
}

const char *broken_rule(const uint8_t *sheet, size_t octets, size_t record)
{
    const char *words = NULL;
    if (record >= octets / SPIREROOK_RECORD_OCTETS) {
        words = broken_end(sheet, octets);
    } else {
        asked of = ask(sheet, record);
        for (size_t k = 0; words == NULL && k < sizeof rules / sizeof *rules; k++) {
            words = rules[k].breaks(&of) ? rules[k].words : NULL;
        }
    }
    return words != NULL ? words : "it is not known here which";
}
