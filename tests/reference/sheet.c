/* Every rule below is a question about records 0 to i: does record i, "with
 * those before it", break the rule?  The records before i are known to break
 * none when the question is put, for the first that does is the answer. */
#include "sheet.h"

#include <stdbool.h>

/* "All numbers are most significant octet first." */
static uint32_t number_at(const uint8_t *octets, size_t at, size_t size)
{
    uint32_t number = 0;
    for (size_t k = 0; k < size; k++) {
        number = number * 256 + octets[at + k];
    }
    return number;
}

/* The stripe of a record, by itself: whoever looks for one stripe looks at every record. */
static uint32_t stripe_of(const uint8_t *sheet, size_t number)
{
    return number_at(sheet + number * RECORD_OCTETS, 0, 2);
}

struct record sheet_record(const uint8_t *sheet, size_t number)
{
    const uint8_t *octets = sheet + number * RECORD_OCTETS;
    struct record r;
    r.stripe = stripe_of(sheet, number);
    r.layer = number_at(octets, 2, 1);
    r.coder = number_at(octets, 3, 1);
    r.x = number_at(octets, 4, 2);
    r.y = number_at(octets, 6, 2);
    r.width = number_at(octets, 8, 2);
    r.height = number_at(octets, 10, 2);
    r.resolution = number_at(octets, 12, 2);
    r.colour[0] = number_at(octets, 14, 1);
    r.colour[1] = number_at(octets, 15, 1);
    r.colour[2] = number_at(octets, 16, 1);
    r.grey = number_at(octets, 17, 1);
    r.start = number_at(octets, 18, 4);
    r.length = number_at(octets, 22, 4);
    r.zero_at_26 = number_at(octets, 26, 2);
    return r;
}

/* "A layer is coded when its length is not 0." */
static bool is_coded(struct record r)
{
    return r.length != 0;
}

static bool is_even(uint32_t number)
{
    return number % 2 == 0;
}

/* Whether one of the first `count` records is this layer of this stripe, and
 * if so, which record it is. */
static bool find(const uint8_t *sheet, size_t count, uint32_t stripe, uint32_t layer,
                 struct record *found)
{
    for (size_t j = 0; j < count; j++) {
        if (stripe_of(sheet, j) == stripe && sheet_record(sheet, j).layer == layer) {
            *found = sheet_record(sheet, j);
            return true;
        }
    }
    return false;
}

/* How many of the first `count` records belong to this stripe. */
static size_t records_of_stripe(const uint8_t *sheet, size_t count, uint32_t stripe)
{
    size_t sum = 0;
    for (size_t j = 0; j < count; j++) {
        if (stripe_of(sheet, j) == stripe) {
            sum++;
        }
    }
    return sum;
}

/* "ordered by stripe and then by layer as numbers" */
static bool breaks_order(const uint8_t *sheet, size_t i)
{
    struct record r = sheet_record(sheet, i);
    for (size_t j = 0; j < i; j++) {
        struct record before = sheet_record(sheet, j);
        if (before.stripe > r.stripe) {
            return true;
        }
        if (before.stripe == r.stripe && before.layer > r.layer) {
            return true;
        }
    }
    return false;
}

/* "Stripes run 0, 1, 2 with no gap, at most 64." */
static bool breaks_stripes(const uint8_t *sheet, size_t i)
{
    struct record r = sheet_record(sheet, i);
    if (r.stripe >= 64) {
        return true;
    }
    for (uint32_t stripe = 0; stripe < r.stripe; stripe++) {
        if (records_of_stripe(sheet, i, stripe) == 0) {
            return true;
        }
    }
    return false;
}

/* "Each has layers 1 to N, every number once" */
static bool breaks_layers(const uint8_t *sheet, size_t i)
{
    struct record r = sheet_record(sheet, i);
    struct record other;
    if (r.layer < 1) {
        return true;
    }
    for (uint32_t layer = 1; layer < r.layer; layer++) {
        if (!find(sheet, i, r.stripe, layer, &other)) {
            return true;
        }
    }
    return find(sheet, i, r.stripe, r.layer, &other);
}

/* "N odd, 3 to 15" */
static bool is_good_n(size_t n)
{
    return n % 2 == 1 && n >= 3 && n <= 15;
}

/* "N odd, 3 to 15": no layer goes above 15, and a stripe that is over when
 * record i begins a later one has its N.  "A stripe that stops badly is at the
 * record where the next was due": that is record i. */
static bool breaks_n(const uint8_t *sheet, size_t i)
{
    struct record r = sheet_record(sheet, i);
    if (r.layer > 15) {
        return true;
    }
    for (uint32_t stripe = 0; stripe < r.stripe && stripe < 64; stripe++) {
        if (!is_good_n(records_of_stripe(sheet, i, stripe))) {
            return true;
        }
    }
    return false;
}

/* The table: two octets at 26 that mean 0. */
static bool breaks_zeros(const uint8_t *sheet, size_t i)
{
    return sheet_record(sheet, i).zero_at_26 != 0;
}

/* "The sheet keeps it in octet 17 of a JPEG layer: 1 for one component, 0 for
 * three, and 0 in all other records."  A JPEG layer is an image layer that is
 * coded, by coder 1; what its data has, a sheet does not tell. */
static bool breaks_grey(const uint8_t *sheet, size_t i)
{
    struct record r = sheet_record(sheet, i);
    bool is_jpeg = is_coded(r) && !is_even(r.layer) && r.coder == 1;
    return r.grey != 0 && !(r.grey == 1 && is_jpeg);
}

/* "Coded: coder 1, 2, 4 or 8 for even layers, 1 for odd; width and height not
 * 0; start plus length below 2^32." */
static bool breaks_coded(const uint8_t *sheet, size_t i)
{
    struct record r = sheet_record(sheet, i);
    if (!is_coded(r)) {
        return false;
    }
    bool mask_coder = r.coder == 1 || r.coder == 2 || r.coder == 4 || r.coder == 8;
    if (is_even(r.layer) && !mask_coder) {
        return true;
    }
    if (!is_even(r.layer) && r.coder != 1) {
        return true;
    }
    if (r.width == 0 || r.height == 0) {
        return true;
    }
    return (uint64_t)r.start + (uint64_t)r.length >= UINT64_C(4294967296);
}

/* "Not coded: coder, start, offsets, width and height are 0" (the resolution
 * has its own rule below).  "Layer 2 is the exception": its width and height
 * are the page's and the stripe's, so coder and start are left of this rule. */
static bool breaks_uncoded(const uint8_t *sheet, size_t i)
{
    struct record r = sheet_record(sheet, i);
    if (is_coded(r)) {
        return false;
    }
    if (r.coder != 0 || r.start != 0) {
        return true;
    }
    if (r.layer == 2) {
        return false;
    }
    return r.x != 0 || r.y != 0 || r.width != 0 || r.height != 0;
}

/* "its offsets are always 0, its width is the page width and its height the
 * stripe height, coded or not (a virtual mask), within the page's bounds".
 * "The page, Mode 1": "Width 1 to 32,768. Stripe height 1 to 65,535; their sum
 * at most 65,535." */
static bool breaks_layer_2(const uint8_t *sheet, size_t i)
{
    struct record r = sheet_record(sheet, i);
    if (r.layer != 2) {
        return false;
    }
    if (r.x != 0 || r.y != 0) {
        return true;
    }
    if (r.width < 1 || r.width > 32768) {
        return true;
    }
    if (r.height < 1 || r.height > 65535) {
        return true;
    }
    uint64_t heights = 0;
    for (size_t j = 0; j <= i; j++) {
        struct record up_to_here = sheet_record(sheet, j);
        if (up_to_here.layer == 2) {
            heights += up_to_here.height;
        }
    }
    return heights > 65535;
}

/* "Layer 2's width and resolution are the same in all stripes." */
static bool breaks_sameness(const uint8_t *sheet, size_t i)
{
    struct record r = sheet_record(sheet, i);
    if (r.layer != 2) {
        return false;
    }
    for (size_t j = 0; j < i; j++) {
        struct record before = sheet_record(sheet, j);
        if (before.layer == 2 && before.width != r.width) {
            return true;
        }
        if (before.layer == 2 && before.resolution != r.resolution) {
            return true;
        }
    }
    return false;
}

/* "Resolutions: 100, 200, 300, 400, 600, 1200." */
static bool is_listed(uint32_t resolution)
{
    return resolution == 100 || resolution == 200 || resolution == 300 || resolution == 400 ||
           resolution == 600 || resolution == 1200;
}

/* "Every resolution is listed" */
static bool breaks_listing_of_resolutions(const uint8_t *sheet, size_t i)
{
    return !is_listed(sheet_record(sheet, i).resolution);
}

/* "Every resolution is listed and divides layer 2's"; "Not coded: ...
 * resolution is the main one".  Only for a resolution that is listed. */
static bool fits_main(struct record r, uint32_t main_resolution)
{
    if (!is_listed(r.resolution)) {
        return false;
    }
    if (!is_coded(r)) {
        return r.resolution == main_resolution;
    }
    return main_resolution % r.resolution == 0;
}

/* The two rules of `fits_main`.  "Numbers that a call returns": "layer 1's
 * resolution is matched at layer 2", in every stripe; higher layers have layer
 * 2 before them and are matched where they stand. */
static bool breaks_match_of_resolutions(const uint8_t *sheet, size_t i)
{
    struct record r = sheet_record(sheet, i);
    struct record layer_1;
    struct record layer_2;
    if (r.layer == 1) {
        return false;
    }
    if (r.layer == 2) {
        return find(sheet, i, r.stripe, 1, &layer_1) && !fits_main(layer_1, r.resolution);
    }
    return find(sheet, i, r.stripe, 2, &layer_2) && !fits_main(r, layer_2.resolution);
}

/* "Even layers have base colour 0 0 0." */
static bool breaks_colour(const uint8_t *sheet, size_t i)
{
    struct record r = sheet_record(sheet, i);
    return is_even(r.layer) && (r.colour[0] != 0 || r.colour[1] != 0 || r.colour[2] != 0);
}

/* "In each stripe at least one of layers 1 to 3 is coded, and 1 and 3 are not
 * both coded without 2."  "Numbers that a call returns": "a wrong choice of
 * coded layers 1 to 3 at layer 3". */
static bool breaks_choice(const uint8_t *sheet, size_t i)
{
    struct record layer_3 = sheet_record(sheet, i);
    struct record layer_1;
    struct record layer_2;
    if (layer_3.layer != 3 || !find(sheet, i, layer_3.stripe, 1, &layer_1) ||
        !find(sheet, i, layer_3.stripe, 2, &layer_2)) {
        return false;
    }
    if (!is_coded(layer_1) && !is_coded(layer_2) && !is_coded(layer_3)) {
        return true;
    }
    return is_coded(layer_1) && is_coded(layer_3) && !is_coded(layer_2);
}

struct rule {
    const char *name;
    bool (*breaks)(const uint8_t *sheet, size_t i);
};

static const struct rule rules[] = {
    {"order", breaks_order},
    {"stripes", breaks_stripes},
    {"layers", breaks_layers},
    {"N", breaks_n},
    {"zeros", breaks_zeros},
    {"grey", breaks_grey},
    {"coded", breaks_coded},
    {"uncoded", breaks_uncoded},
    {"layer 2", breaks_layer_2},
    {"same in all stripes", breaks_sameness},
    {"resolution listed", breaks_listing_of_resolutions},
    {"resolution matched", breaks_match_of_resolutions},
    {"base colour", breaks_colour},
    {"choice", breaks_choice},
};

/* A rule that records 0 to i break, or null. */
static const char *broken_rule(const uint8_t *sheet, size_t i)
{
    for (size_t k = 0; k < sizeof rules / sizeof rules[0]; k++) {
        if (rules[k].breaks(sheet, i)) {
            return rules[k].name;
        }
    }
    return NULL;
}

static struct verdict refused_at(size_t place, const char *rule)
{
    struct verdict answer = {BAD_SHEET, rule, place, 0, 0};
    return answer;
}

struct verdict sheet_judge(const uint8_t *sheet, size_t octets)
{
    size_t whole = octets / RECORD_OCTETS;
    /* "The record is the first that, with those before it, breaks a rule" */
    for (size_t i = 0; i < whole; i++) {
        const char *rule = broken_rule(sheet, i);
        if (rule != NULL) {
            return refused_at(i, rule);
        }
    }
    /* "a part record ... is at the record where the next was due" */
    if (octets % RECORD_OCTETS != 0) {
        return refused_at(whole, "part record");
    }
    /* "A sheet of no octets is refused": record 0 was due. */
    if (whole == 0) {
        return refused_at(0, "no octets");
    }
    /* "a stripe that stops badly, is at the record where the next was due" */
    uint32_t last_stripe = sheet_record(sheet, whole - 1).stripe;
    if (!is_good_n(records_of_stripe(sheet, whole, last_stripe))) {
        return refused_at(whole, "stops badly");
    }
    struct verdict answer = {DONE, NULL, 0, whole, (size_t)last_stripe + 1};
    return answer;
}
