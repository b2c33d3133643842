/* PNM, as netpbm describes it: P1 to P3 in digits, P4 to P6 in octets; bits, grey and colour. */
#include <stdlib.h>

#include "picture_in.h"

enum { MOST_VALUE = 65535, NUMBER_LIMIT = 1000000 };

typedef struct {
    const uint8_t *octets;
    size_t length, at; /* at: the first octet not read */
    unsigned kind;     /* 1 to 6 */
    uint32_t width, height, most;
} pnm_reader;

static bool is_blank(uint8_t octet)
{
    return octet == ' ' || (octet >= '\t' && octet <= '\r');
}

static bool is_digit(uint8_t octet)
{
    return octet >= '0' && octet <= '9';
}

/* Blanks and comments, which run to the end of their line. */
static void pass_blanks(pnm_reader *pnm)
{
    bool comment = false;
    while (pnm->at < pnm->length &&
           (comment || is_blank(pnm->octets[pnm->at]) || pnm->octets[pnm->at] == '#')) {
        uint8_t octet = pnm->octets[pnm->at++];
        comment = octet == '#' || (comment && octet != '\n' && octet != '\r');
    }
}

/* A number that is too high comes out as NUMBER_LIMIT or more. */
static bool take_number(pnm_reader *pnm, uint32_t *number)
{
    pass_blanks(pnm);
    if (pnm->at == pnm->length || !is_digit(pnm->octets[pnm->at])) {
        return false;
    }
    for (*number = 0; pnm->at < pnm->length && is_digit(pnm->octets[pnm->at]); pnm->at++) {
        *number = *number >= NUMBER_LIMIT ? NUMBER_LIMIT
                                          : *number * 10 + pnm->octets[pnm->at] - '0';
    }
    return true;
}

static bool read_header(pnm_reader *pnm, trouble *what)
{
    pnm->kind = (unsigned)(pnm->octets[1] - '0');
    pnm->at = 2;
    pnm->most = 1;
    bool has_most = pnm->kind != 1 && pnm->kind != 4;
    if (!take_number(pnm, &pnm->width) || !take_number(pnm, &pnm->height) ||
        (has_most && !take_number(pnm, &pnm->most))) {
        return tell(what, "the PNM header is not whole");
    }
    if (pnm->most == 0 || pnm->most > MOST_VALUE) {
        return tell(what, "the PNM header's highest value must be 1 to %d", MOST_VALUE);
    }
    if (pnm->kind < 4) {
        return true;
    }
    if (pnm->at == pnm->length || !is_blank(pnm->octets[pnm->at])) {
        return tell(what, "the PNM header does not end in a blank");
    }
    pnm->at++;
    return true;
}

static unsigned colours(const pnm_reader *pnm)
{
    return pnm->kind % 3 == 0 ? 3 : 1;
}

/* Whether the samples can stand in what is left of the file.  In P1 each takes an octet at least;
 * in P2 and P3 two with its blank, but the last. */
static bool is_long_enough(const pnm_reader *pnm)
{
    uint64_t row = (uint64_t)pnm->width * colours(pnm), left = pnm->length - pnm->at;
    switch (pnm->kind) {
    case 1: return left >= row * pnm->height;
    case 2:
    case 3: return left + 1 >= row * pnm->height * 2;
    case 4: return left >= (row + 7) / 8 * pnm->height;
    default: return left >= row * pnm->height * (pnm->most > 255 ? 2 : 1);
    }
}

/* The next value of a P1, P2, P3, P5 or P6; false where there is none. */
static bool take_value(pnm_reader *pnm, uint32_t *value)
{
    if (pnm->kind == 1) { /* bits need no blanks between them */
        pass_blanks(pnm);
        *value = pnm->at < pnm->length ? (uint32_t)pnm->octets[pnm->at++] - '0' : MOST_VALUE + 1;
        return *value <= 1;
    }
    if (pnm->kind < 4) {
        return take_number(pnm, value);
    }
    *value = pnm->octets[pnm->at++];
    if (pnm->most > 255) {
        *value = *value << 8 | pnm->octets[pnm->at++];
    }
    return true;
}

static bool take_sample(pnm_reader *pnm, uint8_t *srgb, trouble *what)
{
    for (unsigned k = 0; k < colours(pnm); k++) {
        uint32_t value;
        if (!take_value(pnm, &value)) {
            return tell(
                what, "the PNM file ends before its samples do, or has something else among them");
        }
        if (value > pnm->most) {
            return tell(what, "the PNM file has a sample of %u, above its highest value %u",
                        (unsigned)value, (unsigned)pnm->most);
        }
        value = pnm->kind == 1 ? 1 - value : value;
        srgb[k] = (uint8_t)((value * 255 + pnm->most / 2) / pnm->most);
    }
    if (colours(pnm) == 1) {
        srgb[1] = srgb[2] = srgb[0];
    }
    return true;
}

static bool take_row(pnm_reader *pnm, uint8_t *srgb, trouble *what)
{
    if (pnm->kind != 4) {
        for (uint32_t x = 0; x < pnm->width; x++, srgb += 3) {
            if (!take_sample(pnm, srgb, what)) {
                return false;
            }
        }
        return true;
    }
    for (uint32_t x = 0; x < pnm->width; x++, srgb += 3) {
        bool dark = (pnm->octets[pnm->at + x / 8] & 0x80 >> x % 8) != 0;
        srgb[0] = srgb[1] = srgb[2] = dark ? 0 : 255;
    }
    pnm->at += ((size_t)pnm->width + 7) / 8;
    return true;
}

bool read_pnm(const uint8_t *octets, size_t length, picture_use use, picture *made, trouble *what)
{
    pnm_reader pnm = {.octets = octets, .length = length};
    if (!read_header(&pnm, what)) {
        return false;
    }
    /* silly sides are told before the file is called short; both before memory is asked for */
    bool sides = pnm.width > 0 && pnm.height > 0 && pnm.width <= PICTURE_SIDE &&
                 pnm.height <= PICTURE_SIDE;
    if (sides && !is_long_enough(&pnm)) {
        return tell(what, "the PNM file is too short for %u by %u samples", (unsigned)pnm.width,
                    (unsigned)pnm.height);
    }
    if (!begin_picture(made, use, pnm.width, pnm.height, what)) {
        return false;
    }
    made->is_grey = colours(&pnm) == 1;
    uint8_t *row = malloc((size_t)pnm.width * 3);
    bool done = row != NULL || tell_no_memory(what);
    for (uint32_t y = 0; done && y < pnm.height; y++) {
        done = take_row(&pnm, row, what);
        if (done) {
            put_row(made, y, row);
        }
    }
    free(row);
    return done;
}
