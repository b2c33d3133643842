// A line of pixels as C would have it: the sheet and the plane list are judged, the records of the
// stripe are decoded once, then the paper's rule is done for each layer of each pixel, a division
// and a fetch each. Compiled twice: with BY_ROWS the row of a layer is found once a line, and a pixel
// is worked out from the highest pair down.
#include "line.h"
#include "stripe.h"

#define UNREAD 2 // beside 0 and 1, a bit that is not known

#ifdef BY_ROWS
#define LINE c_line_by_rows
#else
#define LINE c_line
#endif

// ---- pixels

static uint32_t grey(uint8_t lightness)
{
    return SEEN | (uint32_t)lightness << 16 | 128 << 8 | 96;
}

#ifdef BY_ROWS
static void find_rows(struct stripe *s, uint32_t y)
{
    for (uint32_t n = 1; n <= s->layers; n++) {
        struct layer *l = &s->layer[n];
        l->crossed = l->coded && y >= l->y && y - l->y < l->height * l->k;
        if (l->crossed && l->samples != NULL)
            l->row = l->samples + (size_t)((y - l->y) / l->k) * l->width * l->size;
    }
}

static bool inside(const struct layer *l, uint32_t x, uint32_t y)
{
    (void)y;
    return l->crossed && x >= l->x && x - l->x < l->width * l->k;
}

static const uint8_t *sample(const struct layer *l, uint32_t x, uint32_t y, size_t size)
{
    (void)y;
    return l->row + (size_t)((x - l->x) / l->k) * size;
}
#else
static bool inside(const struct layer *l, uint32_t x, uint32_t y)
{
    return l->coded && x >= l->x && x - l->x < l->width * l->k && y >= l->y &&
           y - l->y < l->height * l->k;
}

static const uint8_t *sample(const struct layer *l, uint32_t x, uint32_t y, size_t size)
{
    uint32_t column = (x - l->x) / l->k, row = (y - l->y) / l->k;
    return l->samples + ((size_t)row * l->width + column) * size;
}
#endif

static uint32_t bit_at(const struct layer *l, uint32_t x, uint32_t y)
{
    if (!inside(l, x, y))
        return l->outside;
    if (l->samples == NULL)
        return UNREAD;
    return *sample(l, x, y, 1) != 0;
}

static uint32_t colour_at(const struct layer *l, uint32_t x, uint32_t y)
{
    if (!inside(l, x, y))
        return l->outside;
    if (l->samples == NULL)
        return 0;
    return l->size == 1 ? grey(*sample(l, x, y, 1)) : colour(sample(l, x, y, 3));
}

// Two colours that are not known are 0 both, and stay so.
static uint32_t agreed(uint32_t a, uint32_t b)
{
    return a == b ? a : 0;
}

#ifdef BY_ROWS
// From the highest pair down: a colour is fetched only where a bit may choose it.
static uint32_t pixel_at(const struct stripe *s, uint32_t x, uint32_t y)
{
    bool first = true;
    uint32_t shown = 0;
    for (uint32_t n = s->layers; n > 0; n -= 2) {
        uint32_t bit = n == 1 ? 1 : bit_at(&s->layer[n - 1], x, y);
        if (bit == 0)
            continue;
        uint32_t above = colour_at(&s->layer[n], x, y);
        shown = first ? above : agreed(shown, above);
        if (bit == 1 || shown == 0)
            break;
        first = false;
    }
    return shown;
}
#else
static uint32_t choose(uint32_t bit, uint32_t below, uint32_t above)
{
    if (bit == UNREAD)
        return agreed(below, above);
    return bit == 1 ? above : below;
}

static uint32_t pixel_at(const struct stripe *s, uint32_t x, uint32_t y)
{
    uint32_t shown = colour_at(&s->layer[1], x, y);
    for (uint32_t n = 2; n < s->layers; n += 2)
        shown = choose(bit_at(&s->layer[n], x, y), shown, colour_at(&s->layer[n + 1], x, y));
    return shown;
}
#endif

static void put_pixel(uint8_t *out, uint32_t shown)
{
    out[0] = (uint8_t)(shown >> 16);
    out[1] = (uint8_t)(shown >> 8);
    out[2] = (uint8_t)shown;
    out[3] = (uint8_t)(shown >> 24);
}

spirerook_answer LINE(const uint8_t *sheet, size_t sheet_len, const uint8_t *planes,
                      size_t planes_len, const uint8_t *samples, size_t samples_len,
                      uint32_t stripe, uint32_t line, uint8_t u0, uint8_t u1, uint8_t u2,
                      uint8_t *out, size_t out_len)
{
    struct stripe s;
    uint32_t unseen = (uint32_t)u0 << 16 | (uint32_t)u1 << 8 | u2;
    spirerook_answer a = judge_call(&s, sheet, sheet_len, planes, planes_len, samples, samples_len,
                                    stripe, line);
    if (a.number != SPIREROOK_DONE)
        return a;
    if (out_len < (size_t)s.page_width * 4)
        return (spirerook_answer){SPIREROOK_NO_ROOM, 0, 0};
#ifdef BY_ROWS
    find_rows(&s, line);
#endif
    for (uint32_t x = 0; x < s.page_width; x++) {
        uint32_t shown = pixel_at(&s, x, line);
        put_pixel(out + (size_t)x * 4, shown == 0 ? unseen : shown);
    }
    return (spirerook_answer){SPIREROOK_DONE, 0, (uint64_t)s.page_width * 4};
}
