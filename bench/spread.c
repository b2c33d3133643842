// The samples of a row as k pixels each, k a constant in each loop. Stores go past a sample's own
// pixels, and the next sample's overwrite them.
#include "coat.h"
#include "four.h"

#define ALWAYS static inline __attribute__((always_inline))

// ---- masks

// Eight octets at once, by multiplication.
ALWAYS void octets_by(uint8_t *out, const uint8_t *p, size_t count, size_t k)
{
    for (size_t i = 0; i < count; i++) {
        uint64_t eight = p[i] * 0x0101010101010101u;
        memcpy(out + i * k, &eight, 8);
        if (k > 8)
            memcpy(out + i * k + k - 8, &eight, 8);
    }
}

#ifdef __SSE2__
static void octets_by_two(uint8_t *out, const uint8_t *p, size_t count)
{
    size_t i = 0;
    for (; i + 16 <= count; i += 16) {
        four v = four_at(p + i);
        put_four(out + 2 * i, _mm_unpacklo_epi8(v, v));
        put_four(out + 2 * i + 16, _mm_unpackhi_epi8(v, v));
    }
    octets_by(out + 2 * i, p + i, count - i, 2);
}

static void octets_by_four(uint8_t *out, const uint8_t *p, size_t count)
{
    size_t i = 0;
    for (; i + 16 <= count; i += 16) {
        four v = four_at(p + i), low = _mm_unpacklo_epi8(v, v), high = _mm_unpackhi_epi8(v, v);
        put_four(out + 4 * i, _mm_unpacklo_epi8(low, low));
        put_four(out + 4 * i + 16, _mm_unpackhi_epi8(low, low));
        put_four(out + 4 * i + 32, _mm_unpacklo_epi8(high, high));
        put_four(out + 4 * i + 48, _mm_unpackhi_epi8(high, high));
    }
    octets_by(out + 4 * i, p + i, count - i, 4);
}
#else
static void octets_by_two(uint8_t *out, const uint8_t *p, size_t count)
{
    octets_by(out, p, count, 2);
}

static void octets_by_four(uint8_t *out, const uint8_t *p, size_t count)
{
    octets_by(out, p, count, 4);
}
#endif

void spread_mask(uint8_t *out, const uint8_t *samples, size_t count, uint32_t k)
{
    switch (k) {
    case 2: octets_by_two(out, samples, count); break;
    case 3: octets_by(out, samples, count, 3); break;
    case 4: octets_by_four(out, samples, count); break;
    case 6: octets_by(out, samples, count, 6); break;
    default: octets_by(out, samples, count, 12);
    }
}

// ---- images

#define PUT(at, a, b, c, d) put_four(out + 16 * (at), CHOSEN(v, a, b, c, d))

// Four words, k pixels each.
ALWAYS void put_spread(uint8_t *out, four v, size_t k)
{
    switch (k) {
    case 2: PUT(0, 0, 0, 1, 1), PUT(1, 2, 2, 3, 3); break;
    case 3: PUT(0, 0, 0, 0, 1), PUT(1, 1, 1, 2, 2), PUT(2, 2, 3, 3, 3); break;
    case 4: PUT(0, 0, 0, 0, 0), PUT(1, 1, 1, 1, 1), PUT(2, 2, 2, 2, 2), PUT(3, 3, 3, 3, 3); break;
    case 6:
        PUT(0, 0, 0, 0, 0), PUT(1, 0, 0, 1, 1), PUT(2, 1, 1, 1, 1);
        PUT(3, 2, 2, 2, 2), PUT(4, 2, 2, 3, 3), PUT(5, 3, 3, 3, 3);
        break;
    default:
        PUT(0, 0, 0, 0, 0), PUT(1, 0, 0, 0, 0), PUT(2, 0, 0, 0, 0);
        PUT(3, 1, 1, 1, 1), PUT(4, 1, 1, 1, 1), PUT(5, 1, 1, 1, 1);
        PUT(6, 2, 2, 2, 2), PUT(7, 2, 2, 2, 2), PUT(8, 2, 2, 2, 2);
        PUT(9, 3, 3, 3, 3), PUT(10, 3, 3, 3, 3), PUT(11, 3, 3, 3, 3);
    }
}

ALWAYS void words_by(uint8_t *out, const uint8_t *p, size_t count, size_t k, size_t size)
{
    size_t i = 0;
    for (; i + 4 < count; i += 4)
        put_spread(out + 4 * k * i, size == 3 ? four_of_threes(p + 3 * i) : four_of_greys(p + i),
                   k);
    for (; i < count; i++) {
        uint32_t w = size == 3 ? word_of_three(p + 3 * i) : word_of_grey(p + i);
        for (size_t j = i * k; j < i * k + k; j++)
            memcpy(out + 4 * j, &w, sizeof w);
    }
}

ALWAYS void words_of(uint8_t *out, const uint8_t *p, size_t count, uint32_t k, size_t size)
{
    switch (k) {
    case 2: words_by(out, p, count, 2, size); break;
    case 3: words_by(out, p, count, 3, size); break;
    case 4: words_by(out, p, count, 4, size); break;
    case 6: words_by(out, p, count, 6, size); break;
    default: words_by(out, p, count, 12, size);
    }
}

void spread_image(uint8_t *out, const uint8_t *samples, size_t count, uint32_t k, uint32_t size)
{
    if (size == 3)
        words_of(out, samples, count, k, 3);
    else
        words_of(out, samples, count, k, 1);
}
