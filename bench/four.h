// Four pixels in a register, sixteen samples of a mask in another: by SSE2, which every x86-64 has,
// and in plain C elsewhere. A pixel is four octets in the order in which a line has them; a word is
// those four as they are loaded.
#ifndef BENCH_FOUR_H
#define BENCH_FOUR_H

#include <stdint.h>
#include <string.h>

static inline uint32_t word_at(const uint8_t *p)
{
    uint32_t w;
    memcpy(&w, p, sizeof w);
    return w;
}

static inline uint32_t word_of(uint32_t c0, uint32_t c1, uint32_t c2, uint32_t mark)
{
    return word_at((const uint8_t[]){(uint8_t)c0, (uint8_t)c1, (uint8_t)c2, (uint8_t)mark});
}

static inline uint32_t word_of_three(const uint8_t *p)
{
    return word_of(p[0], p[1], p[2], 1);
}

static inline uint32_t word_of_grey(const uint8_t *p)
{
    return word_of(p[0], 128, 96, 1);
}

#ifdef __SSE2__
#include <emmintrin.h>

typedef __m128i four;

static inline four four_of(uint32_t w)
{
    return _mm_set1_epi32((int)w);
}

static inline four four_at(const uint8_t *p)
{
    return _mm_loadu_si128((const __m128i *)p);
}

static inline void put_four(uint8_t *p, four v)
{
    _mm_storeu_si128((__m128i *)p, v);
}

// Two samples in each half, the second of them one octet too low.
static inline four four_spaced(four v)
{
    const four first = _mm_set1_epi64x(0xffffff), second = _mm_set1_epi64x(0xffffff00000000);
    four moved = _mm_slli_epi64(v, 8);
    return _mm_or_si128(_mm_or_si128(_mm_and_si128(v, first), _mm_and_si128(moved, second)),
                        _mm_set1_epi32(1 << 24));
}

// Of samples of three octets; two octets behind them are read.
static inline four four_of_threes(const uint8_t *p)
{
    four low = _mm_loadl_epi64((const __m128i *)p);
    return four_spaced(_mm_castps_si128(
        _mm_loadh_pi(_mm_castsi128_ps(low), (const __m64 *)(const void *)(p + 6))));
}

// Of samples of one octet.
static inline four four_of_greys(const uint8_t *p)
{
    four v = _mm_cvtsi32_si128((int)word_at(p));
    v = _mm_unpacklo_epi8(v, _mm_set1_epi8((char)128));
    return _mm_unpacklo_epi16(v, _mm_set1_epi16(96 | 1 << 8));
}

static inline void sixteen_of_greys(const uint8_t *p, four up[4])
{
    const four second = _mm_set1_epi8((char)128), rest = _mm_set1_epi16(96 | 1 << 8);
    four v = four_at(p), low = _mm_unpacklo_epi8(v, second), high = _mm_unpackhi_epi8(v, second);
    up[0] = _mm_unpacklo_epi16(low, rest);
    up[1] = _mm_unpackhi_epi16(low, rest);
    up[2] = _mm_unpacklo_epi16(high, rest);
    up[3] = _mm_unpackhi_epi16(high, rest);
}

// Four of them by their numbers.
#define CHOSEN(v, a, b, c, d) _mm_shuffle_epi32(v, _MM_SHUFFLE(d, c, b, a))

static inline four four_picked(four low, four up, four keep)
{
    return _mm_or_si128(_mm_and_si128(keep, low), _mm_andnot_si128(keep, up));
}

static inline four four_agreed(four low, four up, four unseen)
{
    four same = _mm_cmpeq_epi32(low, up);
    return _mm_or_si128(_mm_and_si128(same, low), _mm_andnot_si128(same, unseen));
}

// Sixteen octets of a mask, all ones where an octet is 0.
typedef __m128i sixteen;

static inline sixteen zeros_at(const uint8_t *mask)
{
    return _mm_cmpeq_epi8(_mm_loadu_si128((const __m128i *)mask), _mm_setzero_si128());
}

static inline unsigned zero_bits(sixteen zeros)
{
    return (unsigned)_mm_movemask_epi8(zeros);
}

static inline int all_zero(const uint8_t *mask, int blocks)
{
    __m128i any = four_at(mask);
    for (int i = 1; i < blocks; i++)
        any = _mm_or_si128(any, four_at(mask + 16 * i));
    return zero_bits(_mm_cmpeq_epi8(any, _mm_setzero_si128())) == 0xffff;
}

// The pixels to be kept of sixteen, four by four.
static inline void put_keeps(sixteen zeros, four keep[4])
{
    __m128i low = _mm_unpacklo_epi8(zeros, zeros), high = _mm_unpackhi_epi8(zeros, zeros);
    keep[0] = _mm_unpacklo_epi16(low, low);
    keep[1] = _mm_unpackhi_epi16(low, low);
    keep[2] = _mm_unpacklo_epi16(high, high);
    keep[3] = _mm_unpackhi_epi16(high, high);
}

static inline four keep_at(const uint8_t *mask)
{
    four v = _mm_cmpeq_epi8(_mm_cvtsi32_si128((int)word_at(mask)), _mm_setzero_si128());
    v = _mm_unpacklo_epi8(v, v);
    return _mm_unpacklo_epi16(v, v);
}

#else
#include "four_plain.h"
#endif
#endif
