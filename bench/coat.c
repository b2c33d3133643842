// The loops of the band composer, sixteen pixels a step. What is laid, of how many pixels a sample,
// and how are constants in each: one text, and a loop for each. A part is laid again without harm, by
// every way, so that the last step may overlap the one before it.
#include "coat.h"
#include "four.h"
#include "up.h"

// ---- steps

ALWAYS void put_step(enum source source, ptrdiff_t k, ptrdiff_t phase, enum way way, uint8_t *out,
                     const struct coat *c, ptrdiff_t i, sixteen zeros)
{
    four up[4], keep[4];
    up_step(source, k, phase, c, i, up);
    if (way == PICK)
        put_keeps(zeros, keep);
    for (int j = 0; j < 4; j++) {
        uint8_t *p = out + 4 * i + 16 * j;
        if (way == LAY)
            put_four(p, up[j]);
        else if (way == PICK)
            put_four(p, four_picked(four_at(p), up[j], keep[j]));
        else
            put_four(p, four_agreed(four_at(p), up[j], four_of(c->unseen)));
    }
}

// Where the way needs no mask, what is loaded in its place is never used.
ALWAYS void step(enum source source, ptrdiff_t k, ptrdiff_t phase, enum way way, uint8_t *out,
                 const struct coat *c, ptrdiff_t i)
{
    put_step(source, k, phase, way, out, c, i, zeros_at(way == PICK ? c->mask + i : out + 4 * i));
}

// Four pixels, of what is one pixel a sample.
ALWAYS void put_quad(enum source source, enum way way, uint8_t *out, const struct coat *c,
                     ptrdiff_t i)
{
    uint8_t *p = out + 4 * i;
    four up = source == ONE ? four_of(c->word) : samples_at(source, c->up, i);
    if (way == PICK)
        up = four_picked(four_at(p), up, keep_at(c->mask + i));
    else if (way == AGREE)
        up = four_agreed(four_at(p), up, four_of(c->unseen));
    put_four(p, up);
}

// A pixel by itself, without a branch on what the samples are.
ALWAYS void put_one(enum source source, ptrdiff_t k, enum way way, uint8_t *out,
                    const struct coat *c, ptrdiff_t i)
{
    uint32_t low = way == LAY ? 0 : word_at(out + 4 * i), up = up_word(source, k, c, i);
    if (way == PICK)
        up ^= (low ^ up) & -(uint32_t)(c->mask[i] == 0);
    else if (way == AGREE)
        up ^= (c->unseen ^ up) & -(uint32_t)(low != up);
    memcpy(out + 4 * i, &up, sizeof up);
}

// ---- blocks

struct found {
    ptrdiff_t ones, mixed;
};

// A block of the mask by what is in it.
ALWAYS void put_block(enum source source, ptrdiff_t k, ptrdiff_t phase, uint8_t *out,
                      const struct coat *c, ptrdiff_t i, struct found *found)
{
    sixteen zeros = zeros_at(c->mask + i);
    unsigned bits = zero_bits(zeros);
    if (bits == 0xffff)
        return;
    if (bits == 0) {
        put_step(source, k, phase, LAY, out, c, i, zeros);
        found->ones++;
    } else {
        put_step(source, k, phase, PICK, out, c, i, zeros);
        found->mixed++;
    }
}

ALWAYS enum look look_after(struct found found, ptrdiff_t end)
{
    if (found.mixed * STEP > end / 4 * 3)
        return DENSE;
    return (found.mixed + found.ones) * STEP < end / 4 ? SPARSE : PLAIN;
}

// A period of blocks at once; in a sparse mask more of them, if they are not all 0.
ALWAYS enum look put_picked(enum source source, ptrdiff_t k, bool sparse, uint8_t *out,
                            const struct coat *c, ptrdiff_t end)
{
    const ptrdiff_t period = period_of(k), blocks = period == 1 && sparse ? 4 : period,
                    whole = end / (blocks * STEP) * (blocks * STEP);
    struct found found = {0, 0};
    ptrdiff_t i = 0;
    for (; i != whole; i += blocks * STEP)
        if (!sparse || !all_zero(c->mask + i, (int)blocks))
            for (ptrdiff_t j = 0; j < blocks; j++)
                put_block(source, k, j % period, out, c, i + STEP * j, &found);
    for (ptrdiff_t j = 0; j < blocks - 1 && i + STEP <= end; j++, i += STEP)
        put_block(source, k, j % period, out, c, i, &found);
    return look_after(found, end);
}

ALWAYS enum look put_all(enum source source, ptrdiff_t k, enum way way, uint8_t *out,
                         const struct coat *c, ptrdiff_t end)
{
    const ptrdiff_t period = period_of(k), whole = end / (period * STEP) * (period * STEP);
    ptrdiff_t i = 0;
    for (; i != whole; i += period * STEP)
        for (ptrdiff_t j = 0; j < period; j++)
            step(source, k, j, way, out, c, i + STEP * j);
    for (ptrdiff_t j = 0; j < period - 1 && i + STEP <= end; j++, i += STEP)
        step(source, k, j, way, out, c, i);
    return DENSE;
}

ALWAYS enum look put_wide(enum source source, ptrdiff_t k, enum way way, uint8_t *out,
                          const struct coat *c, ptrdiff_t end)
{
    if (way == PICK && c->look == SPARSE)
        return put_picked(source, k, true, out, c, end);
    if (way == PICK && c->look == PLAIN)
        return put_picked(source, k, false, out, c, end);
    return put_all(source, k, way, out, c, end);
}

// ---- parts of a row

ALWAYS enum look loop(enum source source, ptrdiff_t k, enum way way, uint8_t *out,
                      const struct coat *given)
{
    const struct coat copy = *given, *c = &copy;
    ptrdiff_t i, end = c->count - (c->last ? margin_of(source, k) : 0);
    enum look look = PLAIN;
    for (i = -c->before; i < 0 && i < c->count; i++)
        put_one(source, k, way, out, c, i);
    if (end >= STEP) {
        look = put_wide(source, k, way, out, c, end);
        i = (end - STEP) / k * k;
        step(source, k, 0, way, out, c, i);
        i += STEP;
    } else if (end >= 4 && k == 1) {
        for (; i + 4 <= end; i += 4)
            put_quad(source, way, out, c, i);
        put_quad(source, way, out, c, end - 4);
        i = end;
    }
    for (; i < c->count; i++)
        put_one(source, k, way, out, c, i);
    return look;
}

ALWAYS enum look by_way(enum source source, ptrdiff_t k, uint8_t *out, const struct coat *c)
{
    switch (c->way) {
    case LAY: return loop(source, k, LAY, out, c);
    case PICK: return loop(source, k, PICK, out, c);
    default: return loop(source, k, AGREE, out, c);
    }
}

ALWAYS enum look by_k(enum source source, uint8_t *out, const struct coat *c)
{
    switch (c->k) {
    case 1: return by_way(source, 1, out, c);
    case 2: return by_way(source, 2, out, c);
    case 3: return by_way(source, 3, out, c);
    case 4: return by_way(source, 4, out, c);
    case 6: return by_way(source, 6, out, c);
    default: return by_way(source, 12, out, c);
    }
}

enum look put_coat(uint8_t *out, const struct coat *c)
{
    switch (c->source) {
    case ONE: return by_way(ONE, 1, out, c);
    case THREES: return by_k(THREES, out, c);
    case GREYS: return by_k(GREYS, out, c);
    default: return by_way(WORDS, 1, out, c);
    }
}
