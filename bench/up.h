// What a coat lays, sixteen pixels at once or one: what it is and how many pixels a sample is are
// constants wherever this is used.
#ifndef BENCH_UP_H
#define BENCH_UP_H

#include "coat.h"
#include "four.h"

#define ALWAYS static inline __attribute__((always_inline))
#define STEP 16

ALWAYS ptrdiff_t size_of(enum source source)
{
    return source == THREES ? 3 : source == WORDS ? 4 : 1;
}

// Steps until a sample begins with one again.
ALWAYS ptrdiff_t period_of(ptrdiff_t k)
{
    return k % 3 == 0 ? 3 : 1;
}

// Pixels behind a step whose samples may be read with it: samples are read four at once, those of
// three octets with two octets more.
ALWAYS ptrdiff_t margin_of(enum source source, ptrdiff_t k)
{
    return k % 3 == 0 ? 3 * k : source == THREES ? k : 0;
}

ALWAYS const uint8_t *sample_of(enum source source, ptrdiff_t k, const struct coat *c, ptrdiff_t i)
{
    return c->up + ((i + k) / k - 1) * size_of(source);
}

// Four samples from the one at `first` on.
ALWAYS four samples_at(enum source source, const uint8_t *p, ptrdiff_t first)
{
    p += first * size_of(source);
    switch (source) {
    case THREES: return four_of_threes(p);
    case GREYS: return four_of_greys(p);
    default: return four_at(p);
    }
}

ALWAYS void up_by_3(enum source source, const uint8_t *p, ptrdiff_t phase, four up[4])
{
    four v = samples_at(source, p, 5 * phase), w = samples_at(source, p, 4 + 4 * phase);
    switch (phase) {
    case 0:
        up[0] = CHOSEN(v, 0, 0, 0, 1), up[1] = CHOSEN(v, 1, 1, 2, 2);
        up[2] = CHOSEN(v, 2, 3, 3, 3), up[3] = CHOSEN(w, 0, 0, 0, 1);
        break;
    case 1:
        up[0] = CHOSEN(v, 0, 0, 1, 1), up[1] = CHOSEN(v, 1, 2, 2, 2);
        up[2] = CHOSEN(w, 0, 0, 0, 1), up[3] = CHOSEN(w, 1, 1, 2, 2);
        break;
    default:
        up[0] = CHOSEN(v, 0, 1, 1, 1), up[1] = CHOSEN(v, 2, 2, 2, 3);
        up[2] = CHOSEN(w, 1, 1, 2, 2), up[3] = CHOSEN(w, 2, 3, 3, 3);
    }
}

ALWAYS void up_by_6(enum source source, const uint8_t *p, ptrdiff_t phase, four up[4])
{
    four v = samples_at(source, p, 2 * phase);
    switch (phase) {
    case 0:
        up[0] = CHOSEN(v, 0, 0, 0, 0), up[1] = CHOSEN(v, 0, 0, 1, 1);
        up[2] = CHOSEN(v, 1, 1, 1, 1), up[3] = CHOSEN(v, 2, 2, 2, 2);
        break;
    case 1:
        up[0] = CHOSEN(v, 0, 0, 1, 1), up[1] = CHOSEN(v, 1, 1, 1, 1);
        up[2] = CHOSEN(v, 2, 2, 2, 2), up[3] = CHOSEN(v, 2, 2, 3, 3);
        break;
    default:
        up[0] = CHOSEN(v, 1, 1, 1, 1), up[1] = CHOSEN(v, 2, 2, 2, 2);
        up[2] = CHOSEN(v, 2, 2, 3, 3), up[3] = CHOSEN(v, 3, 3, 3, 3);
    }
}

ALWAYS void up_by_12(enum source source, const uint8_t *p, ptrdiff_t phase, four up[4])
{
    four v = samples_at(source, p, 0), first = CHOSEN(v, 0, 0, 0, 0),
         second = CHOSEN(v, 1, 1, 1, 1), third = CHOSEN(v, 2, 2, 2, 2),
         fourth = CHOSEN(v, 3, 3, 3, 3);
    up[0] = phase == 0 ? first : phase == 1 ? second : third;
    up[1] = phase == 0 ? first : phase == 1 ? second : fourth;
    up[2] = phase == 0 ? first : phase == 1 ? third : fourth;
    up[3] = phase == 0 ? second : phase == 1 ? third : fourth;
}

ALWAYS void up_by_2(enum source source, const uint8_t *p, four up[4])
{
    four v = samples_at(source, p, 0), w = samples_at(source, p, 4);
    up[0] = CHOSEN(v, 0, 0, 1, 1), up[1] = CHOSEN(v, 2, 2, 3, 3);
    up[2] = CHOSEN(w, 0, 0, 1, 1), up[3] = CHOSEN(w, 2, 2, 3, 3);
}

ALWAYS void up_by_4(enum source source, const uint8_t *p, four up[4])
{
    four v = samples_at(source, p, 0);
    up[0] = CHOSEN(v, 0, 0, 0, 0), up[1] = CHOSEN(v, 1, 1, 1, 1);
    up[2] = CHOSEN(v, 2, 2, 2, 2), up[3] = CHOSEN(v, 3, 3, 3, 3);
}

// The sixteen pixels from i on; so many steps before it a sample begins.
ALWAYS void up_step(enum source source, ptrdiff_t k, ptrdiff_t phase, const struct coat *c,
                    ptrdiff_t i, four up[4])
{
    const uint8_t *p = c->up + (size_t)(i - STEP * phase) / (size_t)k * (size_t)size_of(source);
    if (source == GREYS && k == 1) {
        sixteen_of_greys(p, up);
        return;
    }
    switch (k) {
    case 2: up_by_2(source, p, up); break;
    case 3: up_by_3(source, p, phase, up); break;
    case 4: up_by_4(source, p, up); break;
    case 6: up_by_6(source, p, phase, up); break;
    case 12: up_by_12(source, p, phase, up); break;
    default:
        for (ptrdiff_t j = 0; j < 4; j++)
            up[j] = source == ONE ? four_of(c->word) : samples_at(source, p, 4 * j);
    }
}

ALWAYS uint32_t up_word(enum source source, ptrdiff_t k, const struct coat *c, ptrdiff_t i)
{
    const uint8_t *p = sample_of(source, k, c, i);
    switch (source) {
    case ONE: return c->word;
    case THREES: return word_of_three(p);
    case GREYS: return word_of_grey(p);
    default: return word_at(p);
    }
}

#endif
