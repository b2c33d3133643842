// A stripe as the composers in C find it: the sheet and the plane list are judged, and the records
// of the stripe decoded once. All of it is static, so that each composer is compiled as one.
#ifndef BENCH_STRIPE_H
#define BENCH_STRIPE_H

#include "sheet.h"
#include "spirerook.h"

#include <stdbool.h>

#define ENTRY_SIZE 5
#define MOST_LAYERS 15
#define SEEN (1u << 24) // above a colour's three octets; 0 is a colour that is not known

struct layer {
    const uint8_t *samples; // null: none were read
    bool coded;
    uint32_t size; // octets of a sample: one of a mask and of a grey layer, else three
    uint32_t x, y, width, height, k;
    uint32_t outside; // the value where the layer is not: its base colour, or a bit
#ifdef BY_ROWS
    bool crossed; // whether the line meets the area
    const uint8_t *row;
#endif
};

struct stripe {
    uint32_t layers, page_width, height;
    struct layer layer[MOST_LAYERS + 1];
};

static uint32_t colour(const uint8_t *p)
{
    return SEEN | (uint32_t)p[0] << 16 | (uint32_t)p[1] << 8 | p[2];
}

static void decode(struct layer *l, const uint8_t *p, uint32_t main)
{
    l->samples = NULL;
    l->coded = be32(p + 22) != 0;
    l->size = p[2] % 2 == 0 || p[17] == 1 ? 1 : 3;
    l->x = be16(p + 4);
    l->y = be16(p + 6);
    l->width = be16(p + 8);
    l->height = be16(p + 10);
    l->k = main / be16(p + 12);
    l->outside = p[2] % 2 == 0 ? 0 : colour(p + 14);
}

// Whether there is such a stripe, in a sheet that was judged.
static bool find_stripe(struct stripe *s, const uint8_t *sheet, size_t octets, uint32_t number)
{
    const uint8_t *p = sheet, *end = sheet + octets;
    while (p != end && be16(p) != number)
        p += RECORD_SIZE;
    if (p == end)
        return false;
    uint32_t main = be16(p + RECORD_SIZE + 12);
    for (s->layers = 0; p != end && be16(p) == number; p += RECORD_SIZE)
        decode(&s->layer[++s->layers], p, main);
    s->page_width = s->layer[2].width;
    s->height = s->layer[2].height;
    if (!s->layer[2].coded)
        s->layer[2].outside = s->layer[3].coded;
    return true;
}

// Answers how many entries are good.
static size_t take_planes(struct stripe *s, const uint8_t *planes, size_t count,
                          const uint8_t *samples, size_t samples_len)
{
    uint32_t last = 0;
    for (size_t i = 0; i < count; i++) {
        uint32_t number = planes[i * ENTRY_SIZE], start = be32(planes + i * ENTRY_SIZE + 1);
        if (number <= last || number > s->layers || !s->layer[number].coded)
            return i;
        struct layer *l = &s->layer[number];
        if (start + (uint64_t)l->width * l->height * l->size > samples_len)
            return i;
        l->samples = samples + start;
        last = number;
    }
    return count;
}

// All that is refused but for want of room; Done has no count yet.
static spirerook_answer judge_call(struct stripe *s, const uint8_t *sheet, size_t sheet_len,
                                   const uint8_t *planes, size_t planes_len, const uint8_t *samples,
                                   size_t samples_len, uint32_t stripe, uint32_t line)
{
    uint64_t verdict = c_judge(sheet, sheet_len);
    if (verdict >= REFUSED)
        return (spirerook_answer){SPIREROOK_BAD_SHEET, (uint32_t)(verdict - REFUSED), 0};
    if (!find_stripe(s, sheet, sheet_len, stripe) || line >= s->height)
        return (spirerook_answer){SPIREROOK_BAD_LINE, 0, 0};
    size_t good = take_planes(s, planes, planes_len / ENTRY_SIZE, samples, samples_len);
    if (good * ENTRY_SIZE != planes_len)
        return (spirerook_answer){SPIREROOK_BAD_PLANE, (uint32_t)good, 0};
    return (spirerook_answer){SPIREROOK_DONE, 0, 0};
}

#endif
