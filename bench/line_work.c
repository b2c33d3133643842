#include "line_work.h"
#include "kit.h"

#include <stdio.h>
#include <string.h>

#define MAIN 1200

// ---- rows

struct shape pixel_shape(size_t row)
{
    static const uint32_t layer_counts[] = {3, 9, 15}, ks[] = {1, 2, 3, 4, 6, 12};
    return (struct shape){.width = WIDTH,
                          .height = LINES,
                          .layers = layer_counts[row / 24],
                          .k = ks[row / 4 % 6],
                          .run = row / 2 % 2 == 0 ? 64 : 0,
                          .unread = row % 2 == 1 ? HALF_UNREAD : ALL_READ};
}

const char *pixel_name(const struct shape *s)
{
    static const char *const unread[] = {"all read", "half unread", "pairs unread"};
    static char name[80];
    snprintf(name, sizeof name, "%2u layers, k %2u, masks %s, %s", (unsigned)s->layers,
             (unsigned)s->k, s->run != 0 ? "in runs  " : "at random", unread[s->unread]);
    return name;
}

spirerook_answer composed(composer *f, const struct work *w, uint8_t *out)
{
    return f(w->sheet, w->sheet_size, w->planes, w->planes_size, w->samples, w->samples_size,
             w->stripe, w->line, w->unseen[0], w->unseen[1], w->unseen[2], out, w->room);
}

// ---- sheets

static uint8_t *add_record(struct work *w, uint32_t stripe, uint32_t layer, uint32_t main)
{
    uint8_t *p = w->sheet + w->sheet_size;
    memset(p, 0, RECORD_SIZE);
    put16(p, stripe);
    p[2] = (uint8_t)layer;
    put16(p + 12, main);
    for (int i = 14; i < 17 && layer % 2 == 1; i++)
        p[i] = (uint8_t)any(2);
    w->sheet_size += RECORD_SIZE;
    return p;
}

static void put_area(uint8_t *p, uint32_t x, uint32_t y, uint32_t width, uint32_t height)
{
    put16(p + 4, x);
    put16(p + 6, y);
    put16(p + 8, width);
    put16(p + 10, height);
}

static void code(uint8_t *p)
{
    p[3] = 1;
    put32(p + 22, 1);
}

// A stripe of layers that are all coded and reach over all of it but for some pixels at its left.
static void add_stripe(struct work *w, uint32_t stripe, const struct shape *s)
{
    for (uint32_t layer = 1; layer <= s->layers; layer++) {
        uint8_t *p = add_record(w, stripe, layer, MAIN);
        code(p);
        p[17] = s->grey && layer % 2 == 1;
        if (layer == 2) {
            put_area(p, 0, 0, s->width, s->height);
            continue;
        }
        put16(p + 12, MAIN / s->k);
        put_area(p, s->width > 64 ? any(64) : 0, 0, (s->width + s->k - 1) / s->k,
                 (s->height + s->k - 1) / s->k);
    }
}

// ---- samples

static void fill_mask(uint8_t *p, size_t count, uint32_t run, uint32_t ones)
{
    for (size_t i = 0; i < count;) {
        uint8_t bit = ones == 0 ? (uint8_t)any(2) : any(16) < ones;
        for (uint32_t left = run; i < count && left != 0; left--)
            p[i++] = bit;
    }
}

static void fill_image(uint8_t *p, size_t octets)
{
    for (size_t i = 0; i < octets; i++)
        p[i] = (uint8_t)any(2);
}

static size_t sample_size(const uint8_t *record)
{
    return record[2] % 2 == 0 || record[17] == 1 ? 1 : 3;
}

static size_t sample_count(const uint8_t *record)
{
    return (size_t)be16(record + 8) * be16(record + 10);
}

static bool is_unread(const struct shape *s, uint32_t layer)
{
    if (s->unread == PAIRS_UNREAD)
        return layer > 3 && layer % 4 < 2;
    return s->unread == HALF_UNREAD && (layer % 4 == 3 || layer % 4 == 0);
}

static void list(struct work *w, uint32_t layer, size_t start)
{
    uint8_t *p = w->planes + w->planes_size;
    p[0] = (uint8_t)layer;
    put32(p + 1, (uint32_t)start);
    w->planes_size += 5;
}

// Layer 2 has samples of its own, since its k is 1.
static void read_layer(struct work *w, const struct shape *s, const uint8_t *record,
                       size_t starts[3])
{
    uint32_t layer = record[2], run = layer == 2 ? s->run : s->run / s->k;
    size_t count = sample_count(record), size = sample_size(record),
           kind = layer == 2 ? 2 : layer % 2;
    if (s->shared && starts[kind] != SIZE_MAX) {
        list(w, layer, starts[kind]);
        return;
    }
    starts[kind] = w->samples_size;
    list(w, layer, w->samples_size);
    if (layer % 2 == 0)
        fill_mask(w->samples + w->samples_size, count, run == 0 ? 1 : run,
                  layer > s->above ? s->ones : 0);
    else
        fill_image(w->samples + w->samples_size, count * size);
    w->samples_size += count * size;
}

static void clear(struct work *w)
{
    w->sheet_size = w->planes_size = w->samples_size = 0;
}

// The stripe of this shape that was just added is the one called for.
static void read_last(struct work *w, const struct shape *s)
{
    const uint8_t *first = w->sheet + w->sheet_size - s->layers * RECORD_SIZE;
    size_t starts[3] = {SIZE_MAX, SIZE_MAX, SIZE_MAX};
    for (uint32_t layer = 1; layer <= s->layers; layer++)
        if (!is_unread(s, layer))
            read_layer(w, s, first + (layer - 1) * RECORD_SIZE, starts);
    w->stripe = be16(first);
    w->line = s->height / 2;
    memcpy(w->unseen, (const uint8_t[]){SPIREROOK_UNSEEN}, sizeof w->unseen);
    w->room = 4 * (size_t)s->width;
}

void make_behind(struct work *w, const struct shape *s, uint32_t stripes, uint32_t height)
{
    struct shape other = *s;
    other.height = height;
    clear(w);
    for (uint32_t k = 0; k < stripes; k++)
        add_stripe(w, k, &other);
    add_stripe(w, stripes, s);
    read_last(w, s);
}

// ---- the same in colour

// A grey layer's samples become those of greys as any image layer has them.
static void read_coloured(struct work *w, const struct work *grey, const uint8_t *entry,
                          const uint8_t *record)
{
    const uint8_t *from = grey->samples + be32(entry + 1);
    size_t count = sample_count(record);
    uint8_t *to = w->samples + w->samples_size;
    list(w, entry[0], w->samples_size);
    if (record[17] == 0) {
        memcpy(to, from, count * sample_size(record));
        w->samples_size += count * sample_size(record);
        return;
    }
    for (size_t k = 0; k < count; k++, to += 3) {
        to[0] = from[k];
        to[1] = 128;
        to[2] = 96;
    }
    w->samples_size += 3 * count;
}

void make_coloured(struct work *w, const struct work *grey)
{
    uint8_t *samples = w->samples;
    *w = *grey;
    w->samples = samples;
    w->planes_size = w->samples_size = 0;
    const uint8_t *first = grey->sheet;
    while (be16(first) != grey->stripe)
        first += RECORD_SIZE;
    for (size_t k = 0; k < grey->planes_size; k += 5) {
        const uint8_t *entry = grey->planes + k;
        read_coloured(w, grey, entry, first + (size_t)(entry[0] - 1) * RECORD_SIZE);
    }
    for (size_t k = 0; k < w->sheet_size; k += RECORD_SIZE)
        w->sheet[k + 17] = 0;
}

// ---- small calls, good and damaged

static void code_small(uint8_t *p, uint32_t layer, uint32_t width, uint32_t height)
{
    static const uint32_t ks[] = {1, 2, 3, 4, 6, 12};
    uint32_t k = ks[any(6)];
    code(p);
    if (layer == 2)
        return;
    put16(p + 12, MAIN / k);
    put_area(p, any(width + 2), any(height + 1), 1 + any(width / k + 2), 1 + any(height / k + 2));
}

static void add_small(struct work *w, uint32_t stripe, uint32_t width, uint32_t most_height)
{
    static const uint8_t types[] = {1, 2, 3,
                                    4, 6, 7}; // which of layers 1 to 3 are coded, a bit each
    uint32_t layers = 3 + 2 * any(7), height = 1 + any(most_height), type = types[any(6)];
    for (uint32_t layer = 1; layer <= layers; layer++) {
        uint8_t *p = add_record(w, stripe, layer, MAIN);
        if (layer == 2)
            put_area(p, 0, 0, width, height);
        if (layer <= 3 ? type >> (layer - 1) & 1 : any(4) != 0) {
            code_small(p, layer, width, height);
            p[17] = layer % 2 == 1 && any(3) == 0;
        }
    }
}

static void make_any(struct work *w, uint32_t most_width, uint32_t most_height)
{
    uint32_t stripes = 1 + any(3), width = 1 + any(most_width), share = any(5);
    size_t starts[3] = {SIZE_MAX, SIZE_MAX, SIZE_MAX};
    struct shape s = {.k = 1, .run = any(2) * 8};
    clear(w);
    for (uint32_t k = 0; k < stripes; k++)
        add_small(w, k, width, most_height);
    w->stripe = any(stripes);
    w->line = 0;
    for (int i = 0; i < 3; i++)
        w->unseen[i] = (uint8_t)any(3); // often that of a seen pixel
    w->room = 4 * (size_t)width + any(2);
    for (const uint8_t *p = w->sheet; p != w->sheet + w->sheet_size; p += RECORD_SIZE) {
        if (be16(p) != w->stripe)
            continue;
        if (be32(p + 22) != 0 && any(4) < share)
            read_layer(w, &s, p, starts);
        if (p[2] == 2)
            w->line = any(be16(p + 10));
    }
}

void make_small(struct work *w)
{
    make_any(w, 40, 4);
}

void make_larger(struct work *w)
{
    make_any(w, 400, 30);
}

void damage(struct work *w)
{
    uint8_t *o = w->sheet + any((uint32_t)w->sheet_size),
            *e = w->planes + any((uint32_t)w->planes_size + 1);
    switch (any(9)) {
    case 0: *o = octet_near(*o); break;
    case 1: w->sheet_size = any((uint32_t)w->sheet_size + 1); break;
    case 2: w->stripe = any(4); break;
    case 3: w->line = any(5); break;
    case 4: w->room = any(2) == 0 ? any(170) : w->room - (w->room != 0); break;
    case 5: w->samples_size = any((uint32_t)w->samples_size + 1); break;
    case 6: w->samples_size -= w->samples_size != 0; break;
    case 7: w->planes_size = any((uint32_t)w->planes_size + 5); break;
    default: *e = octet_near(*e);
    }
}
