#include "page_work.h"
#include "kit.h"

#include <string.h>

#define ENDS 256 // octets of a page besides what fills it

static void add(struct page *p, const void *octets, size_t size)
{
    memcpy(p->octets + p->size, octets, size);
    p->size += size;
}

static void add_start(struct page *p)
{
    static const uint8_t start[] = {0xFF, 0xD8, 0xFF, 0xED, 0,    16, 'M', 'R',  'C',  0,    0,
                                    1,    4,    1,    0x01, 0x90, 0,  0,   0x13, 0x60, 0xFF, 0xD9};
    p->size = 0;
    p->layers = 0;
    add(p, start, sizeof start);
}

static void add_stripe(struct page *p, unsigned type, uint32_t mask)
{
    uint8_t s[39] = {0xFF, 0xED, 0, 37, 'M', 'R', 'C', 1, (uint8_t)type, 255, 128, 96, 0, 128, 96};
    for (int i = 15; i < 31; i += 4)
        put32(s + i, any(1000));
    put32(s + 31, 1 + any(1000));
    put32(s + 35, mask);
    add(p, s, sizeof s);
    for (; mask != 0; mask--)
        p->octets[p->size++] = (uint8_t)any(256);
}

static void put(struct page *p, filler *f, size_t size)
{
    p->size = f(p->octets, p->size, size);
}

static void add_resolution(struct page *p)
{
    add(p, "\xff\xe1\0\14G3FAX\0\7\xca\0\xc8", 14);
}

// Of three components.
static void add_frame(struct page *p)
{
    p->counts[p->layers++] = p->size + 9;
    add(p, "\xff\xc0\0\21\10\2\0\3\0\3\1\21\0\2\21\1\3\21\1", 19);
}

void make_grey(struct page *p, unsigned layer)
{
    p->octets[p->counts[layer]] = 1;
}

static void add_scan(struct page *p)
{
    add(p, "\xff\xda\0\10\1\1\0\0\77\0", 10);
}

void make_large(struct page *p, size_t size, filler *optionals, filler *segments, filler *data,
                filler *behind)
{
    size_t full = size - ENDS;
    add_start(p);
    put(p, optionals, full);
    add_stripe(p, 1, 0);
    p->start = p->size;
    add(p, "\xff\xd8", 2);
    add_resolution(p);
    put(p, segments, full);
    add_frame(p);
    add_scan(p);
    put(p, data, full);
    add(p, "\xff\xd9", 2);
    p->end = p->size;
    add(p, "\xff\xd9\xff\xd9", 4);
    put(p, behind, full);
}

// Before a third of the markers.
static void add_fill(struct page *p, bool filled)
{
    if (filled && any(3) == 0)
        put(p, fill_octets, p->size + 1 + any(8));
}

static void add_layer(struct page *p, bool filled)
{
    add(p, "\xff\xd8", 2);
    add_fill(p, filled);
    add_resolution(p);
    for (uint32_t k = any(4); k != 0; k--) {
        add_fill(p, filled);
        put(p, tables_of_9, p->size + 1);
    }
    add_fill(p, filled);
    add_frame(p);
    add_fill(p, filled);
    add_scan(p);
    put(p, filled && any(2) == 0 ? dense_restarts : random_scan, p->size + any(90));
    add_fill(p, filled);
    add(p, "\xff\xd9", 2);
}

void make_small(struct page *p, unsigned stripes, bool filled)
{
    static const uint8_t types[] = {1, 2, 3, 4, 6, 7};
    add_start(p);
    for (uint32_t k = any(3); k != 0; k--)
        put(p, optional_segments, p->size + 1);
    while (stripes-- != 0) {
        unsigned type = types[any(6)];
        add_stripe(p, type, type & 2 ? 1 + any(40) : 0);
        for (unsigned layers = (type & 1) + (type >> 2); layers != 0; layers--)
            add_layer(p, filled);
    }
    for (unsigned k = 0; k < p->layers && filled; k++)
        if (any(2) == 0)
            make_grey(p, k);
    add(p, "\xff\xd9\xff\xd9\0\0", 4 + any(3));
}

void damage(struct page *p)
{
    size_t at = any((uint32_t)p->size);
    if (any(4) == 0) // a code behind an FF
        while (at > 0 && p->octets[at - 1] != 0xFF)
            at--;
    switch (any(8)) {
    case 0: p->size = at; break;
    case 1: // an FF more
        memmove(p->octets + at + 1, p->octets + at, p->size++ - at);
        p->octets[at] = 0xFF;
        break;
    default: p->octets[at] = octet_near(p->octets[at]);
    }
}
