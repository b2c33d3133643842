#include "write_work.h"
#include "fillers.h"
#include "kit.h"

#include <string.h>

static void add(struct work *w, const void *octets, size_t size)
{
    memcpy(w->data + w->data_size, octets, size);
    w->data_size += size;
}

// A picture of 768 by 512 at 200, of three components; answers where it begins.
static size_t add_picture(struct work *w, filler *scan, size_t size)
{
    size_t begin = w->data_size;
    add(w, "\xff\xd8\xff\xe1\0\14G3FAX\0\7\xca\0\xc8", 16);
    w->counts[w->pictures++] = w->data_size + 9;
    add(w, "\xff\xc0\0\21\10\2\0\3\0\3\1\21\0\2\21\1\3\21\1", 19);
    add(w, "\xff\xda\0\10\1\1\0\0\77\0", 10);
    w->data_size = scan(w->data, w->data_size, begin + size);
    add(w, "\xff\xd9", 2);
    return begin;
}

static void clear(struct work *w)
{
    w->sheet_size = w->data_size = 0;
    w->pictures = 0;
}

void make_grey(struct work *w, unsigned picture)
{
    size_t count = w->counts[picture];
    w->data[count] = 1;
    for (uint8_t *p = w->sheet; p != w->sheet + w->sheet_size; p += RECORD_SIZE) {
        size_t start = be32(p + 18);
        if (p[2] != 2 && be32(p + 22) != 0 && start < count && count - start < be32(p + 22))
            p[17] = 1;
    }
}

// The three records of a stripe, uncoded under a main resolution of 400.
static uint8_t *add_stripe(struct work *w)
{
    uint8_t *back = w->sheet + w->sheet_size;
    memset(back, 0, 3 * RECORD_SIZE);
    for (unsigned k = 0; k < 3; k++) {
        uint8_t *p = back + k * RECORD_SIZE;
        put16(p, (uint32_t)(w->sheet_size / (3 * RECORD_SIZE)));
        p[2] = (uint8_t)(k + 1);
        put16(p + 12, 400);
        for (int i = 14; i < 17 && k != 1; i++)
            p[i] = (uint8_t)any(256);
    }
    put16(back + RECORD_SIZE + 8, 4960);
    put16(back + RECORD_SIZE + 10, 1 + any(1000));
    w->sheet_size += 3 * RECORD_SIZE;
    return back;
}

static void code(uint8_t *record, uint32_t coder, size_t start, size_t length)
{
    record[3] = (uint8_t)coder;
    put32(record + 18, (uint32_t)start);
    put32(record + 22, (uint32_t)length);
}

static void code_image(uint8_t *record, size_t start, size_t length)
{
    code(record, 1, start, length);
    put16(record + 4, any(1000));
    put16(record + 6, any(1000));
    put32(record + 8, 768 << 16 | 512);
    put16(record + 12, 200);
}

void make_mask(struct work *w)
{
    clear(w);
    while (w->data_size < LONGEST - 65)
        w->data[w->data_size++] = (uint8_t)any(256);
    code(add_stripe(w) + RECORD_SIZE, 8, 0, w->data_size);
}

// One stripe with a background alone, in a page of about 16 MB.
static void make_background(struct work *w, filler *scan)
{
    clear(w);
    add_picture(w, scan, LONGEST - 256);
    code_image(add_stripe(w), 0, w->data_size);
}

void make_random(struct work *w)
{
    make_background(w, random_scan);
}
void make_stuffed(struct work *w)
{
    make_background(w, stuffed_scan);
}
void make_scans(struct work *w)
{
    make_background(w, scans_of_4);
}
void make_restarts(struct work *w)
{
    make_background(w, dense_restarts);
}

// Image layers 1 and 3 of 64 stripes, all on one picture of so many octets; the masks are its first
// octet.
static void make_shared(struct work *w, size_t size)
{
    clear(w);
    add_picture(w, random_scan, size);
    for (int k = 0; k < 64; k++) {
        uint8_t *back = add_stripe(w);
        code_image(back, 0, w->data_size);
        code(back + RECORD_SIZE, 4, 0, 1);
        code_image(back + 2 * RECORD_SIZE, 0, w->data_size);
    }
}

void make_shared_small(struct work *w)
{
    make_shared(w, 130 * 1000);
}
void make_shared_large(struct work *w)
{
    make_shared(w, LONGEST - 256);
}

// A few stripes of small layers with data of their own, as most damage wants them.
static void make_some(struct work *w, unsigned stripes)
{
    static const uint8_t types[] = {1, 2, 3, 4, 6, 7};
    uint32_t coder = 1u << any(4);
    clear(w);
    while (stripes-- != 0) {
        unsigned type = types[any(6)];
        uint8_t *back = add_stripe(w);
        for (unsigned k = 0; k < 3; k++) {
            size_t begin = w->data_size;
            if ((type >> k & 1) == 0)
                continue;
            if (k != 1)
                add_picture(w, any(2) == 0 ? random_scan : dense_restarts, 40 + any(90));
            else
                for (uint32_t n = 1 + any(40); n != 0; n--)
                    w->data[w->data_size++] = (uint8_t)any(256);
            if (k != 1)
                code_image(back + k * RECORD_SIZE, begin, w->data_size - begin);
            else
                code(back + k * RECORD_SIZE, coder, begin, w->data_size - begin);
        }
    }
}

void make_some_grey(struct work *w, unsigned stripes)
{
    make_some(w, stripes);
    for (unsigned k = 0; k < w->pictures; k++)
        if (any(2) == 0)
            make_grey(w, k);
}

void make_small(struct work *w)
{
    make_some(w, 64);
}

void damage(struct work *w)
{
    if (any(2) == 0) {
        uint8_t *p = w->sheet + any((uint32_t)w->sheet_size);
        *p = octet_near(*p);
    } else if (any(4) == 0) {
        w->data_size = any((uint32_t)w->data_size + 1);
    } else if (w->data_size != 0) {
        uint8_t *p = w->data + any((uint32_t)w->data_size);
        *p = octet_near(*p);
    }
}
