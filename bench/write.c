// Writing a page as C would have it: the sheet is judged, then one pass over the records looks at
// their data and adds up the page, then memcpy.
// Compiled twice, as layer.c is, whose walk it uses.
#include "page.h"
#include "sheet.h"

#include <string.h>

#define LONGEST 16777215
#define START_SIZE 22
#define STRIPE_SIZE 39
#define END_SIZE 4

#ifdef BY_MEMCHR
#define WRITE c_write_by_memchr
#define WALK c_walk_by_memchr
#else
#define WRITE c_write_by_octets
#define WALK c_walk_by_octets
#endif

struct writer {
    const uint8_t *sheet, *data;
    size_t records, size;             // size: of the data
    uint32_t mask_coder, image_coder; // used so far
    uint64_t length;                  // of the page so far
};

// Whether the data of an image layer is just the layer that its record tells.
static bool agrees(const struct writer *w, const uint8_t *record)
{
    uint8_t found[RECORD_SIZE];
    struct fault fault;                                // any is Mismatch
    uint32_t main = be16(w->sheet + RECORD_SIZE + 12); // layer 2's, the same in all stripes
    if (WALK(w->data + be32(record + 18), be32(record + 22), 0, main, found, &fault) == 0)
        return false;
    return memcmp(found + 8, record + 8, 6) == 0 && found[17] == record[17] &&
           memcmp(found + 22, record + 22, 4) == 0;
}

// The number of a record's fault, or Done.
static uint32_t look_at(struct writer *w, const uint8_t *record)
{
    uint32_t length = be32(record + 22);
    if (length == 0)
        return SPIREROOK_DONE;
    if ((uint64_t)be32(record + 18) + length > w->size)
        return SPIREROOK_SHORT;
    w->length += length;
    if (record[2] != 2) {
        w->image_coder = 1;
        return agrees(w, record) ? SPIREROOK_DONE : SPIREROOK_MISMATCH;
    }
    if (w->mask_coder != 0 && w->mask_coder != record[3])
        return SPIREROOK_MISMATCH;
    w->mask_coder = record[3];
    return SPIREROOK_DONE;
}

static uint8_t *put_start(const struct writer *w, uint8_t *p)
{
    static const uint8_t head[] = {0xFF, 0xD8, 0xFF, 0xED, 0, 16, 'M', 'R', 'C', 0, 0, 1};
    const uint8_t *mask = w->sheet + RECORD_SIZE;
    memcpy(p, head, sizeof head);
    p[12] = (uint8_t)w->mask_coder;
    p[13] = (uint8_t)w->image_coder;
    memcpy(p + 14, mask + 12, 2);
    put32(p + 16, be16(mask + 8));
    put16(p + 20, 0xFFD9);
    return p + START_SIZE;
}

static uint8_t *put_data(const struct writer *w, const uint8_t *record, uint8_t *p)
{
    uint32_t length = be32(record + 22);
    if (length != 0)
        memcpy(p, w->data + be32(record + 18), length);
    return p + length;
}

static uint8_t *put_stripe(const struct writer *w, const uint8_t *back, uint8_t *p)
{
    static const uint8_t head[] = {0xFF, 0xED, 0, 37, 'M', 'R', 'C', 1};
    const uint8_t *mask = back + RECORD_SIZE, *fore = mask + RECORD_SIZE;
    memcpy(p, head, sizeof head);
    p[8] = (uint8_t)((be32(back + 22) != 0) | (be32(mask + 22) != 0) << 1 |
                     (be32(fore + 22) != 0) << 2);
    memcpy(p + 9, back + 14, 3);
    memcpy(p + 12, fore + 14, 3);
    put32(p + 15, be16(back + 4));
    put32(p + 19, be16(back + 6));
    put32(p + 23, be16(fore + 4));
    put32(p + 27, be16(fore + 6));
    put32(p + 31, be16(mask + 10));
    memcpy(p + 35, mask + 22, 4);
    p = put_data(w, mask, p + STRIPE_SIZE);
    p = put_data(w, back, p);
    return put_data(w, fore, p);
}

static void put_page(const struct writer *w, uint8_t *p)
{
    p = put_start(w, p);
    for (size_t i = 0; i < w->records; i += 3)
        p = put_stripe(w, w->sheet + i * RECORD_SIZE, p);
    put32(p, 0xFFD9FFD9);
}

static spirerook_answer refusal(uint32_t number, size_t place)
{
    return (spirerook_answer){number, (uint32_t)place, 0};
}

spirerook_answer WRITE(const uint8_t *sheet, size_t sheet_len, const uint8_t *data, size_t data_len,
                       uint8_t *page, size_t page_len)
{
    uint64_t verdict = c_judge(sheet, sheet_len);
    if (verdict >= REFUSED)
        return refusal(SPIREROOK_BAD_SHEET, (size_t)(verdict - REFUSED));
    struct writer w = {sheet, data, sheet_len / RECORD_SIZE, data_len, 0, 0, START_SIZE + END_SIZE};
    for (size_t i = 0; i < w.records; i++)
        if (sheet[i * RECORD_SIZE + 2] > 3)
            return refusal(SPIREROOK_BAD_MODE, i);
    w.length += w.records / 3 * STRIPE_SIZE;
    for (size_t i = 0; i < w.records; i++) {
        uint32_t number = look_at(&w, sheet + i * RECORD_SIZE);
        if (number != SPIREROOK_DONE)
            return refusal(number, i);
    }
    if (w.length > LONGEST)
        return refusal(SPIREROOK_TOO_LONG, 0);
    if (w.length > page_len)
        return refusal(SPIREROOK_NO_ROOM, 0);
    put_page(&w, page);
    return (spirerook_answer){SPIREROOK_DONE, 0, w.length};
}
