// Reading a page as C would have it: one pass, fields read where they are tested, out at the first
// fault. Records stand in a scratch and reach the sheet when all is judged and fits, as the proved
// call has it. Compiled twice, as layer.c is, whose walk it uses.
#include "page.h"

#include <string.h>

#define MOST_OCTETS 16777215
#define MOST_STRIPES 64
#define STRIPE_RECORDS (3 * RECORD_SIZE)

#ifdef BY_MEMCHR
#define READ c_read_by_memchr
#define WALK c_walk_by_memchr
#else
#define READ c_read_by_octets
#define WALK c_walk_by_octets
#endif

struct reader {
    const uint8_t *page;
    size_t size, at; // at: the first octet not read, never past size
    struct fault fault;
    uint32_t mask_coder, image_coder, main, width;
    uint32_t left; // of the page's height
    unsigned stripes;
    uint8_t records[MOST_STRIPES * STRIPE_RECORDS];
};

static bool fail(struct reader *r, uint32_t number, size_t place)
{
    r->fault = (struct fault){number, (uint32_t)place};
    return false;
}

// The next octets as one field, or null.
static inline const uint8_t *take(struct reader *r, size_t octets)
{
    const uint8_t *p = r->page + r->at;
    if (r->size - r->at < octets) {
        fail(r, SPIREROOK_SHORT, r->at);
        return NULL;
    }
    r->at += octets;
    return p;
}

// ---- a stripe

static bool type_ok(const struct reader *r, uint32_t type)
{
    if (type == 0 || type == 5 || type > 7)
        return false;
    return ((type & 2) == 0 || r->mask_coder != 0) && ((type & 5) == 0 || r->image_coder != 0);
}

static bool offset(struct reader *r, bool present, uint8_t *record)
{
    const uint8_t *p = take(r, 8);
    if (p == NULL)
        return false;
    if (!present)
        return true;
    if (be16(p) != 0 || be16(p + 4) != 0)
        return fail(r, SPIREROOK_BAD_STRIPE, r->at - 8);
    record[3] = (uint8_t)r->image_coder;
    memcpy(record + 4, p + 2, 2);
    memcpy(record + 6, p + 6, 2);
    return true;
}

static bool height_and_mask(struct reader *r, bool masked, uint8_t *record)
{
    const uint8_t *p = take(r, 4);
    if (p == NULL)
        return false;
    uint32_t height = be32(p);
    if (height < 1 || height > r->left)
        return fail(r, SPIREROOK_BAD_STRIPE, r->at - 4);
    r->left -= height;
    put16(record + 8, r->width);
    put16(record + 10, height);
    p = take(r, 4);
    if (p == NULL)
        return false;
    uint32_t length = be32(p);
    if ((length != 0) != masked)
        return fail(r, SPIREROOK_BAD_STRIPE, r->at - 4);
    if (!masked)
        return true;
    record[3] = (uint8_t)r->mask_coder;
    put32(record + 18, (uint32_t)r->at);
    put32(record + 22, length);
    return take(r, length) != NULL;
}

// The layer that begins here.
static bool layer(struct reader *r, uint8_t *record)
{
    size_t end = WALK(r->page, r->size, r->at, r->main, record, &r->fault);
    r->at = end;
    return end != 0;
}

static bool stripe(struct reader *r)
{
    uint8_t *back = r->records + r->stripes * STRIPE_RECORDS, *mask = back + RECORD_SIZE,
            *fore = mask + RECORD_SIZE;
    const uint8_t *p = take(r, 1), *colours[2];
    if (p == NULL)
        return false;
    uint32_t type = *p;
    if (!type_ok(r, type))
        return fail(r, SPIREROOK_BAD_TYPE, r->at - 1);
    memset(back, 0, STRIPE_RECORDS);
    for (unsigned k = 0; k < 3; k++) {
        put16(back + k * RECORD_SIZE, r->stripes);
        back[k * RECORD_SIZE + 2] = (uint8_t)(k + 1);
        put16(back + k * RECORD_SIZE + 12, r->main);
    }
    if ((colours[0] = take(r, 3)) == NULL || (colours[1] = take(r, 3)) == NULL)
        return false;
    memcpy(back + 14, colours[0], 3);
    memcpy(fore + 14, colours[1], 3);
    if (!offset(r, type & 1, back) || !offset(r, type & 4, fore) ||
        !height_and_mask(r, type & 2, mask))
        return false;
    if (((type & 1) && !layer(r, back)) || ((type & 4) && !layer(r, fore)))
        return false;
    r->stripes++;
    return true;
}

// ---- the page

static inline bool marker(struct reader *r, uint32_t due)
{
    const uint8_t *p = take(r, 2);
    return p != NULL && (be16(p) == due || fail(r, SPIREROOK_BAD_MARK, r->at - 2));
}

// The length and the ident of a segment whose marker is at `at`; n is the ident's last octet.
static inline bool head(struct reader *r, size_t at, uint32_t *length, uint32_t *n)
{
    if (r->size - at < 4)
        return fail(r, SPIREROOK_SHORT, at + 2);
    *length = be16(r->page + at + 2);
    if (*length < 6)
        return fail(r, SPIREROOK_BAD_LENGTH, at + 2);
    if (r->size - at < 8)
        return fail(r, SPIREROOK_SHORT, at + 4);
    *n = r->page[at + 7];
    return memcmp(r->page + at + 4, "MRC", 3) == 0 || fail(r, SPIREROOK_BAD_MARK, at + 4);
}

static bool number(struct reader *r, unsigned octets, uint32_t *value)
{
    const uint8_t *p = take(r, octets);
    if (p != NULL)
        *value = octets == 1 ? p[0] : octets == 2 ? be16(p) : be32(p);
    return p != NULL;
}

static bool start(struct reader *r)
{
    uint32_t length, n, version, mode;
    if (!marker(r, 0xFFD8) || !marker(r, 0xFFED) || !head(r, 2, &length, &n))
        return false;
    if (n != 0)
        return fail(r, SPIREROOK_BAD_MARK, 6);
    if (length != 16)
        return fail(r, SPIREROOK_BAD_LENGTH, 4);
    r->at = 10;
    if (!number(r, 1, &version) || (version != 0 && !fail(r, SPIREROOK_BAD_VERSION, 10)))
        return false;
    if (!number(r, 1, &mode) || (mode != 1 && !fail(r, SPIREROOK_BAD_MODE, 11)))
        return false;
    if (!number(r, 1, &r->mask_coder))
        return false;
    if (r->mask_coder > 8 || (r->mask_coder & (r->mask_coder - 1)) != 0)
        return fail(r, SPIREROOK_BAD_CODER, 12);
    if (!number(r, 1, &r->image_coder) || (r->image_coder > 1 && !fail(r, SPIREROOK_BAD_CODER, 13)))
        return false;
    if (!number(r, 2, &r->main) || (!listed(r->main) && !fail(r, SPIREROOK_BAD_RES, 14)))
        return false;
    if (!number(r, 4, &r->width) || (r->width - 1 >= 32768 && !fail(r, SPIREROOK_BAD_WIDTH, 16)))
        return false;
    return marker(r, 0xFFD9);
}

// A stripe whose marker is at `at`.
static bool stripe_at(struct reader *r, size_t at, uint32_t length)
{
    if (r->stripes == MOST_STRIPES)
        return fail(r, SPIREROOK_BAD_STRIPE, at + 4);
    if (length != 37)
        return fail(r, SPIREROOK_BAD_LENGTH, at + 2);
    r->at = at + 8;
    return stripe(r);
}

// Optional segments and stripes, up to the first FF D9 of the end.
static bool body(struct reader *r)
{
    for (size_t at = r->at;;) {
        uint32_t length, n;
        if (r->size - at < 2)
            return fail(r, SPIREROOK_SHORT, at);
        if (be16(r->page + at) == 0xFFD9) {
            r->at = at + 2;
            return r->stripes != 0 || fail(r, SPIREROOK_BAD_STRIPE, at);
        }
        if (be16(r->page + at) != 0xFFED)
            return fail(r, SPIREROOK_BAD_MARK, at);
        if (!head(r, at, &length, &n))
            return false;
        if (n == 1) {
            if (!stripe_at(r, at, length))
                return false;
            at = r->at;
        } else if (n < 3 || n == 0xFF || r->stripes != 0) {
            return fail(r, SPIREROOK_BAD_MARK, at + 4);
        } else if (r->size - at - 2 < length) {
            return fail(r, SPIREROOK_SHORT, at + 8);
        } else {
            at += 2 + length;
        }
    }
}

static bool zeros(struct reader *r)
{
    for (size_t i = r->at; i < r->size; i++)
        if (r->page[i] != 0)
            return fail(r, SPIREROOK_TRAILING, i);
    return true;
}

spirerook_answer READ(const uint8_t *page, size_t page_len, uint8_t *sheet, size_t sheet_len)
{
    struct reader r;
    if (page_len > MOST_OCTETS)
        return (spirerook_answer){SPIREROOK_TOO_LONG, 0, 0};
    r.page = page;
    r.size = page_len;
    r.at = 0;
    r.fault = (struct fault){SPIREROOK_DONE, 0};
    r.left = 65535;
    r.stripes = 0;
    if (!start(&r) || !body(&r) || !marker(&r, 0xFFD9) || !zeros(&r))
        return (spirerook_answer){r.fault.number, r.fault.place, 0};
    if (sheet_len < (size_t)r.stripes * STRIPE_RECORDS)
        return (spirerook_answer){SPIREROOK_NO_ROOM, 0, 0};
    memcpy(sheet, r.records, (size_t)r.stripes * STRIPE_RECORDS);
    return (spirerook_answer){SPIREROOK_DONE, 0, (uint64_t)r.stripes * 3};
}
