// The judge of a sheet as C would have it: one pass, fields read where they are tested, out at the
// first fault.
#include "sheet.h"

#include <stdbool.h>

struct state {
    uint32_t stripe, layer; // of the last record; layer 0 before the first
    bool coded1, coded2;    // of this stripe
    uint32_t res1;
    uint32_t main, width; // of the last layer 2
    uint32_t left;        // of the page's height
};

struct record {
    const uint8_t *at;
    uint32_t stripe, layer, res, len;
};

static bool closes(uint32_t layer)
{
    return layer % 2 == 1 && layer >= 3;
}

static bool placed(const struct state *st, const struct record *r)
{
    if (r->stripe == st->stripe)
        return r->layer == st->layer + 1 && r->layer <= 15;
    return r->stripe == st->stripe + 1 && r->stripe < 64 && r->layer == 1 && closes(st->layer);
}

static bool coder_ok(uint32_t layer, uint32_t coder)
{
    return coder == 1 || (layer % 2 == 0 && (coder == 2 || coder == 4 || coder == 8));
}

// Octet 17: 1 may stand in a coded image layer, and nowhere else.
static bool grey_ok(const struct record *r)
{
    return r->at[17] <= (r->len != 0 && r->layer % 2 == 1);
}

static bool data_ok(const struct record *r)
{
    const uint8_t *p = r->at;
    uint32_t start = be32(p + 18);
    if (r->len == 0)
        return p[3] == 0 && start == 0 && (r->layer == 2 || (be32(p + 4) | be32(p + 8)) == 0);
    return coder_ok(r->layer, p[3]) && be16(p + 8) != 0 && be16(p + 10) != 0 &&
           (uint64_t)start + r->len < 4294967296u;
}

static bool listed(uint32_t res)
{
    switch (res) {
    case 100:
    case 200:
    case 300:
    case 400:
    case 600:
    case 1200: return true;
    default: return false;
    }
}

// Both are listed by now, so no divisor is 0 and equal ones divide.
static bool res_ok(bool coded, uint32_t res, uint32_t main)
{
    return res == main || (coded && main % res == 0);
}

static bool base_ok(const struct record *r)
{
    const uint8_t *p = r->at;
    return r->layer % 2 == 1 || (p[14] | p[15] | p[16]) == 0;
}

static bool page_ok(const struct state *st, const struct record *r)
{
    uint32_t width = be16(r->at + 8), height = be16(r->at + 10);
    if (be32(r->at + 4) != 0 || width < 1 || width > 32768 || height < 1 || height > st->left)
        return false;
    if (r->stripe != 0 && (width != st->width || r->res != st->main))
        return false;
    return res_ok(st->coded1, st->res1, r->res);
}

static bool choice_ok(bool one, bool two, bool three)
{
    return two || one != three;
}

static bool layer_ok(const struct state *st, const struct record *r)
{
    bool coded = r->len != 0;
    if (r->layer == 1)
        return true;
    if (r->layer == 2)
        return page_ok(st, r);
    return res_ok(coded, r->res, st->main) &&
           (r->layer != 3 || choice_ok(st->coded1, st->coded2, coded));
}

static bool keeps_rules(const struct state *st, const struct record *r)
{
    const uint8_t *p = r->at;
    return (p[26] | p[27]) == 0 && placed(st, r) && grey_ok(r) && data_ok(r) && listed(r->res) &&
           base_ok(r) && layer_ok(st, r);
}

static void advance(struct state *st, const struct record *r)
{
    st->stripe = r->stripe;
    st->layer = r->layer;
    if (r->layer == 1) {
        st->coded1 = r->len != 0;
        st->res1 = r->res;
    } else if (r->layer == 2) {
        st->coded2 = r->len != 0;
        st->main = r->res;
        st->width = be16(r->at + 8);
        st->left -= be16(r->at + 10);
    }
}

uint64_t c_judge(const uint8_t *sheet, size_t octets)
{
    struct state st = {.left = 65535};
    size_t n = octets / RECORD_SIZE;
    for (size_t i = 0; i < n; i++) {
        const uint8_t *p = sheet + i * RECORD_SIZE;
        struct record r = {p, be16(p), p[2], be16(p + 12), be32(p + 22)};
        if (!keeps_rules(&st, &r))
            return REFUSED + i;
        advance(&st, &r);
    }
    if (!closes(st.layer) || octets % RECORD_SIZE != 0)
        return REFUSED + n;
    return (uint64_t)n * 65536 + st.stripe + 1;
}
