// The walk over a JPEG layer as C would have it: from marker to marker, each octet looked at once.
// Compiled twice: with BY_MEMCHR scan data is searched by memchr, else octet by octet.
#include "page.h"

#include <string.h>

#ifdef BY_MEMCHR
#define WALK c_walk_by_memchr
#else
#define WALK c_walk_by_octets
#endif

struct walk {
    const uint8_t *page;
    size_t size;
    uint32_t main;
    struct fault *fault;
};

static bool fail(const struct walk *w, uint32_t number, size_t place)
{
    *w->fault = (struct fault){number, (uint32_t)place};
    return false;
}

// ---- markers

enum kind { ALONE, FRAME, SCAN, END, FAULT, SEGMENT };

static inline enum kind kind_of(uint32_t code)
{
    if (code >= 0xDB)
        return SEGMENT;
    if (code >= 0xD0)
        return code == 0xDA ? SCAN : code == 0xD9 ? END : FAULT;
    if (code >= 0xC0)
        return code % 4 == 0 && code != 0xC0 ? SEGMENT : FRAME;
    return code == 0x01 ? ALONE : FAULT;
}

// A run of FF, all but the last of them fill, and a code that is not FF (T.81, B.1.1.2).
struct marker {
    size_t first, code; // places; a fault's is that of the first FF
};

// The first octet behind a run of FF, whose first is at `at`.
static inline size_t behind_run(const uint8_t *page, size_t at, size_t size)
{
    do
        at++;
    while (at < size && page[at] == 0xFF);
    return at;
}

// The marker that is due here.
static inline bool due(const struct walk *w, size_t at, struct marker *m)
{
    if (w->size - at < 2)
        return fail(w, SPIREROOK_SHORT, at);
    if (w->page[at] != 0xFF)
        return fail(w, SPIREROOK_BAD_LAYER, at);
    m->first = at;
    m->code = behind_run(w->page, at, w->size);
    return m->code < w->size || fail(w, SPIREROOK_SHORT, at);
}

// The next FF of scan data, or the page's end.
static inline size_t next_ff(const uint8_t *page, size_t at, size_t size)
{
#ifdef BY_MEMCHR
    const uint8_t *p = memchr(page + at, 0xFF, size - at);
    return p != NULL ? (size_t)(p - page) : size;
#else
    while (at < size && page[at] != 0xFF)
        at++;
    return at;
#endif
}

// The marker that ends scan data; where there is none, its code is at the page's end. FF 00 is data,
// and so are restart markers, with fill or without; fill before 00 is judged where the marker is.
static struct marker behind_scan(const uint8_t *page, size_t at, size_t size)
{
    while (size - (at = next_ff(page, at, size)) >= 2) {
        if (page[at + 1] == 0x00) { // by far most of them
            at += 2;
            continue;
        }
        size_t first = at;
        at = behind_run(page, at, size);
        if (at == size || (page[at] & 0xF8) != 0xD0)
            return (struct marker){first, at};
        at++;
    }
    return (struct marker){size, size};
}

// ---- segments

// What is known of a layer so far: 0 is not known.
struct layer {
    uint32_t res, width, height, components;
    bool scanned;
};

// Whether a marker may not stand here.
static inline bool out_of_turn(const struct layer *l, enum kind c)
{
    switch (c) {
    case FRAME: return l->res == 0 || l->width != 0;
    case SCAN: return l->width == 0;
    case END: return !l->scanned;
    default: return c == FAULT;
    }
}

static bool read_frame(const struct walk *w, struct layer *l, size_t body)
{
    l->height = be16(w->page + body + 1);
    if (l->height == 0)
        return fail(w, SPIREROOK_BAD_LAYER, body + 1);
    l->width = be16(w->page + body + 3);
    if (l->width == 0)
        return fail(w, SPIREROOK_BAD_LAYER, body + 3);
    l->components = w->page[body + 5];
    return l->components == 1 || l->components == 3 || fail(w, SPIREROOK_BAD_LAYER, body + 5);
}

// The first G3FAX0 counts.
static bool read_tagged(const struct walk *w, struct layer *l, size_t body)
{
    if (l->res != 0 || memcmp(w->page + body, "G3FAX", 6) != 0)
        return true;
    l->res = be16(w->page + body + 8);
    return (listed(l->res) && w->main % l->res == 0) || fail(w, SPIREROOK_BAD_RES, body + 8);
}

// The segment whose length is at `at`. Answers the octet behind it, or 0.
static inline size_t segment(const struct walk *w, struct layer *l, enum kind c, uint32_t code,
                             size_t at)
{
    if (w->size - at < 2)
        return fail(w, SPIREROOK_SHORT, at);
    uint32_t length = be16(w->page + at);
    if (length < (c == FRAME ? 8 : 2))
        return fail(w, SPIREROOK_BAD_LENGTH, at);
    if (w->size - at < length)
        return fail(w, SPIREROOK_SHORT, at + 2);
    if (c == FRAME && !read_frame(w, l, at + 2))
        return 0;
    if (code == 0xE1 && length >= 12 && !read_tagged(w, l, at + 2))
        return 0;
    l->scanned |= c == SCAN;
    return at + length;
}

// ---- the layer

static void put_layer(const struct layer *l, size_t begin, size_t end, uint8_t *record)
{
    put16(record + 8, l->width);
    put16(record + 10, l->height);
    put16(record + 12, l->res);
    record[17] = l->components == 1;
    put32(record + 18, (uint32_t)begin);
    put32(record + 22, (uint32_t)(end - begin));
}

size_t WALK(const uint8_t *page, size_t size, size_t begin, uint32_t main, uint8_t *record,
            struct fault *fault)
{
    const struct walk w = {page, size, main, fault};
    struct layer l = {0, 0, 0, 0, false};
    struct marker m;
    if (size - begin < 2)
        return fail(&w, SPIREROOK_SHORT, begin);
    if (be16(page + begin) != 0xFFD8) // no fill before the first
        return fail(&w, SPIREROOK_BAD_LAYER, begin);
    if (!due(&w, begin + 2, &m))
        return 0;
    for (;;) {
        uint32_t code = page[m.code];
        enum kind c = kind_of(code);
        size_t at = m.code + 1;
        if (out_of_turn(&l, c))
            return fail(&w, SPIREROOK_BAD_LAYER, m.first);
        if (c == END) {
            put_layer(&l, begin, at, record);
            return at;
        }
        if (c != ALONE && (at = segment(&w, &l, c, code, at)) == 0)
            return 0;
        if (c == SCAN) {
            m = behind_scan(page, at, size);
            if (m.code == size)
                return fail(&w, SPIREROOK_SHORT, at);
        } else if (!due(&w, at, &m)) {
            return 0;
        }
    }
}
