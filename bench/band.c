// A band of pixels as tuned C would have it: the call is judged as a line's is, then the rows are
// painted from the top down, each layer by layer, the lowest first. Where a layer begins or ends, the
// coats of a row are worked out anew: a pair is cropped to its mask's area and its image to the image
// layer's, and what a higher pair covers whatever lies below is left out. All rows up to the next such
// line have the same coats. Samples of several pixels are spread once for the lines that share them.
#include "band.h"
#include "coat.h"
#include "four.h"
#include "stripe.h"

#define MOST_WIDTH 32768
#define MOST_PARTS 9   // of a row that are apart from each other
#define MOST_COATS 192 // of a row: of eight images in three parts of each of those
#define SHORT 64
#define LOOK_AGAIN 8 // rows on, since the mask of a page may change its kind

struct part {
    uint32_t from, to;
};

struct parts {
    uint32_t count;
    struct part part[MOST_PARTS];
};

// A layer where its row is followed from line to line.
struct plane {
    const struct layer *layer;
    bool crossed;       // whether the lines meet its area
    struct part area;   // within the page
    const uint8_t *row; // of the line, where it is crossed and read
    const uint8_t *end; // of all rows
    size_t row_size;
    uint32_t lines_left;       // of that row
    struct part wanted;        // of it by all coats together
    uint8_t *spread;           // its pixels, with k above 1, from the layer's left edge on
    const uint8_t *spread_row; // that they are of
};

struct job {
    struct coat coat;
    struct part part;
    struct plane *mask, *image;         // whose samples it needs, or null
    uint32_t first_pixel, first_sample; // of the coat in the image's row, the latter in octets
    uint32_t dense_lines;               // so far
};

struct band {
    struct stripe s;
    uint32_t unseen;
    struct plane plane[MOST_LAYERS + 1];
    struct job jobs[MOST_COATS];
    size_t job_count;
    bool one_line; // so that nothing is shared with the next
};

// Room for every row's pixels, too large for a stack.
static uint8_t spread_masks[MOST_LAYERS / 2][MOST_WIDTH + SPREAD_MORE];
static uint8_t spread_images[MOST_LAYERS / 2 + 1][4 * MOST_WIDTH + SPREAD_MORE];

// ---- parts of a row

static uint32_t least(uint32_t a, uint32_t b)
{
    return a < b ? a : b;
}

static struct part common(struct part a, struct part b)
{
    uint32_t from = a.from < b.from ? b.from : a.from, to = least(a.to, b.to);
    return (struct part){from, to < from ? from : to};
}

// All that is not in the part.
static void leave_out(struct parts *all, struct part p)
{
    struct parts left;
    if (p.from == p.to)
        return;
    left.count = 0;
    for (uint32_t i = 0; i < all->count; i++) {
        struct part q = all->part[i], c = common(q, p);
        if (c.from == c.to) {
            left.part[left.count++] = q;
            continue;
        }
        if (q.from < c.from)
            left.part[left.count++] = (struct part){q.from, c.from};
        if (c.to < q.to)
            left.part[left.count++] = (struct part){c.to, q.to};
    }
    *all = left;
}

// ---- coats

static uint32_t base_word(const struct layer *l)
{
    return word_of(l->outside >> 16 & 255, l->outside >> 8 & 255, l->outside & 255, 1);
}

static void want(struct plane *plane, struct part p)
{
    if (plane == NULL)
        return;
    plane->wanted.from = least(plane->wanted.from, p.from);
    plane->wanted.to = plane->wanted.to < p.to ? p.to : plane->wanted.to;
}

static struct job *add_job(struct band *b, enum way way, struct plane *mask, struct part p)
{
    struct job *j = &b->jobs[b->job_count++];
    *j = (struct job){.part = p, .mask = mask};
    j->coat.way = way;
    j->coat.unseen = b->unseen;
    j->coat.count = p.to - p.from;
    want(mask, p);
    return j;
}

static void add_one(struct band *b, enum way way, struct plane *mask, struct part p, uint32_t word)
{
    if (p.from >= p.to)
        return;
    // what is not known does not agree with anything
    if (word == b->unseen && way == AGREE)
        way = LAY;
    struct job *j = add_job(b, way, mask, p);
    j->coat.source = ONE;
    j->coat.word = word;
}

// Words are worth their making where enough lines share them and each needs most of them, and for
// a part that is short, which needs no sample to begin at its first pixel.
static bool wants_words(const struct job *j, bool one_line)
{
    const struct layer *l = j->image->layer;
    if (l->k == 1 || one_line)
        return false;
    if (j->coat.way == AGREE || j->part.to - j->part.from < SHORT)
        return true;
    return l->k > 4 || (l->k > 2 && j->coat.look == DENSE) ||
           (l->k == 3 && l->size == 3 && j->coat.look == PLAIN);
}

static void set_source(struct job *j, bool one_line)
{
    const struct layer *l = j->image->layer;
    bool words = wants_words(j, one_line);
    j->coat.source = words ? WORDS : l->size == 3 ? THREES : GREYS;
    j->coat.k = words ? 1 : l->k;
    j->coat.before = words ? 0 : (l->k - (j->part.from - l->x) % l->k) % l->k;
    j->coat.count = (ptrdiff_t)(j->part.to - j->part.from) - j->coat.before;
    j->first_pixel = j->part.from - l->x + (uint32_t)j->coat.before;
    j->first_sample = j->first_pixel / l->k * l->size;
}

static void add_samples(struct band *b, struct plane *image, enum way way, struct plane *mask,
                        struct part p)
{
    struct job *j = add_job(b, way, mask, p);
    j->image = image;
    want(image, p);
    set_source(j, b->one_line);
}

// An image over a part: its area, and its base colour beside that.
static void add_image(struct band *b, struct plane *image, enum way way, struct plane *mask,
                      struct part p)
{
    const struct layer *l = image->layer;
    struct part in = common(p, image->area);
    if (!image->crossed || in.from == in.to) {
        add_one(b, way, mask, p, base_word(l));
        return;
    }
    add_one(b, way, mask, (struct part){p.from, in.from}, base_word(l));
    if (l->samples == NULL)
        add_one(b, way, mask, in, b->unseen);
    else
        add_samples(b, image, way, mask, in);
    add_one(b, way, mask, (struct part){in.to, p.to}, base_word(l));
}

// Layer 2 where it is not coded, over a stripe whose layer 3 is.
static bool all_ones(const struct plane *mask)
{
    return !mask->layer->coded && mask->layer->outside == 1;
}

// What a pair makes of a row whatever lies below.
static struct part veiled(const struct band *b, uint32_t n)
{
    const struct plane *mask = &b->plane[n], *image = mask + 1;
    if (all_ones(mask))
        return (struct part){0, b->s.page_width};
    if (mask->crossed && image->crossed && mask->layer->samples == NULL &&
        image->layer->samples == NULL)
        return common(mask->area, image->area);
    return (struct part){0, 0};
}

static void add_pair(struct band *b, uint32_t n, struct part p)
{
    struct plane *mask = &b->plane[n], *image = mask + 1;
    if (all_ones(mask)) {
        add_image(b, image, LAY, NULL, p);
        return;
    }
    p = common(p, mask->area);
    if (!mask->crossed || p.from == p.to)
        return;
    if (mask->layer->samples == NULL)
        add_image(b, image, AGREE, NULL, p);
    else
        add_image(b, image, PICK, mask, p);
}

static void find_jobs(struct band *b)
{
    struct parts need[MOST_LAYERS / 2 + 1], all = {1, {{0, b->s.page_width}}};
    uint32_t pairs = b->s.layers / 2;
    for (uint32_t j = pairs; j > 0; j--) {
        need[j] = all;
        leave_out(&all, veiled(b, 2 * j));
    }
    b->job_count = 0;
    for (uint32_t i = 0; i < all.count; i++)
        add_image(b, &b->plane[1], LAY, NULL, all.part[i]);
    for (uint32_t j = 1; j <= pairs; j++)
        for (uint32_t i = 0; i < need[j].count; i++)
            add_pair(b, 2 * j, need[j].part[i]);
}

// ---- rows

static void begin_plane(struct plane *p, uint32_t n, const struct stripe *s)
{
    const struct layer *l = &s->layer[n];
    *p = (struct plane){.layer = l, .row_size = (size_t)l->width * l->size};
    if (l->samples != NULL)
        p->end = l->samples + l->height * p->row_size;
    p->spread = n % 2 == 0 ? spread_masks[n / 2 - 1] : spread_images[n / 2];
    p->area = common((struct part){l->x, l->x + l->width * l->k}, (struct part){0, s->page_width});
}

// The layers that lines from y on meet; answers the line at which others do.
static uint32_t cross(struct band *b, uint32_t y)
{
    uint32_t next = b->s.height;
    for (uint32_t n = 1; n <= b->s.layers; n++) {
        struct plane *p = &b->plane[n];
        const struct layer *l = p->layer;
        uint32_t end = l->y + l->height * l->k;
        p->crossed = l->coded && l->y <= y && y < end;
        p->wanted = (struct part){UINT32_MAX, 0};
        p->row = p->spread_row = NULL;
        if (l->coded && y < l->y)
            next = least(next, l->y);
        if (!p->crossed)
            continue;
        next = least(next, end);
        p->lines_left = l->k - (y - l->y) % l->k;
        if (l->samples != NULL)
            p->row = l->samples + (y - l->y) / l->k * p->row_size;
    }
    return next;
}

static void next_line(struct band *b)
{
    for (uint32_t n = 1; n <= b->s.layers; n++) {
        struct plane *p = &b->plane[n];
        if (p->row == NULL || --p->lines_left != 0)
            continue;
        p->lines_left = p->layer->k;
        p->row += p->row_size;
    }
}

// All pixels of the row that some coat wants, from its samples.
static void spread_row(struct plane *p, uint32_t octets)
{
    const struct layer *l = p->layer;
    uint32_t first = (p->wanted.from - l->x) / l->k, last = (p->wanted.to - l->x - 1) / l->k;
    uint8_t *to = p->spread + (size_t)first * l->k * octets;
    const uint8_t *from = p->row + (size_t)first * l->size;
    if (octets == 1)
        spread_mask(to, from, last + 1 - first, l->k);
    else
        spread_image(to, from, last + 1 - first, l->k, l->size);
    p->spread_row = p->row;
}

// Its pixels, of so many octets each.
static const uint8_t *spread_of(struct plane *p, uint32_t octets)
{
    if (p->spread_row != p->row)
        spread_row(p, octets);
    return p->spread;
}

static void set_image(struct job *j)
{
    struct plane *p = j->image;
    if (j->coat.source == WORDS) {
        j->coat.up = spread_of(p, 4) + 4 * (size_t)j->first_pixel;
        return;
    }
    j->coat.up = p->row + j->first_sample;
    j->coat.last = (size_t)(p->end - p->row) < p->row_size + READ_MORE;
}

static void set_mask(struct job *j, uint32_t x)
{
    struct plane *p = j->mask;
    j->coat.mask = (p->layer->k == 1 ? p->row : spread_of(p, 1)) + (x - p->layer->x);
}

// What is mixed is told only by looking.
static void look_on(struct job *j, enum look look)
{
    if (look == DENSE && ++j->dense_lines % LOOK_AGAIN == 0)
        look = PLAIN;
    if (look == j->coat.look)
        return;
    j->coat.look = look;
    if (j->image != NULL)
        set_source(j, false);
}

static void do_job(struct job *j, uint8_t *out)
{
    uint32_t first = j->part.from + (uint32_t)j->coat.before;
    if (j->image != NULL)
        set_image(j);
    if (j->mask != NULL)
        set_mask(j, first);
    enum look look = put_coat(out + (size_t)first * 4, &j->coat);
    if (j->mask != NULL)
        look_on(j, look);
}

static void put_lines(struct band *b, uint32_t y, uint32_t end, uint8_t *out)
{
    while (y < end) {
        uint32_t next = least(cross(b, y), end);
        find_jobs(b);
        for (; y < next; y++, out += (size_t)b->s.page_width * 4) {
            for (size_t i = 0; i < b->job_count; i++)
                do_job(&b->jobs[i], out);
            next_line(b);
        }
    }
}

static void begin_band(struct band *b, bool one_line, uint8_t u0, uint8_t u1, uint8_t u2)
{
    b->unseen = word_of(u0, u1, u2, 0);
    b->one_line = one_line;
    for (uint32_t n = 1; n <= b->s.layers; n++)
        begin_plane(&b->plane[n], n, &b->s);
}

spirerook_answer c_band(const uint8_t *sheet, size_t sheet_len, const uint8_t *planes,
                        size_t planes_len, const uint8_t *samples, size_t samples_len,
                        uint32_t stripe, uint8_t u0, uint8_t u1, uint8_t u2, uint8_t *out,
                        size_t out_len)
{
    struct band b;
    spirerook_answer a = judge_call(&b.s, sheet, sheet_len, planes, planes_len, samples,
                                    samples_len, stripe, 0);
    if (a.number != SPIREROOK_DONE)
        return a;
    a.count = (uint64_t)b.s.page_width * b.s.height * 4;
    if (out_len < a.count)
        return (spirerook_answer){SPIREROOK_NO_ROOM, 0, 0};
    begin_band(&b, false, u0, u1, u2);
    put_lines(&b, 0, b.s.height, out);
    return a;
}

spirerook_answer c_band_line(const uint8_t *sheet, size_t sheet_len, const uint8_t *planes,
                             size_t planes_len, const uint8_t *samples, size_t samples_len,
                             uint32_t stripe, uint32_t line, uint8_t u0, uint8_t u1, uint8_t u2,
                             uint8_t *out, size_t out_len)
{
    struct band b;
    spirerook_answer a = judge_call(&b.s, sheet, sheet_len, planes, planes_len, samples,
                                    samples_len, stripe, line);
    if (a.number != SPIREROOK_DONE)
        return a;
    a.count = (uint64_t)b.s.page_width * 4;
    if (out_len < a.count)
        return (spirerook_answer){SPIREROOK_NO_ROOM, 0, 0};
    begin_band(&b, true, u0, u1, u2);
    put_lines(&b, line, line + 1, out);
    return a;
}
