// Times the proved composing of a band beside tuned C, which paints layer by layer too, and beside
// a line call, line by line, on the same sheets and samples in one run: with BEFORE that of an earlier
// library, which goes pixel by pixel, else the proved one, which paints lines too. First all must agree,
// answer and band octet for octet, on what is timed and on small calls, good and damaged. Last, the
// line call beside one line by that C.
#include "band.h"
#include "kit.h"
#include "line_work.h"

#include <inttypes.h>
#include <stdio.h>
#include <stdlib.h>
#include <string.h>

#define PASSES 3 // over all rows, since a machine can be slow for seconds
#define ROUNDS 15
#define SMALL 20000
#define LARGER 4000
#define ROUND_NS 20000.0
#define LIMIT 1.3        // of C, and
#define LINES_LIMIT 0.25 // of the line call, where masks are in runs
#define LINE_LIMIT 1.5   // of a line, beside the C of a band
#define BAND_WIDTH 2480
#define BAND_HEIGHT 96
#define PIXELS (BAND_WIDTH * BAND_HEIGHT)
#define MOST_OUT (4 * PIXELS)

// ---- all must agree

// The record of layer 2 of a stripe, in a sheet that was judged.
static const uint8_t *second_of(const uint8_t *sheet, uint32_t stripe)
{
    while (be16(sheet) != stripe)
        sheet += RECORD_SIZE;
    return sheet + RECORD_SIZE;
}

#ifdef BEFORE
spirerook_answer before_line_unseen(const uint8_t *sheet, size_t sheet_len, const uint8_t *planes,
                                    size_t planes_len, const uint8_t *samples, size_t samples_len,
                                    uint32_t stripe, uint32_t line, uint8_t u0, uint8_t u1,
                                    uint8_t u2, uint8_t *out, size_t out_len);
#define LINE_CALL before_line_unseen
#define LINE_NAME "the line call of the library before"
#else
#define LINE_CALL spirerook_line_unseen
#define LINE_NAME "the line call"
#endif

// A band by the line call. The first has no room, so that it only judges.
static spirerook_answer by_lines(const uint8_t *sheet, size_t sheet_len, const uint8_t *planes,
                                 size_t planes_len, const uint8_t *samples, size_t samples_len,
                                 uint32_t stripe, uint8_t u0, uint8_t u1, uint8_t u2, uint8_t *out,
                                 size_t out_len)
{
    spirerook_answer a = LINE_CALL(sheet, sheet_len, planes, planes_len, samples, samples_len,
                                   stripe, 0, u0, u1, u2, out, 0);
    if (a.number != SPIREROOK_NO_ROOM)
        return a;
    const uint8_t *second = second_of(sheet, stripe);
    uint64_t size = 4 * (uint64_t)be16(second + 8), count = spirerook_band_octets(second);
    if (out_len < count)
        return a;
    for (uint32_t y = 0; y < be16(second + 10); y++)
        a = LINE_CALL(sheet, sheet_len, planes, planes_len, samples, samples_len, stripe, y, u0, u1,
                      u2, out + size * y, size);
    a.count = count;
    return a;
}

#define SIDES 3
static band_composer *const composers[SIDES] = {spirerook_band, c_band, by_lines};
static uint8_t bands[SIDES][MOST_OUT];

static spirerook_answer band_of(band_composer *f, const struct work *w, uint8_t *out)
{
    return f(w->sheet, w->sheet_size, w->planes, w->planes_size, w->samples, w->samples_size,
             w->stripe, w->unseen[0], w->unseen[1], w->unseen[2], out, w->room);
}

static void expect_same(const char *what, int side, spirerook_answer a, spirerook_answer b,
                        const uint8_t *one, const uint8_t *other, size_t octets)
{
    if (a.number == b.number && a.place == b.place && a.count == b.count &&
        memcmp(one, other, octets) == 0)
        return;
    fprintf(stderr,
            "bench: %s: Rattle answers %" PRIu32 " at %" PRIu32 " and side %d %" PRIu32
            " at %" PRIu32 ", or the octets differ\n",
            what, a.number, a.place, side, b.number, b.place);
    exit(1);
}

static uint32_t agreed(const char *what, const struct work *w)
{
    spirerook_answer a[SIDES];
    for (int k = 0; k < SIDES; k++) {
        memset(bands[k], 0xA5, w->room);
        a[k] = band_of(composers[k], w, bands[k]);
        expect_same(what, k, a[0], a[k], bands[0], bands[k], w->room);
    }
    return a[0].number;
}

// One line of each side, the band's buffers lent for it.
static uint32_t line_agreed(const char *what, const struct work *w)
{
    memset(bands[0], 0xA5, w->room);
    memset(bands[1], 0xA5, w->room);
    spirerook_answer a = composed(spirerook_line_unseen, w, bands[0]),
                     b = composed(c_band_line, w, bands[1]);
    expect_same(what, 1, a, b, bands[0], bands[1], w->room);
    return a.number;
}

static void expect_done(const char *what, uint32_t number)
{
    if (number != SPIREROOK_DONE) {
        fprintf(stderr, "bench: %s: refused\n", what);
        exit(1);
    }
}

static void make_room(struct work *w)
{
    w->room = spirerook_band_octets(second_of(w->sheet, w->stripe));
}

static void agree_on_good(struct work *w)
{
    expect_done("a small line", line_agreed("a small line", w));
    make_room(w);
    w->room += any(2);
    expect_done("a small band", agreed("a small band", w));
}

static void agree_on_small(struct work *w)
{
    unsigned good = 0;
    for (int i = 0; i < LARGER; i++) {
        make_larger(w);
        agree_on_good(w);
    }
    for (int i = 0; i < SMALL; i++) {
        make_small(w);
        agree_on_good(w);
        for (uint32_t times = 1 + any(2); times != 0 && w->sheet_size != 0; times--)
            damage(w);
        good += agreed("a damaged call", w) == SPIREROOK_DONE;
        line_agreed("a damaged call", w);
    }
    printf(
        "Rattle, C and the line call agree on %d larger bands, on %d small ones and on each of these once damaged: %u still good, %u refused\n\n",
        LARGER, SMALL, good, SMALL - good);
}

// ---- times

static uint64_t timed(int k, const void *work)
{
    spirerook_answer a = band_of(composers[k], work, bands[k]);
    return a.count + a.number;
}

static uint64_t rattle(const void *work)
{
    return timed(0, work);
}
static uint64_t tuned(const void *work)
{
    return timed(1, work);
}
static uint64_t lines(const void *work)
{
    return timed(2, work);
}

static uint64_t proved_line(const void *work)
{
    return composed(spirerook_line_unseen, work, bands[0]).count;
}
static uint64_t tuned_line(const void *work)
{
    return composed(c_band_line, work, bands[1]).count;
}

// What no composer can be faster than: the band filled, and copied row by row.
static uint64_t filled(const void *work)
{
    (void)work;
    memset(bands[0], 128, MOST_OUT);
    return bands[0][0];
}
static uint64_t copied(const void *work)
{
    (void)work;
    for (size_t y = 0; y < BAND_HEIGHT; y++)
        memcpy(bands[0] + 4 * BAND_WIDTH * y, bands[1] + 4 * BAND_WIDTH * y, 4 * BAND_WIDTH);
    return bands[0][0];
}

#define BAND_ROWS (3 * 3 * 2 * 3)

static struct shape band_shape(size_t row)
{
    static const uint32_t layer_counts[] = {3, 9, 15}, ks[] = {1, 2, 4};
    static const enum unread unread[] = {ALL_READ, PAIRS_UNREAD, HALF_UNREAD};
    return (struct shape){.width = BAND_WIDTH,
                          .height = BAND_HEIGHT,
                          .layers = layer_counts[row / 18],
                          .k = ks[row / 6 % 3],
                          .run = row / 3 % 2 == 0 ? 64 : 0,
                          .unread = unread[row % 3]};
}

// Bands that differ from those in one thing.
struct other {
    const char *name;
    struct shape shape;
};

#define OTHER(count, ratio, ...) \
    { \
        .width = BAND_WIDTH, .height = BAND_HEIGHT, .layers = count, .k = ratio, __VA_ARGS__ \
    }

static const struct other others[] = {
    {" 9 layers, k  3, masks in runs", OTHER(9, 3, .run = 64)},
    {" 9 layers, k  3, masks at random", OTHER(9, 3, .run = 0)},
    {" 9 layers, k  6, masks in runs", OTHER(9, 6, .run = 64)},
    {" 9 layers, k  6, masks at random", OTHER(9, 6, .run = 0)},
    {" 9 layers, k 12, masks in runs", OTHER(9, 12, .run = 64)},
    {" 9 layers, k 12, masks at random", OTHER(9, 12, .run = 0)},
    {" 3 layers, k  1, runs of 300", OTHER(3, 1, .run = 300)},
    {"15 layers, k  1, runs of 300", OTHER(15, 1, .run = 300)},
    {"15 layers, k  4, runs of 300", OTHER(15, 4, .run = 300)},
    {" 3 layers, k  1, 1 of 16 runs is 1", OTHER(3, 1, .run = 64, .ones = 1)},
    {"15 layers, k  1, 1 of 16 runs is 1", OTHER(15, 1, .run = 64, .ones = 1)},
    {"15 layers, k  4, 1 of 16 runs is 1", OTHER(15, 4, .run = 64, .ones = 1)},
    {" 3 layers, k  1, grey, masks in runs", OTHER(3, 1, .run = 64, .grey = true)},
    {"15 layers, k  1, grey, masks in runs", OTHER(15, 1, .run = 64, .grey = true)},
    {"15 layers, k  1, grey, masks at random", OTHER(15, 1, .grey = true)},
    {"15 layers, k  4, grey, masks in runs", OTHER(15, 4, .run = 64, .grey = true)},
    {"15 layers, k  4, grey, masks at random", OTHER(15, 4, .grey = true)},
};

#define OTHERS (sizeof others / sizeof others[0])
#define YARDSTICKS 2

static double best[BAND_ROWS + OTHERS][SIDES], line_best[PIXEL_ROWS][2], yardsticks[YARDSTICKS];

static void time_band(struct work *w, const char *name, const struct shape *s, double times[SIDES])
{
    static side *const sides[SIDES] = {rattle, tuned, lines};
    make_behind(w, s, 0, 0);
    make_room(w);
    expect_done(name, agreed(name, w));
    take_turns(sides, SIDES, w, ROUND_NS, ROUNDS, times);
}

static void time_line(struct work *w, const struct shape *s, double times[2])
{
    static side *const sides[] = {proved_line, tuned_line};
    make_behind(w, s, 0, 0);
    expect_done("a line", line_agreed("a line", w));
    take_turns(sides, 2, w, ROUND_NS, ROUNDS, times);
}

static void time_all(struct work *w)
{
    static side *const bare[YARDSTICKS] = {filled, copied};
    for (size_t i = 0; i < BAND_ROWS; i++) {
        struct shape s = band_shape(i);
        time_band(w, pixel_name(&s), &s, best[i]);
    }
    for (size_t i = 0; i < OTHERS; i++)
        time_band(w, others[i].name, &others[i].shape, best[BAND_ROWS + i]);
    take_turns(bare, YARDSTICKS, w, ROUND_NS, ROUNDS, yardsticks);
    for (size_t i = 0; i < PIXEL_ROWS; i++) {
        struct shape s = pixel_shape(i);
        time_line(w, &s, line_best[i]);
    }
}

static void print_head(const char *what)
{
    printf("%-46s %10s %10s %10s %9s %9s\n", what, "Rattle", "C", "lines", "/ C", "/ lines");
}

static bool print_row(const char *name, const double t[SIDES])
{
    bool over = t[0] / t[1] > LIMIT;
    printf("%-46s %10.3f %10.3f %10.3f %9.2f %9.2f%s\n", name, t[0] / PIXELS, t[1] / PIXELS,
           t[2] / PIXELS, t[0] / t[1], t[0] / t[2], over ? "  over the limit" : "");
    return over;
}

static void print_bands(void)
{
    unsigned over = 0, least = 0, slow = 0;
    print_head("bands, ns a pixel, best of many rounds");
    for (size_t i = 0; i < BAND_ROWS; i++) {
        struct shape s = band_shape(i);
        over += print_row(pixel_name(&s), best[i]);
        least += best[i][0] <= best[i][1];
        slow += s.run != 0 && best[i][0] / best[i][2] > LINES_LIMIT;
    }
    printf("\n%u of %d bands are over the limit, %.1f times C; %u are at most C's time\n", over,
           BAND_ROWS, LIMIT, least);
    printf("%u of %d bands with masks in runs are over %.2f times " LINE_NAME "\n\n", slow,
           BAND_ROWS / 2, LINES_LIMIT);
}

static void print_others(void)
{
    unsigned over = 0;
    print_head("other bands, ns a pixel, best of many rounds");
    for (size_t i = 0; i < OTHERS; i++)
        over += print_row(others[i].name, best[BAND_ROWS + i]);
    printf("\n%u of %zu other bands are over the limit, %.1f times C\n", over, OTHERS, LIMIT);
    printf(
        "a band filled by memset takes %.2f, and one copied row by row %.2f, of C's time for the first band of all\n\n",
        yardsticks[0] / best[0][1], yardsticks[1] / best[0][1]);
}

static void print_lines(void)
{
    unsigned over = 0;
    printf("%-46s %10s %10s %9s\n", "one line, ns a pixel, best of many rounds", "Rattle",
           "C of bands", "/ C");
    for (size_t i = 0; i < PIXEL_ROWS; i++) {
        struct shape s = pixel_shape(i);
        const double *t = line_best[i], ratio = t[0] / t[1];
        over += ratio > LINE_LIMIT;
        printf("%-46s %10.3f %10.3f %9.2f%s\n", pixel_name(&s), t[0] / WIDTH, t[1] / WIDTH, ratio,
               ratio > LINE_LIMIT ? "  over the limit" : "");
    }
    printf("\n%u of %d lines are over the limit, %.1f times the C of a band\n", over, PIXEL_ROWS,
           LINE_LIMIT);
    puts(
        "\nratios: Rattle / the other, below 1 is faster; C paints a band layer by layer, lowest first, as Rattle does; lines is " LINE_NAME
        ", once a line");
}

int main(void)
{
    static struct work w;
    w.samples = malloc(MOST_SAMPLES);
    if (w.samples == NULL) {
        fputs("bench: no memory for samples\n", stderr);
        return 1;
    }
    agree_on_small(&w);
    forget(best[0], (BAND_ROWS + OTHERS) * SIDES);
    forget(line_best[0], PIXEL_ROWS * 2);
    forget(yardsticks, YARDSTICKS);
    for (int pass = 0; pass < PASSES; pass++)
        time_all(&w);
    print_bands();
    print_others();
    print_lines();
    free(w.samples);
    return 0;
}
