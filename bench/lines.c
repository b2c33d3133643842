// Times the proved composing of a line beside two composers in C, and with BEFORE beside an earlier
// library, on the same sheets and samples in one run. First all must agree, answer and line octet
// for octet, on what is timed and on small calls, good and damaged: a fast wrong answer is no
// result.
#include "kit.h"
#include "line_work.h"

#include <inttypes.h>
#include <stdio.h>
#include <stdlib.h>
#include <string.h>

#define PASSES 4 // over all rows, since a machine can be slow for seconds
#define ROUNDS 25
#define SMALL 20000
#define ROUND_NS 20000.0
#define LIMIT 1.3
#define MOST_OUT (4 * 32768)

#ifdef BEFORE
composer before_line_unseen; // the calls of that library, renamed
#define SIDES 4
#else
#define SIDES 3
#endif

// ---- all must agree

static uint8_t lines[SIDES][MOST_OUT];
static composer *const composers[SIDES] = {
    spirerook_line_unseen,
    c_line,
    c_line_by_rows,
#ifdef BEFORE
    before_line_unseen,
#endif
};

// The library before knows no grey layers.
static int sides_for(const struct work *w)
{
    for (size_t k = 0; k + RECORD_SIZE <= w->sheet_size; k += RECORD_SIZE)
        if (w->sheet[k + 17] != 0)
            return 3;
    return SIDES;
}

static uint32_t agreed(const char *what, const struct work *w)
{
    spirerook_answer a[SIDES];
    for (int k = 0; k < sides_for(w); k++) {
        memset(lines[k], 0xA5, w->room);
        a[k] = composed(composers[k], w, lines[k]);
        if (a[k].number != a[0].number || a[k].place != a[0].place || a[k].count != a[0].count ||
            memcmp(lines[k], lines[0], w->room) != 0) {
            fprintf(stderr,
                    "bench: %s: Rattle answers %" PRIu32 " at %" PRIu32 " and side %d %" PRIu32
                    " at %" PRIu32 ", or the lines differ\n",
                    what, a[0].number, a[0].place, k, a[k].number, a[k].place);
            exit(1);
        }
    }
    return a[0].number;
}

static void expect_done(const char *what, const struct work *w)
{
    if (agreed(what, w) != SPIREROOK_DONE) {
        fprintf(stderr, "bench: %s: refused\n", what);
        exit(1);
    }
}

static void agree_on_small(struct work *w)
{
    unsigned good = 0;
    for (int i = 0; i < SMALL; i++) {
        make_small(w);
        expect_done("a small line", w);
        for (uint32_t times = 1 + any(2); times != 0 && w->sheet_size != 0; times--)
            damage(w);
        good += agreed("a damaged call", w) == SPIREROOK_DONE;
    }
    printf(
        "Rattle and all others agree on %d lines and on each call once damaged: %u still good, %u refused\n\n",
        SMALL, good, SMALL - good);
}

// ---- times

static uint64_t timed(int k, const void *work)
{
    spirerook_answer a = composed(composers[k], work, lines[k]);
    return a.count + a.number;
}

static uint64_t rattle(const void *work)
{
    return timed(0, work);
}
static uint64_t literal(const void *work)
{
    return timed(1, work);
}
static uint64_t by_rows(const void *work)
{
    return timed(2, work);
}
#ifdef BEFORE
static uint64_t before(const void *work)
{
    return timed(3, work);
}
#endif

static void time_work(const char *name, const struct work *w, double best[])
{
    static side *const sides[SIDES] = {
        rattle,
        literal,
        by_rows,
#ifdef BEFORE
        before,
#endif
    };
    expect_done(name, w);
    take_turns(sides, SIDES, w, ROUND_NS, ROUNDS, best);
}

// Lines that differ in what should not matter, and the shortest one.
struct other {
    const char *name;
    struct shape shape;
    uint32_t stripes, height; // before the one called for
};

#define PLAIN \
    { \
        .width = WIDTH, .height = LINES, .layers = 15, .k = 1, .run = 64, .shared = true \
    }
#define HIGH \
    { \
        .width = WIDTH, .height = 6000, .layers = 15, .k = 1, .run = 64, .shared = true \
    }
// 15 layers, all read, masks in runs; of 16 runs above layer 8 so many are 1
#define TOPS(count) \
    { \
        .width = WIDTH, .height = LINES, .layers = 15, .k = 1, .run = 64, .ones = count, \
        .above = 8 \
    }

static const struct other others[] = {
    {"15 layers, highest pairs mostly 1", TOPS(15), 0, 0},
    {"15 layers, highest pairs mostly 0", TOPS(1), 0, 0},
    {"15 layers, highest pairs at random", TOPS(8), 0, 0},
    {"1 pixel, 15 layers, 960 records", {.width = 1, .height = 2, .layers = 15, .k = 1}, 63, 1},
    {"1 pixel, 3 layers, 3 records", {.width = 1, .height = 2, .layers = 3, .k = 1}, 0, 0},
    {"15 layers, 16 lines high", PLAIN, 0, 0},
    {"15 layers, 6,000 lines high", HIGH, 0, 0},
    {"16 lines behind a stripe of 1 line", PLAIN, 1, 1},
    {"16 lines behind a stripe of 60,000", PLAIN, 1, 60000},
    {"16 lines behind 63 stripes of 1 line", PLAIN, 63, 1},
    {"16 lines behind 63 stripes of 1,000", PLAIN, 63, 1000},
};

#define OTHERS (sizeof others / sizeof others[0])

static double best[PIXEL_ROWS + OTHERS][SIDES];

static void time_all(struct work *w)
{
    for (size_t i = 0; i < PIXEL_ROWS; i++) {
        struct shape s = pixel_shape(i);
        make_behind(w, &s, 0, 0);
        time_work(pixel_name(&s), w, best[i]);
    }
    for (size_t i = 0; i < OTHERS; i++) {
        make_behind(w, &others[i].shape, others[i].stripes, others[i].height);
        time_work(others[i].name, w, best[PIXEL_ROWS + i]);
    }
}

static void print_head(const char *what)
{
    printf("%-46s %10s %10s %10s", what, "Rattle", "C", "C by rows");
#ifdef BEFORE
    printf(" %10s %9s %9s %9s\n", "before", "/ C", "/ by rows", "/ before");
#else
    printf(" %9s %9s\n", "/ C", "/ by rows");
#endif
}

static void print_row(const char *name, const double *t, double unit, const char *remark)
{
    printf("%-46s", name);
    for (int k = 0; k < SIDES; k++)
        printf(" %10.2f", t[k] / unit);
    for (int k = 1; k < SIDES; k++)
        printf(" %9.2f", t[0] / t[k]);
    puts(remark);
}

static void print_pixels(void)
{
    unsigned over = 0;
    print_head("nanoseconds a pixel, best of many rounds");
    for (size_t i = 0; i < PIXEL_ROWS; i++) {
        struct shape s = pixel_shape(i);
        const double *t = best[i];
        bool slow = t[0] / t[1] > LIMIT;
        over += slow;
        print_row(pixel_name(&s), t, WIDTH, slow ? "  over the limit" : "");
    }
    printf("\n%u of %d rows are over the limit, %.1f times C\n\n", over, PIXEL_ROWS, LIMIT);
}

static void print_others(void)
{
    print_head("microseconds a line, best of many rounds");
    for (size_t i = 0; i < OTHERS; i++)
        print_row(others[i].name, best[PIXEL_ROWS + i], 1e3, "");
    puts(
        "\nratios: Rattle / the other, below 1 is faster; C does all of the rule for each layer of each pixel, C by rows finds a layer's row once a "
        "line\nand goes from the highest pair down; lines that differ in heights only should take the same time, and stripes before a line only that "
        "of judging them");
}

#ifdef BEFORE
static bool all_read(size_t i)
{
    return i >= PIXEL_ROWS || pixel_shape(i).unread == ALL_READ;
}

static void print_before(void)
{
    double worst = 0, sum = 0;
    unsigned rows = 0;
    for (size_t i = 0; i < PIXEL_ROWS + OTHERS; i++) {
        double ratio = best[i][0] / best[i][3];
        worst = ratio > worst ? ratio : worst;
        sum += all_read(i) ? ratio : 0;
        rows += all_read(i);
    }
    printf(
        "\nbeside the library before: %.2f, the mean of %u rows with everything read; of all rows the worst is %.2f\n",
        sum / rows, rows, worst);
}
#endif

int main(void)
{
    static struct work w;
    w.samples = malloc(MOST_SAMPLES);
    if (w.samples == NULL) {
        fputs("bench: no memory for samples\n", stderr);
        return 1;
    }
    agree_on_small(&w);
    forget(best[0], (PIXEL_ROWS + OTHERS) * SIDES);
    for (int pass = 0; pass < PASSES; pass++)
        time_all(&w);
    print_pixels();
    print_others();
#ifdef BEFORE
    print_before();
#endif
    free(w.samples);
    return 0;
}
