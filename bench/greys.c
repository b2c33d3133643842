// Times lines of grey layers beside lines of the same greys as coloured layers, three octets a sample,
// on the same pages in one run: in turns, by the proved library and by two composers in C. First the
// two lines of each must be the same, octet for octet, and all composers must agree.
#include "kit.h"
#include "line_work.h"

#include <stdio.h>
#include <stdlib.h>
#include <string.h>

#define PASSES 4 // over all rows, since a machine can be slow for seconds
#define ROUNDS 25
#define ROUND_NS 20000.0
#define SMALL 20000
#define LIMIT 1.1 // of a row; the mean of all should be 1 at most
#define MOST_OCTETS (15 * 3 * (WIDTH + 12) * (LINES + 12)) // of the samples of a page in colour

static composer *const composers[] = {spirerook_line_unseen, c_line, c_line_by_rows};

#define COMPOSERS (sizeof composers / sizeof composers[0])

// ---- the same line

static void expect_same(const char *name, const struct work *grey, const struct work *coloured)
{
    static uint8_t lines[2][4 * WIDTH];
    size_t due = 4 * (size_t)be16(grey->sheet + RECORD_SIZE + 8);
    for (size_t k = 0; k < COMPOSERS; k++) {
        const struct work *sides[] = {grey, coloured};
        for (int j = 0; j < 2; j++) {
            memset(lines[j], 0xA5, sizeof lines[j]);
            spirerook_answer a = composed(composers[k], sides[j], lines[j]);
            if (a.number != SPIREROOK_DONE || a.count != due) {
                fprintf(stderr, "bench: %s: composer %zu refuses\n", name, k);
                exit(1);
            }
        }
        if (memcmp(lines[0], lines[1], sizeof lines[0]) != 0) {
            fprintf(stderr, "bench: %s: composer %zu has another line in grey\n", name, k);
            exit(1);
        }
    }
}

static void agree_on_small(struct work *grey, struct work *coloured)
{
    for (int k = 0; k < SMALL; k++) {
        make_small(grey);
        make_coloured(coloured, grey);
        expect_same("a small line", grey, coloured);
    }
    printf("%d lines are the same with grey layers and with coloured ones, by all composers\n\n",
           SMALL);
}

// ---- times

static uint8_t out[4 * WIDTH];

static uint64_t timed(size_t k, const void *work)
{
    spirerook_answer a = composed(composers[k], work, out);
    return a.count + a.number;
}

static uint64_t rattle(const void *work)
{
    return timed(0, work);
}
static uint64_t literal(const void *work)
{
    return timed(1, work);
}
static uint64_t by_rows(const void *work)
{
    return timed(2, work);
}

static struct shape shape_of(size_t row)
{
    struct shape s = pixel_shape(row);
    s.grey = true;
    return s;
}

static double beside_literal[PIXEL_ROWS][OF_PAIR], beside_rows[PIXEL_ROWS][OF_PAIR];

static void time_all(struct work *grey, struct work *coloured)
{
    for (size_t i = 0; i < PIXEL_ROWS; i++) {
        struct shape s = shape_of(i);
        make_behind(grey, &s, 0, 0);
        make_coloured(coloured, grey);
        expect_same(pixel_name(&s), grey, coloured);
        take_pair(&(struct pair){rattle, literal, coloured, grey}, ROUND_NS, ROUNDS,
                  beside_literal[i]);
        take_pair(&(struct pair){rattle, by_rows, coloured, grey}, ROUND_NS, ROUNDS,
                  beside_rows[i]);
    }
}

static double least(double a, double b)
{
    return a < b ? a : b;
}

static void print_rows(void)
{
    double sum = 0, worst = 0;
    printf("%-46s %10s %10s %14s %9s %9s\n", "grey layers, nanoseconds a pixel", "coloured", "grey",
           "grey/coloured", "/ C", "/ by rows");
    for (size_t i = 0; i < PIXEL_ROWS; i++) {
        struct shape s = shape_of(i);
        double coloured = least(beside_literal[i][0], beside_rows[i][0]),
               grey = least(beside_literal[i][1], beside_rows[i][1]), ratio = grey / coloured;
        sum += ratio;
        worst = ratio > worst ? ratio : worst;
        printf("%-46s %10.2f %10.2f %14.2f %9.2f %9.2f%s\n", pixel_name(&s), coloured / WIDTH,
               grey / WIDTH, ratio, grey / beside_literal[i][3], grey / beside_rows[i][3],
               ratio > LIMIT ? "  over the limit" : "");
    }
    printf(
        "\nlines of grey layers take %.2f of what coloured ones of the same greys take, the mean "
        "of %d rows; the worst is %.2f, limit %.1f\n",
        sum / PIXEL_ROWS, PIXEL_ROWS, worst, LIMIT);
}

int main(void)
{
    static struct work grey, coloured;
    grey.samples = malloc(MOST_OCTETS);
    coloured.samples = malloc(MOST_OCTETS);
    if (grey.samples == NULL || coloured.samples == NULL) {
        fputs("bench: no memory for samples\n", stderr);
        return 1;
    }
    agree_on_small(&grey, &coloured);
    forget(beside_literal[0], PIXEL_ROWS * OF_PAIR);
    forget(beside_rows[0], PIXEL_ROWS * OF_PAIR);
    for (int pass = 0; pass < PASSES; pass++)
        time_all(&grey, &coloured);
    print_rows();
    free(grey.samples);
    free(coloured.samples);
    return 0;
}
