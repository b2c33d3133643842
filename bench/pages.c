// Times the proved reading of a page beside two readers in C, and with BEFORE beside an earlier
// library, on the same pages in one run. First all must agree, answer and sheet octet for octet, on
// the pages that are timed, and all but the earlier one on damaged ones: a fast wrong answer is no
// result.
#include "kit.h"
#include "page.h"
#include "page_work.h"

#include <inttypes.h>
#include <stdbool.h>
#include <stdio.h>
#include <stdlib.h>
#include <string.h>

#define DAMAGED 20000
#define PASSES 6 // over all rows, since a machine can be slow for seconds
#define ROUNDS 12
#define ROUND_NS 20000.0
#define GROWTH_LIMIT 1.3
#define SHEET_SIZE (64 * 3 * RECORD_SIZE)

// ---- all must agree

typedef spirerook_answer reader(const uint8_t *page, size_t page_len, uint8_t *sheet,
                                size_t sheet_len);

#ifdef BEFORE
reader before_read; // the call of that library, renamed
#define SIDES 4
#else
#define SIDES 3
#endif

static reader *const readers[SIDES] = {
    spirerook_read,
    c_read_by_octets,
    c_read_by_memchr,
#ifdef BEFORE
    before_read,
#endif
};
static const char *const names[] = {"Rattle", "C by octets", "C by memchr", "before"};

static void differ(const char *what, size_t k, spirerook_answer one, spirerook_answer other)
{
    fprintf(stderr,
            "bench: %s: Rattle answers %" PRIu32 " %" PRIu32 " %" PRIu64 ", %s %" PRIu32 " %" PRIu32
            " %" PRIu64 "\n",
            what, one.number, one.place, one.count, names[k], other.number, other.place,
            other.count);
    exit(1);
}

// Answers what all answer, so many of them; the sheet is theirs.
static spirerook_answer agreed(const char *what, const struct page *p, size_t room,
                               uint8_t sheet[SHEET_SIZE], size_t sides)
{
    uint8_t other[SHEET_SIZE];
    memset(sheet, 0xA5, SHEET_SIZE);
    spirerook_answer first = spirerook_read(p->octets, p->size, sheet, room);
    for (size_t k = 1; k < sides; k++) {
        memset(other, 0xA5, SHEET_SIZE);
        spirerook_answer a = readers[k](p->octets, p->size, other, room);
        if (a.number != first.number || a.place != first.place || a.count != first.count)
            differ(what, k, first, a);
        if (memcmp(sheet, other, SHEET_SIZE) != 0)
            differ("another sheet", k, first, a);
    }
    return first;
}

// Against what the maker knows, so that wrong readers do not pass together.
static void expect(const char *what, const struct page *p)
{
    uint8_t sheet[SHEET_SIZE];
    spirerook_answer a = agreed(what, p, SHEET_SIZE, sheet, SIDES);
    if (a.number != SPIREROOK_DONE || a.count != 3 || be32(sheet + 18) != p->start ||
        be32(sheet + 22) != p->end - p->start) {
        fprintf(stderr, "bench: %s: not the records that were made\n", what);
        exit(1);
    }
}

static void expect_small(const struct page *p, uint32_t stripes, size_t room,
                         uint8_t sheet[SHEET_SIZE])
{
    size_t records = 3 * (size_t)stripes;
    uint32_t number = stripes > 64                   ? SPIREROOK_BAD_STRIPE
                      : room < records * RECORD_SIZE ? SPIREROOK_NO_ROOM
                                                     : SPIREROOK_DONE;
    spirerook_answer a = agreed("a small page", p, room, sheet, 3);
    if (a.number != number || a.count != (number == SPIREROOK_DONE ? records : 0))
        differ("a small page, against what was made", 0, a, (spirerook_answer){number, 0, records});
    unsigned layers = 0;
    for (size_t k = 0; k < a.count; k++) {
        const uint8_t *record = sheet + k * RECORD_SIZE;
        bool image = k % 3 != 1 && be32(record + 22) != 0;
        if (record[17] != (image && p->octets[p->counts[layers]] == 1))
            differ("octet 17, against what was made", 0, a, a);
        layers += image;
    }
}

static void agree_on_damaged(struct page *p)
{
    uint8_t sheet[SHEET_SIZE];
    unsigned good = 0;
    for (int i = 0; i < DAMAGED; i++) {
        uint32_t stripes = 1 + any(any(16) == 0 ? 65 : 3);
        size_t room = any(2) == 0 ? SHEET_SIZE : any(600);
        make_small(p, stripes, any(2) == 0);
        expect_small(p, stripes, room, sheet);
        for (uint32_t times = 1 + any(2); times != 0 && p->size != 0; times--)
            damage(p);
        good += agreed("a damaged page", p, SHEET_SIZE, sheet, 3).number == SPIREROOK_DONE;
    }
    printf(
        "Rattle and both in C agree on %d pages and on each once damaged: %u still good, %u refused\n\n",
        DAMAGED, good, DAMAGED - good);
}

// ---- times

static uint8_t written[SHEET_SIZE];

static uint64_t timed(reader *f, const void *work)
{
    const struct page *p = work;
    spirerook_answer a = f(p->octets, p->size, written, SHEET_SIZE);
    return a.count + a.number;
}

static uint64_t rattle(const void *work)
{
    return timed(spirerook_read, work);
}
static uint64_t by_octets(const void *work)
{
    return timed(c_read_by_octets, work);
}
static uint64_t by_memchr(const void *work)
{
    return timed(c_read_by_memchr, work);
}
#ifdef BEFORE
static uint64_t before(const void *work)
{
    return timed(before_read, work);
}
#endif

static unsigned over;

// A ratio and the limit that the project asks, if it does.
static void print_ratio(double ratio, double limit)
{
    bool is_over = limit != 0 && ratio > limit;
    over += is_over;
    if (limit == 0)
        printf(" %9.2f       ", ratio);
    else
        printf(" %9.2f%c%5.1f ", ratio, is_over ? '!' : ' ', limit);
}

struct row {
    const char *name;
    size_t size;
    filler *optionals, *segments, *data, *behind;
    double octets_limit, memchr_limit;
};

static const struct row rows[] = {
    {"random scan data, 1 MB", MB, nothing, nothing, random_scan, nothing, 0.5, 2.0},
    {"random scan data, 4 MB", 4 * MB, nothing, nothing, random_scan, nothing, 0.5, 2.0},
    {"random scan data, 16 MB", LONGEST, nothing, nothing, random_scan, nothing, 0.5, 2.0},
    {"FF before the end of image, 4 MB", 4 * MB, nothing, nothing, fill_octets, nothing, 1.2, 0},
    {"FF before the end of image, 16 MB", LONGEST, nothing, nothing, fill_octets, nothing, 1.2, 0},
    {"FF before the frame, 4 MB", 4 * MB, nothing, fill_octets, nothing, nothing, 1.2, 0},
    {"FF before the frame, 16 MB", LONGEST, nothing, fill_octets, nothing, nothing, 1.2, 0},
    {"fill and restart every 6 to 20", LONGEST, nothing, nothing, dense_restarts, nothing, 1.2, 0},
    {"fill and restart every 200", LONGEST, nothing, nothing, sparse_restarts, nothing, 1.2, 0},
    {"FF 00 throughout", LONGEST, nothing, nothing, stuffed_scan, nothing, 0, 0.3},
    {"a segment every 4 octets", LONGEST, nothing, segments_of_4, nothing, nothing, 2.0, 0},
    {"a segment every 32 octets", LONGEST, nothing, segments_of_32, nothing, nothing, 2.0, 0},
    {"a segment every 64 octets", LONGEST, nothing, segments_of_64, nothing, nothing, 2.0, 0},
    {"a scan every 4 octets", LONGEST, nothing, nothing, scans_of_4, nothing, 2.0, 0},
    {"a scan every 32 octets", LONGEST, nothing, nothing, scans_of_32, nothing, 2.0, 0},
    {"a scan every 64 octets", LONGEST, nothing, nothing, scans_of_64, nothing, 2.0, 0},
    {"2,097,000 optional segments", LONGEST, optional_segments, nothing, nothing, nothing, 2.0, 0},
    {"zeros behind the end", LONGEST, nothing, nothing, nothing, zero_octets, 2.0, 0},
};

#define ROWS (sizeof rows / sizeof rows[0])

// The first of the rows of one kind, by size.
enum { RANDOM, FILL_IN_SCAN = 3, FILL_OUTSIDE = 5 };

static double best[ROWS + 1][SIDES]; // of each side; the last row is the small page
static size_t sizes[ROWS + 1];

static void time_page(size_t row, const struct page *p)
{
    static side *const sides[SIDES] = {
        rattle,
        by_octets,
        by_memchr,
#ifdef BEFORE
        before,
#endif
    };
    sizes[row] = p->size;
    take_turns(sides, SIDES, p, ROUND_NS, ROUNDS, best[row]);
}

// ---- grey layers beside coloured ones

static double best_of_pair[2][OF_PAIR]; // of small layers; of scan data

// The same page with layers of three components, and with each of one.
static void time_pair(const struct page *p, double pair_best[OF_PAIR])
{
    static struct page other;
    other = *p;
    for (unsigned k = 0; k < other.layers; k++)
        make_grey(&other, k);
    take_pair(&(struct pair){rattle, by_octets, p, &other}, ROUND_NS, ROUNDS, pair_best);
}

// ---- all rows

static void time_all(struct page *p)
{
    for (size_t i = 0; i < ROWS; i++) {
        const struct row *r = &rows[i];
        make_large(p, r->size, r->optionals, r->segments, r->data, r->behind);
        expect(r->name, p);
        time_page(i, p);
    }
    make_small(p, 64, false);
    time_page(ROWS, p);
    time_pair(p, best_of_pair[0]);
    make_large(p, MB, nothing, nothing, random_scan, nothing);
    time_pair(p, best_of_pair[1]);
}

static void print_row(size_t row, const char *name, double octets_limit, double memchr_limit)
{
    const double *t = best[row];
    printf("%-34s %10.1f %10.1f %10.1f", name, t[0] / 1e3, t[1] / 1e3, t[2] / 1e3);
    print_ratio(t[0] / t[1], octets_limit);
    print_ratio(t[0] / t[2], memchr_limit);
    printf(" %7.2f", (double)sizes[row] / t[0]);
#ifdef BEFORE
    printf(" %9.2f", t[0] / t[SIDES - 1]);
#endif
    putchar('\n');
}

#ifdef BEFORE
static void print_before(void)
{
    double worst = 0;
    for (size_t i = 0; i <= ROWS; i++)
        worst = best[i][0] / best[i][SIDES - 1] > worst ? best[i][0] / best[i][SIDES - 1] : worst;
    printf("reading beside the library before: of %zu rows the worst is %.2f\n", ROWS + 1, worst);
}
#endif

// Fill is walked once: an octet of it takes as long in 16 MB as in 4 MB, as far as the machine's
// memory lets it, which the C side shows too.
static void print_growth(const char *name, size_t row)
{
    double octets = (double)sizes[row + 1] / (double)sizes[row];
    double rattle_growth = best[row + 1][0] / best[row][0] / octets;
    bool is_over = rattle_growth > GROWTH_LIMIT;
    over += is_over;
    printf(
        "%s: an octet of 16 MB takes %.2f%s times what one of 4 MB takes, limit %.1f; in C %.2f\n",
        name, rattle_growth, is_over ? "!" : "", GROWTH_LIMIT,
        best[row + 1][1] / best[row][1] / octets);
}

int main(void)
{
    static struct page p;
    agree_on_damaged(&p);
    forget(best[0], (ROWS + 1) * SIDES);
    forget(best_of_pair[0], 2 * OF_PAIR);
    for (int pass = 0; pass < PASSES; pass++)
        time_all(&p);
    printf("%-34s %10s %10s %10s %17s %17s %6s %s\n", "best of many rounds, microseconds", "Rattle",
           "C octets", "C memchr", "/ octets  limit", "/ memchr  limit", "GB/s",
           SIDES > 3 ? " / before" : "");
    for (size_t i = 0; i < ROWS; i++)
        print_row(i, rows[i].name, rows[i].octets_limit, rows[i].memchr_limit);
    print_row(ROWS, "64 stripes of small layers", 0, 0);
    printf("\nrandom scan data: 4 MB take %.2f times what 1 MB takes, 16 MB %.2f times\n",
           best[RANDOM + 1][0] / best[RANDOM][0], best[RANDOM + 2][0] / best[RANDOM][0]);
    print_growth("FF before the end of image", FILL_IN_SCAN);
    print_growth("FF before the frame", FILL_OUTSIDE);
    print_pair("64 stripes of small layers", best_of_pair[0]);
    print_pair("random scan data, 1 MB", best_of_pair[1]);
#ifdef BEFORE
    print_before();
#endif
    printf(
        "ratios: Rattle / C, below 1 is faster than C; %u over their limits, marked !; GB/s: octets of the page that the Rattle call reads\n",
        over);
    return 0;
}
