// Times the proved writing of a page beside two writers in C, beside one memcpy of the page and one
// proved reading of it, and with BEFORE beside an earlier library, on the same sheets in one run.
// First all must agree, answer and page octet for octet, on what is timed and, all but the earlier
// one, on damaged sheets and data: a fast wrong answer is no result.
#include "kit.h"
#include "page.h"
#include "write_work.h"

#include <inttypes.h>
#include <stdio.h>
#include <stdlib.h>
#include <string.h>

#define DAMAGED 20000
#define PASSES 6 // over all rows, since a machine can be slow for seconds
#define ROUNDS 12
#define ROUND_NS 20000.0
#ifdef BEFORE
#define SIDES 5
#else
#define SIDES 4
#endif

// ---- all must agree

typedef spirerook_answer writer(const uint8_t *sheet, size_t sheet_len, const uint8_t *data,
                                size_t data_len, uint8_t *page, size_t page_len);

#ifdef BEFORE
writer before_write; // the call of that library, renamed
#endif

static uint8_t other[LONGEST + 1];

static void differ(const char *what, const char *name, spirerook_answer one, spirerook_answer two)
{
    fprintf(stderr,
            "bench: %s: Rattle answers %" PRIu32 " %" PRIu32 " %" PRIu64 ", %s %" PRIu32 " %" PRIu32
            " %" PRIu64 "\n",
            what, one.number, one.place, one.count, name, two.number, two.place, two.count);
    exit(1);
}

static void agree(const char *what, const struct work *w, size_t room, size_t seen, writer *f,
                  const char *name, spirerook_answer first)
{
    memset(other, 0xA5, seen);
    spirerook_answer a = f(w->sheet, w->sheet_size, w->data, w->data_size, other, room);
    if (a.number != first.number || a.place != first.place || a.count != first.count)
        differ(what, name, first, a);
    if (memcmp(w->page, other, seen) != 0)
        differ("another page", name, first, a);
}

// Answers what all three answer; the page is theirs. `seen` octets of the buffer are looked at.
static spirerook_answer agreed(const char *what, struct work *w, size_t room, size_t seen)
{
    memset(w->page, 0xA5, seen);
    spirerook_answer first = spirerook_write(w->sheet, w->sheet_size, w->data, w->data_size,
                                             w->page, room);
    agree(what, w, room, seen, c_write_by_octets, "C by octets", first);
    agree(what, w, room, seen, c_write_by_memchr, "C by memchr", first);
    w->page_size = (size_t)first.count;
    return first;
}

// Against what the maker knows, so that three wrong writers do not pass: the page is read, and
// gives the sheet but for where coded data stand.
static void expect(const char *what, struct work *w, uint32_t number, size_t room, size_t seen)
{
    uint8_t sheet[SHEET_SIZE];
    spirerook_answer a = agreed(what, w, room, seen);
    bool same = a.number == number;
    if (number == SPIREROOK_DONE && same) {
        spirerook_answer r = c_read_by_memchr(w->page, w->page_size, sheet, SHEET_SIZE);
        same = r.number == SPIREROOK_DONE && r.count * RECORD_SIZE == w->sheet_size;
        for (size_t i = 0; same && i < w->sheet_size; i++)
            same = sheet[i] == w->sheet[i] || (i % RECORD_SIZE >= 18 && i % RECORD_SIZE < 22);
    }
    if (!same) {
        fprintf(stderr, "bench: %s: not what was made\n", what);
        exit(1);
    }
}

static void agree_on_damaged(struct work *w)
{
    unsigned good = 0;
    for (int i = 0; i < DAMAGED; i++) {
        make_some_grey(w, 1 + any(any(16) == 0 ? 64 : 3));
        expect("a small sheet", w, SPIREROOK_DONE, 65536, 65536);
        size_t room = any(2) == 0 ? 65536 : any(2 * (uint32_t)w->page_size);
        for (uint32_t times = 1 + any(2); times != 0; times--)
            damage(w);
        good += agreed("a damaged sheet", w, room, 65536).number == SPIREROOK_DONE;
    }
    printf(
        "Rattle and both in C agree on %d sheets and on each once damaged: %u still good, %u refused\n\n",
        DAMAGED, good, DAMAGED - good);
}

// ---- times

static uint8_t read_sheet[SHEET_SIZE];

static uint64_t timed(writer *f, const void *work)
{
    const struct work *w = work;
    spirerook_answer a = f(w->sheet, w->sheet_size, w->data, w->data_size, other, LONGEST);
    return a.count + a.number;
}

static uint64_t rattle(const void *work)
{
    return timed(spirerook_write, work);
}
static uint64_t by_octets(const void *work)
{
    return timed(c_write_by_octets, work);
}
static uint64_t by_memchr(const void *work)
{
    return timed(c_write_by_memchr, work);
}

// What a page costs at the least where its layers are walked: it is copied once and read once.
static uint64_t copied_and_read(const void *work)
{
    const struct work *w = work;
    memcpy(other, w->page, w->page_size);
    return spirerook_read(other, w->page_size, read_sheet, SHEET_SIZE).count;
}

#ifdef BEFORE
static uint64_t before(const void *work)
{
    return timed(before_write, work);
}
#endif

struct row {
    const char *name;
    void (*make)(struct work *w);
    uint32_t number;
    int rounds, passes;
};

static const struct row rows[] = {
    {"a mask of 16 MB", make_mask, SPIREROOK_DONE, ROUNDS, PASSES},
    {"random scan data, 16 MB", make_random, SPIREROOK_DONE, ROUNDS, PASSES},
    {"FF 00 throughout, 16 MB", make_stuffed, SPIREROOK_DONE, ROUNDS, PASSES},
    {"a scan every 4 octets, 16 MB", make_scans, SPIREROOK_DONE, ROUNDS, PASSES},
    {"fill and restart every 6 to 20", make_restarts, SPIREROOK_DONE, ROUNDS, PASSES},
    {"64 stripes on one layer of 130 KB", make_shared_small, SPIREROOK_DONE, ROUNDS, PASSES},
    {"64 stripes of small layers", make_small, SPIREROOK_DONE, ROUNDS, PASSES},
    {"128 walks of 16 MB, then TooLong", make_shared_large, SPIREROOK_TOO_LONG, 1, 2},
};

#define ROWS (sizeof rows / sizeof rows[0])

static double best[ROWS][SIDES];
static size_t sizes[ROWS];

// A page that is refused is neither copied nor read.
static void time_row(size_t i, struct work *w)
{
    side *const sides[SIDES] = {
        rattle,          by_octets, by_memchr,
#ifdef BEFORE
        before,
#endif
        copied_and_read,
    };
    const struct row *r = &rows[i];
    r->make(w);
    expect(r->name, w, r->number, LONGEST, LONGEST);
#ifdef BEFORE
    agree(r->name, w, LONGEST, LONGEST, before_write, "before",
          (spirerook_answer){r->number, 0, w->page_size});
#endif
    sizes[i] = w->page_size;
    take_turns(sides, w->page_size != 0 ? SIDES : SIDES - 1, w, ROUND_NS, r->rounds, best[i]);
}

// ---- grey layers beside coloured ones

// The same sheet with layers of three components, and with each of one.
static void tell_pair(const char *name, void (*make)(struct work *w), struct work *w)
{
    static struct work other;
    double times[OF_PAIR];
    make(w);
    other = *w;
    for (unsigned k = 0; k < other.pictures; k++)
        make_grey(&other, k);
    expect("grey layers", &other, SPIREROOK_DONE, LONGEST, LONGEST);
    forget(times, OF_PAIR);
    take_pair(&(struct pair){rattle, by_octets, w, &other}, ROUND_NS, PASSES * ROUNDS, times);
    print_pair(name, times);
}

// ---- all rows

static void print_row(size_t i)
{
    const double *t = best[i], copied = t[SIDES - 1];
    printf("%-34s %10.1f %10.1f %10.1f", rows[i].name, t[0] / 1e3, t[1] / 1e3, t[2] / 1e3);
    if (sizes[i] == 0)
        printf(" %11s %9.2f %9.2f %12s %6s", "-", t[0] / t[1], t[0] / t[2], "", "");
    else
        printf(" %11.1f %9.2f %9.2f %12.2f %6.2f", copied / 1e3, t[0] / t[1], t[0] / t[2],
               t[0] / copied, (double)sizes[i] / t[0]);
#ifdef BEFORE
    printf(" %9.2f", t[0] / t[3]);
#endif
    putchar('\n');
}

#ifdef BEFORE
static void print_before(void)
{
    double worst = 0;
    for (size_t i = 0; i < ROWS; i++)
        worst = best[i][0] / best[i][3] > worst ? best[i][0] / best[i][3] : worst;
    printf("writing beside the library before: of %zu rows the worst is %.2f\n", ROWS, worst);
}
#endif

int main(void)
{
    static struct work w;
    agree_on_damaged(&w);
    forget(best[0], ROWS * SIDES);
    for (int pass = 0; pass < PASSES; pass++)
        for (size_t i = 0; i < ROWS; i++)
            if (pass < rows[i].passes)
                time_row(i, &w);
    printf("%-34s %10s %10s %10s %11s %9s %9s %12s %6s %s\n", "best of many rounds, microseconds",
           "Rattle", "C octets", "C memchr", "copy + read", "/ octets", "/ memchr", "/ copy+read",
           "GB/s", SIDES > 4 ? " / before" : "");
    for (size_t i = 0; i < ROWS; i++)
        print_row(i);
    putchar('\n');
    tell_pair("64 stripes of small layers", make_small, &w);
    tell_pair("64 stripes on one layer of 130 KB", make_shared_small, &w);
#ifdef BEFORE
    print_before();
#endif
    puts(
        "ratios: Rattle / the other, below 1 is faster; copy + read: one memcpy of the page and one proved reading of it; GB/s: octets "
        "of the page written");
    return 0;
}
