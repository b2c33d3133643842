// Times the proved judge and the proved search for a stripe beside the same two in C, on the same
// sheets in one run.
// First the two must agree, on the sheets that are timed and on damaged ones: a fast wrong answer
// is no result.
#include "kit.h"
#include "sheet.h"

#include <inttypes.h>
#include <stdbool.h>
#include <stdio.h>
#include <stdlib.h>
#include <string.h>

#define DAMAGED 20000
#define ROUNDS 1000
#define ROUND_NS 20000.0

struct sheet {
    uint8_t octets[(MOST_RECORDS + 1) * RECORD_SIZE];
    size_t size;
    unsigned stripes, layers;
};

// ---- good sheets

static void put_coded(uint8_t *p, unsigned layer, uint32_t main)
{
    static const uint8_t coders[] = {1, 2, 4, 8};
    p[3] = layer % 2 == 0 ? coders[any(4)] : 1;
    p[17] = layer % 2 == 1 && any(2) == 0;
    put32(p + 18, any(1u << 24));
    put32(p + 22, 1 + any(1u << 20));
    if (layer == 2)
        return;
    put16(p + 4, any(1000));
    put16(p + 6, any(1000));
    put16(p + 8, 1 + any(4000));
    put16(p + 10, 1 + any(1000));
    put16(p + 12, main >> any(3)); // 400, 200 or 100
}

static void put_record(uint8_t *p, unsigned stripe, unsigned layer, bool coded)
{
    const uint32_t main = 400, width = 4960;
    memset(p, 0, RECORD_SIZE);
    put16(p, stripe);
    p[2] = (uint8_t)layer;
    put16(p + 12, main);
    if (layer == 2) {
        put16(p + 8, width);
        put16(p + 10, 1 + any(1000));
    }
    for (int i = 14; i < 17 && layer % 2 == 1; i++)
        p[i] = (uint8_t)any(256);
    if (coded)
        put_coded(p, layer, main);
}

static void make_good(struct sheet *s, unsigned stripes, unsigned layers)
{
    static const uint8_t types[] = {1, 2, 3,
                                    4, 6, 7}; // which of layers 1 to 3 are coded, a bit each
    uint8_t *p = s->octets;
    for (unsigned k = 0; k < stripes; k++) {
        unsigned type = types[any(6)];
        for (unsigned l = 1; l <= layers; l++, p += RECORD_SIZE)
            put_record(p, k, l, l <= 3 ? type >> (l - 1) & 1 : any(4) != 0);
    }
    s->size = (size_t)(p - s->octets);
    s->stripes = stripes;
    s->layers = layers;
}

// ---- faults

// Octet 26 is 0 in every record, so that a 1 there is a fault wherever it stands.
static void make_bad(struct sheet *s, unsigned stripes, unsigned layers, size_t record)
{
    make_good(s, stripes, layers);
    s->octets[record * RECORD_SIZE + 26] = 1;
}

static void damage(struct sheet *s)
{
    size_t n = s->size / RECORD_SIZE;
    uint8_t *p = s->octets + any((uint32_t)n) * RECORD_SIZE,
            *q = s->octets + any((uint32_t)n) * RECORD_SIZE;
    switch (any(8)) {
    case 0: s->size = any((uint32_t)s->size + 1); break;
    case 1: memmove(p, q, RECORD_SIZE); break;
    case 2: memset(p + any(RECORD_SIZE - 3), 0, 4); break;
    default: {
        uint8_t *o = p + any(RECORD_SIZE);
        *o = octet_near(*o);
    }
    }
}

// ---- both must agree

static void differ(const char *what, uint64_t rattle, uint64_t c)
{
    fprintf(stderr, "bench: %s: Rattle answers %" PRIx64 ", C %" PRIx64 "\n", what, rattle, c);
    exit(1);
}

static uint64_t agreed_verdict(const struct sheet *s)
{
    uint64_t rattle = bench_judge(s->octets, s->size), c = c_judge(s->octets, s->size);
    if (rattle != c)
        differ("judge", rattle, c);
    return rattle;
}

static void agree_on_stripe(const struct sheet *s, uint32_t k)
{
    uint64_t rattle = bench_find_stripe(s->octets, s->size, k),
             c = c_find_stripe(s->octets, s->size, k);
    if (rattle != c)
        differ("find_stripe", rattle, c);
}

// Against what the maker knows, so that two wrong judges do not pass.
static void expect(const struct sheet *s, uint64_t verdict)
{
    if (agreed_verdict(s) != verdict)
        differ("judge, against what was made", bench_judge(s->octets, s->size), verdict);
    for (uint32_t k = 0; k <= s->stripes; k++)
        agree_on_stripe(s, k);
}

static void agree_on_damaged(void)
{
    static struct sheet s;
    unsigned good = 0;
    for (int i = 0; i < DAMAGED; i++) {
        make_good(&s, 1 + any(any(8) == 0 ? 64 : 4), 3 + 2 * any(7));
        expect(&s, (uint64_t)s.stripes * s.layers * 65536 + s.stripes);
        for (uint32_t times = 1 + any(2); times != 0 && s.size >= RECORD_SIZE; times--)
            damage(&s);
        good += agreed_verdict(&s) < REFUSED;
        agree_on_stripe(&s, any(s.stripes + 2));
    }
    printf(
        "Rattle and C agree on %d sheets and on each once damaged: %u still good, %u refused\n\n",
        DAMAGED, good, DAMAGED - good);
}

// ---- times

struct question {
    const struct sheet *sheet;
    uint32_t stripe;
};

static uint64_t rattle_judge(const void *work)
{
    const struct question *q = work;
    return bench_judge(q->sheet->octets, q->sheet->size);
}

static uint64_t plain_judge(const void *work)
{
    const struct question *q = work;
    return c_judge(q->sheet->octets, q->sheet->size);
}

static uint64_t rattle_find(const void *work)
{
    const struct question *q = work;
    return bench_find_stripe(q->sheet->octets, q->sheet->size, q->stripe);
}

static uint64_t plain_find(const void *work)
{
    const struct question *q = work;
    return c_find_stripe(q->sheet->octets, q->sheet->size, q->stripe);
}

static void time_row(const char *name, side *rattle, side *c, struct question q, size_t octets)
{
    side *const sides[] = {rattle, c};
    double best[] = {NO_TIME, NO_TIME};
    take_turns(sides, 2, &q, ROUND_NS, ROUNDS, best);
    printf("%-42s %10.1f %10.1f %8.2f %8.2f\n", name, best[0], best[1], best[0] / best[1],
           (double)octets / best[0]);
}

static void time_judge(const char *name, const struct sheet *s, size_t octets)
{
    time_row(name, rattle_judge, plain_judge, (struct question){s, 0}, octets);
}

static void time_find(const char *name, const struct sheet *s, uint32_t k)
{
    time_row(name, rattle_find, plain_find, (struct question){s, k}, s->size);
}

int main(void)
{
    static struct sheet most, three, least, late, early;
    make_good(&most, 64, 15);
    make_good(&three, 64, 3);
    make_good(&least, 1, 3);
    make_bad(&late, 64, 15, 959);
    make_bad(&early, 64, 15, 3);

    expect(&most, 960 * 65536 + 64);
    expect(&three, 192 * 65536 + 64);
    expect(&least, 3 * 65536 + 1);
    expect(&late, REFUSED + 959);
    expect(&early, REFUSED + 3);
    agree_on_damaged();

    printf("%-42s %10s %10s %8s %8s\n", "best of many rounds", "Rattle ns", "C ns", "ratio",
           "GB/s");
    time_judge("judge 960 records, good", &most, most.size);
    time_judge("judge 192 records, good", &three, three.size);
    time_judge("judge 3 records, good", &least, least.size);
    time_judge("judge 960 records, fault at the last", &late, late.size);
    time_judge("judge 960 records, fault at record 3", &early, 4 * RECORD_SIZE);
    time_find("find stripe 0 among 960 records", &most, 0);
    time_find("find stripe 63 among 960 records", &most, 63);
    time_find("find stripe 63 among 192 records", &three, 63);
    time_find("find stripe 0 among 3 records", &least, 0);
    puts(
        "\nratio: Rattle / C, below 1 is faster than C; GB/s: octets of the sheet that the Rattle call looks at");
    return 0;
}
