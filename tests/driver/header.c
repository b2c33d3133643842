/* What include/spirerook.h says, and what its inline functions and that of
 * host/spirerook_colour.h do; C11 and C++17 both compile it.
 *
 *   header numbers   a line a number from 0 to 20: number, name, text
 *   header bounds    a line a constant: its value and its name
 *   header records   28 octets a record from standard input: a line of its
 *                    fields each, as "A listing" has them, octet 17 last; then
 *                    whether it is coded and a mask, the octets of its samples,
 *                    and those of a band of its width and height; the same
 *                    record made again of its fields follows in hexadecimal
 *   header planes    lines of a layer and a start: the entry in hexadecimal
 *   header colours   three octets a colour from standard input: its sRGB in
 *                    hexadecimal
 *   header unseen    the colour of unseen pixels, as an array begins with it in
 *                    hexadecimal, and as three arguments */
#include "spirerook.h"
#include "spirerook_colour.h"

#include <stddef.h>
#include <stdio.h>
#include <string.h>

#ifdef __cplusplus
#define HOLDS(what) static_assert(what, #what)
#else
#define HOLDS(what) _Static_assert(what, #what)
#endif

/* viewers link these: names and layout are fixed */
HOLDS(sizeof(spirerook_answer) == 16);
HOLDS(offsetof(spirerook_answer, number) == 0);
HOLDS(offsetof(spirerook_answer, place) == 4);
HOLDS(offsetof(spirerook_answer, count) == 8);
HOLDS(sizeof(spirerook_part) == 24);
HOLDS(offsetof(spirerook_part, number) == 0);
HOLDS(offsetof(spirerook_part, place) == 4);
HOLDS(offsetof(spirerook_part, count) == 8);
HOLDS(offsetof(spirerook_part, source) == 16);
HOLDS(offsetof(spirerook_part, start) == 20);
HOLDS(SPIREROOK_DONE == 0);
HOLDS(SPIREROOK_TOO_LONG == SPIREROOK_NUMBER_COUNT - 1);
HOLDS(SPIREROOK_RECORDS == SPIREROOK_STRIPES * SPIREROOK_LAYERS);
HOLDS(SPIREROOK_SHEET_OCTETS == SPIREROOK_RECORDS * SPIREROOK_RECORD_OCTETS);
HOLDS(SPIREROOK_PAGE_SHEET_OCTETS == SPIREROOK_STRIPES * 3 * SPIREROOK_RECORD_OCTETS);
HOLDS(SPIREROOK_LINE_OCTETS == SPIREROOK_PIXEL_OCTETS * SPIREROOK_WIDTH);

static void print_numbers(void)
{
    for (uint32_t number = 0; number <= 20; number++) {
        printf("%u %s: %s\n", (unsigned)number, spirerook_name(number), spirerook_text(number));
    }
}

static void print_bounds(void)
{
    static const struct {
        long value;
        const char *name;
    } bounds[] = {{SPIREROOK_RECORD_OCTETS, "RECORD_OCTETS"},
                  {SPIREROOK_STRIPES, "STRIPES"},
                  {SPIREROOK_LAYERS, "LAYERS"},
                  {SPIREROOK_RECORDS, "RECORDS"},
                  {SPIREROOK_PAGE_SHEET_OCTETS, "PAGE_SHEET_OCTETS"},
                  {SPIREROOK_SHEET_OCTETS, "SHEET_OCTETS"},
                  {SPIREROOK_PAGE_OCTETS, "PAGE_OCTETS"},
                  {SPIREROOK_WIDTH, "WIDTH"},
                  {SPIREROOK_HEIGHT, "HEIGHT"},
                  {SPIREROOK_PLANE_OCTETS, "PLANE_OCTETS"},
                  {SPIREROOK_PIXEL_OCTETS, "PIXEL_OCTETS"},
                  {SPIREROOK_LINE_OCTETS, "LINE_OCTETS"}};
    for (size_t k = 0; k < sizeof bounds / sizeof bounds[0]; k++) {
        printf("%ld %s\n", bounds[k].value, bounds[k].name);
    }
}

static void print_octets(const uint8_t *octets, size_t size)
{
    for (size_t k = 0; k < size; k++) {
        printf("%02x", (unsigned)octets[k]);
    }
    putchar('\n');
}

/* By name of each field, so that one read from another's place shows. */
static spirerook_record fields_of(const uint8_t *record)
{
    spirerook_record fields;
    fields.stripe = spirerook_record_stripe(record);
    fields.layer = spirerook_record_layer(record);
    fields.coder = spirerook_record_coder(record);
    fields.x = spirerook_record_x(record);
    fields.y = spirerook_record_y(record);
    fields.width = spirerook_record_width(record);
    fields.height = spirerook_record_height(record);
    fields.resolution = spirerook_record_resolution(record);
    memcpy(fields.base, spirerook_record_base(record), sizeof fields.base);
    fields.start = spirerook_record_start(record);
    fields.length = spirerook_record_length(record);
    fields.grey = spirerook_record_grey(record);
    return fields;
}

static void print_record(const uint8_t *record)
{
    spirerook_record r = fields_of(record);
    uint8_t again[SPIREROOK_RECORD_OCTETS];
    printf("%u %u %u %u %u %u %u %u %u %u %u %u %u %u ", (unsigned)r.stripe, (unsigned)r.layer,
           (unsigned)r.coder, (unsigned)r.x, (unsigned)r.y, (unsigned)r.width, (unsigned)r.height,
           (unsigned)r.resolution, (unsigned)r.base[0], (unsigned)r.base[1], (unsigned)r.base[2],
           (unsigned)r.start, (unsigned)r.length, (unsigned)r.grey);
    printf("%d %d %llu %llu\n", spirerook_record_coded(record), spirerook_record_mask(record),
           (unsigned long long)spirerook_record_samples(record),
           (unsigned long long)spirerook_band_octets(record));
    memset(again, 0xEE, sizeof again);
    spirerook_put_record(again, &r);
    print_octets(again, sizeof again);
}

/* All records at once, so that `spirerook_record_at` is used as a viewer does. */
static void print_records(void)
{
    static uint8_t sheet[SPIREROOK_SHEET_OCTETS];
    size_t octets = fread(sheet, 1, sizeof sheet, stdin);
    for (size_t k = 0; k < octets / SPIREROOK_RECORD_OCTETS; k++) {
        print_record(spirerook_record_at(sheet, k));
    }
}

static void print_planes(void)
{
    unsigned layer, start;
    uint8_t entry[SPIREROOK_PLANE_OCTETS];
    while (scanf("%u %u", &layer, &start) == 2) {
        spirerook_put_plane(entry, layer, start);
        print_octets(entry, sizeof entry);
    }
}

static void print_colours(void)
{
    uint8_t lab[3], srgb[3];
    while (fread(lab, sizeof lab, 1, stdin) == 1) {
        spirerook_lab_to_srgb(lab, srgb);
        print_octets(srgb, sizeof srgb);
    }
}

static void print_arguments(uint8_t u0, uint8_t u1, uint8_t u2)
{
    printf("%u %u %u\n", (unsigned)u0, (unsigned)u1, (unsigned)u2);
}

static void print_unseen(void)
{
    const uint8_t pixel[] = {SPIREROOK_UNSEEN, 0};
    print_octets(pixel, sizeof pixel);
    print_arguments(SPIREROOK_UNSEEN);
}

int main(int arguments, char **words)
{
    const char *what = arguments == 2 ? words[1] : "";
    if (strcmp(what, "numbers") == 0) {
        print_numbers();
    } else if (strcmp(what, "bounds") == 0) {
        print_bounds();
    } else if (strcmp(what, "records") == 0) {
        print_records();
    } else if (strcmp(what, "planes") == 0) {
        print_planes();
    } else if (strcmp(what, "colours") == 0) {
        print_colours();
    } else if (strcmp(what, "unseen") == 0) {
        print_unseen();
    } else {
        fputs("use: header numbers | bounds | records | planes | colours | unseen\n", stderr);
        return 1;
    }
    return 0;
}
