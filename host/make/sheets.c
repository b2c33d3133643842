#include "sheets.h"

#include <stdio.h>
#include <string.h>

#include "sheet_words.h"

enum { PAGE_LAYERS = 3, PAGE_ENDS = 26, STRIPE_HEAD = 39, START_AT = 18, START_END = 22 };
enum { WORDS_ROOM = 256 };

typedef struct {
    const uint8_t *octets;
    size_t length;
} lent_sheet;

/* The line of the plan that a record stems from: layer 2 has the stripe's height also where it has
 * no mask. */
static unsigned line_of(const plan *from, unsigned stripe, unsigned layer)
{
    const plan_stripe *in = &from->stripes[stripe];
    unsigned line = in->layers[layer - 1].line;
    return line != 0 ? line : layer == 2 && in->height_line != 0 ? in->height_line : in->line;
}

/* What a refusal tells, and of a bad sheet the rule. */
static void put_words(char *words, size_t room, lent_sheet sheet, uint32_t number, uint32_t place)
{
    if (number == SPIREROOK_BAD_SHEET) {
        snprintf(words, room, "%s: %s (%s)", spirerook_text(number),
                 broken_rule(sheet.octets, sheet.length, place), SHEET_RULES);
    } else {
        snprintf(words, room, "%s", spirerook_text(number));
    }
}

/* A refusal whose place is a record of the sheet. */
static bool refused_at(const plan *from, lent_sheet sheet, uint32_t number, uint32_t place,
                       trouble *what)
{
    char words[WORDS_ROOM];
    put_words(words, sizeof words, sheet, number, place);
    if (place >= sheet.length / SPIREROOK_RECORD_OCTETS) {
        return tell_at(what, from->file, 0, "refused: %s (%u) at record %u: %s",
                       spirerook_name(number), (unsigned)number, (unsigned)place, words);
    }
    const uint8_t *record = spirerook_record_at(sheet.octets, place);
    unsigned stripe = (unsigned)spirerook_record_stripe(record),
             layer = (unsigned)spirerook_record_layer(record);
    return tell_at(what, from->file, 0,
                   "refused: %s (%u) at record %u (stripe %u, layer %u): %s; see line %u",
                   spirerook_name(number), (unsigned)number, (unsigned)place, stripe, layer, words,
                   line_of(from, stripe, layer));
}

static bool refused(const plan *from, lent_sheet sheet, spirerook_answer answer, uint64_t octets,
                    trouble *what)
{
    if (answer.number == SPIREROOK_TOO_LONG || answer.number == SPIREROOK_NO_ROOM) {
        return tell_at(what, from->file, 0, "refused: %s (%u): %s; this one would have %ju",
                       spirerook_name(answer.number), (unsigned)answer.number,
                       spirerook_text(answer.number), (uintmax_t)octets);
    }
    return refused_at(from, sheet, answer.number, answer.place, what);
}

static void put_page_sheet(const plan *from, const coded_layers *layers, uint8_t *sheet)
{
    for (unsigned k = 0; k < from->stripe_count * PAGE_LAYERS; k++) {
        spirerook_put_record(sheet + k * SPIREROOK_RECORD_OCTETS,
                             &layers->records[k / PAGE_LAYERS][k % PAGE_LAYERS]);
    }
}

/* All of a record but where its data starts. */
static bool same_but_start(const uint8_t *one, const uint8_t *other)
{
    return memcmp(one, other, START_AT) == 0 &&
           memcmp(one + START_END, other + START_END, SPIREROOK_RECORD_OCTETS - START_END) == 0;
}

static bool read_back(const plan *from, lent_sheet given, made_page *made, trouble *what)
{
    spirerook_answer answer = spirerook_read(made->page.octets, made->page.length, made->sheet,
                                             sizeof made->sheet);
    if (answer.number != SPIREROOK_DONE) {
        return tell_at(what, from->file, 0,
                       "refused: the page reads back as %s (%u) at octet %u: %s",
                       spirerook_name(answer.number), (unsigned)answer.number,
                       (unsigned)answer.place, spirerook_text(answer.number));
    }
    bool same = answer.count * SPIREROOK_RECORD_OCTETS == given.length;
    for (size_t k = 0; same && k < answer.count; k++) {
        same = same_but_start(spirerook_record_at(given.octets, k),
                              spirerook_record_at(made->sheet, k));
    }
    return same || tell_at(what, from->file, 0, "the page reads back as another one");
}

bool make_page(const plan *from, const coded_layers *layers, made_page *made, trouble *what)
{
    uint8_t octets[SPIREROOK_PAGE_SHEET_OCTETS];
    lent_sheet sheet = {octets, (size_t)from->stripe_count * PAGE_LAYERS * SPIREROOK_RECORD_OCTETS};
    const octet_list *data = &layers->page_data;
    uint64_t size = PAGE_ENDS + (uint64_t)from->stripe_count * STRIPE_HEAD + data->length;
    size_t room = size > SPIREROOK_PAGE_OCTETS
                      ? 0
                      : (size_t)
                            size; /* a page that is too long is refused before its room is judged */
    put_page_sheet(from, layers, octets);
    if (!make_room(&made->page, room)) {
        return tell_no_memory(what);
    }
    spirerook_answer answer = spirerook_write(sheet.octets, sheet.length, data->octets,
                                              data->length, made->page.octets, room);
    if (answer.number != SPIREROOK_DONE) {
        return refused(from, sheet, answer, size, what);
    }
    if (answer.count != size) {
        return tell_at(what, from->file, 0, "the page has %ju octets, not %ju",
                       (uintmax_t)answer.count, (uintmax_t)size);
    }
    made->page.length = room;
    return read_back(from, sheet, made, what);
}

static bool put_pencil_sheet(const plan *from, const coded_layers *layers, const made_page *made,
                             octet_list *sheet)
{
    const size_t page_records = PAGE_LAYERS * SPIREROOK_RECORD_OCTETS;
    for (unsigned s = 0; s < from->stripe_count; s++) {
        if (!add_octets(sheet, made->sheet + s * page_records, page_records)) {
            return false;
        }
        for (unsigned k = PAGE_LAYERS; k < from->stripes[s].layer_count; k++) {
            uint8_t record[SPIREROOK_RECORD_OCTETS];
            spirerook_put_record(record, &layers->records[s][k]);
            if (!add_octets(sheet, record, sizeof record)) {
                return false;
            }
        }
    }
    return true;
}

/* Whether a layer's data is found where it was put. */
static bool is_found(spirerook_part part, const spirerook_record *record)
{
    return part.count == record->length &&
           (record->length == 0 || record->layer <= PAGE_LAYERS ||
            (part.source == SPIREROOK_FROM_PENCIL && part.start == record->start));
}

bool make_pencil_sheet(const plan *from, const coded_layers *layers, const made_page *made,
                       octet_list *sheet, trouble *what)
{
    const octet_list *page = &made->page, *pencil = &layers->pencil_data;
    if (!put_pencil_sheet(from, layers, made, sheet)) {
        return tell_no_memory(what);
    }
    for (unsigned s = 0; s < from->stripe_count; s++) {
        for (unsigned k = 0; k < from->stripes[s].layer_count; k++) {
            spirerook_part part = spirerook_data(sheet->octets, sheet->length, page->octets,
                                                 page->length, pencil->octets, pencil->length, s,
                                                 k + 1);
            if (part.number != SPIREROOK_DONE) {
                return refused_at(from, (lent_sheet){sheet->octets, sheet->length}, part.number,
                                  part.place, what);
            }
            if (!is_found(part, &layers->records[s][k])) {
                return tell_at(what, from->file, line_of(from, s, k + 1),
                               "the layer's data is not found where it was put");
            }
        }
    }
    return true;
}
