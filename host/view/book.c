#include "book.h"

#include <stdlib.h>
#include <string.h>

#include "lines.h"
#include "sheet_words.h"

enum { GREY_AT = 17 }; /* of a record */

static int refused_page(const options *asked, spirerook_answer answer)
{
    complain("%s: refused: %s (%u) at octet %u: %s", asked->page, spirerook_name(answer.number),
             (unsigned)answer.number, (unsigned)answer.place, spirerook_text(answer.number));
    return STATUS_REFUSED;
}

static int refused_sheet(const book *opened, const whole_file *sheet, uint32_t place)
{
    complain("%s: refused: %s (%d) at record %u: %s: %s (%s)%s", opened->source.sheet,
             spirerook_name(SPIREROOK_BAD_SHEET), SPIREROOK_BAD_SHEET, (unsigned)place,
             spirerook_text(SPIREROOK_BAD_SHEET), broken_rule(sheet->octets, sheet->length, place),
             SHEET_RULES, way_out(&opened->source));
    return STATUS_REFUSED;
}

static int unreadable(const book *opened, const char *name, const char *why)
{
    complain("%s: cannot be read: %s%s", name, why, way_out(&opened->source));
    return STATUS_REFUSED;
}

/* One octet more than a page has at most: the library says that it is too long. */
static int read_page(const options *asked, book *opened)
{
    const char *why = read_file(asked->page, SPIREROOK_PAGE_OCTETS + 1, &opened->page);
    if (why != NULL) {
        return unreadable(opened, asked->page, why);
    }
    spirerook_answer read = spirerook_read(opened->page.octets, opened->page.length, opened->sheet,
                                           sizeof opened->sheet);
    opened->sheet_octets = (size_t)read.count * SPIREROOK_RECORD_OCTETS;
    return read.number == SPIREROOK_DONE ? STATUS_WHOLE : refused_page(asked, read);
}

/* Record `at` of a pencil sheet cannot stand over this page. */
static int not_own(const book *opened, size_t at, const char *what)
{
    complain("%s: refused at record %zu: %s%s", opened->source.sheet, at, what,
             way_out(&opened->source));
    return STATUS_REFUSED;
}

/* Why a record of a pencil sheet is not the page's own; null where it is, octet for octet. */
static const char *other_record(const uint8_t *record, const uint8_t *own)
{
    uint8_t grey_as_own[SPIREROOK_RECORD_OCTETS];
    if (memcmp(record, own, sizeof grey_as_own) == 0) {
        return NULL;
    }
    memcpy(grey_as_own, record, sizeof grey_as_own);
    grey_as_own[GREY_AT] = own[GREY_AT];
    return memcmp(grey_as_own, own, sizeof grey_as_own) == 0 && spirerook_record_grey(own) == 1
               ? "octet 17 must be 1, since the page's layer is grey; sheets made before version 2.0.0 have 0"
               : "layers 1 to 3 are not the page's own";
}

/* Layers 1 to 3 of each stripe must be the page's own: the pencil of another page would strike other
 * cues. */
static int own_layers(const whole_file *sheet, const book *opened)
{
    size_t due = 0, all = opened->sheet_octets / SPIREROOK_RECORD_OCTETS,
           records = sheet->length / SPIREROOK_RECORD_OCTETS;
    for (size_t k = 0; k < records; k++) {
        const uint8_t *record = spirerook_record_at(sheet->octets, k);
        if (spirerook_record_layer(record) > 3) {
            continue;
        }
        if (due == all) {
            return not_own(opened, k, "the page has no more stripes");
        }
        const char *other = other_record(record, spirerook_record_at(opened->sheet, due++));
        if (other != NULL) {
            return not_own(opened, k, other);
        }
    }
    return due == all ? STATUS_WHOLE : not_own(opened, records, "the page has more stripes");
}

/* The digests come first: they tell of another page's pencil in plain words. */
static int judge_sheet(const options *asked, const whole_file *sheet, book *opened)
{
    int status = read_digests(asked, &opened->source);
    if (status == STATUS_WHOLE) {
        status = check_digest(asked, &opened->source, OF_PAGE, &opened->page);
    }
    /* one that is too long was not read to its end: the judge refuses it */
    if (status == STATUS_WHOLE && sheet->length < sizeof opened->sheet) {
        status = check_digest(asked, &opened->source, OF_SHEET, sheet);
    }
    if (status != STATUS_WHOLE) {
        return status;
    }
    spirerook_answer judged = spirerook_judge(sheet->octets, sheet->length);
    return judged.number == SPIREROOK_BAD_SHEET ? refused_sheet(opened, sheet, judged.place)
                                                : own_layers(sheet, opened);
}

/* The judge looks at no more octets than this, one record over the most that a sheet has. */
static int read_pencil_sheet(const options *asked, book *opened)
{
    whole_file sheet;
    const char *name = opened->source.sheet,
               *why = read_part(&opened->source, name, sizeof opened->sheet, &sheet);
    if (why != NULL) {
        return unreadable(opened, name, why);
    }
    int status = judge_sheet(asked, &sheet, opened);
    if (status == STATUS_WHOLE) {
        memcpy(opened->sheet, sheet.octets, sheet.length);
        opened->sheet_octets = sheet.length;
    }
    free(sheet.octets);
    return status;
}

static int read_pencil(const options *asked, book *opened)
{
    int status = read_pencil_sheet(asked, opened);
    if (status != STATUS_WHOLE) {
        return status;
    }
    const char *name = opened->source.file,
               *why = read_part(&opened->source, name, asked->memory + 1, &opened->pencil);
    if (why == NULL && opened->pencil.length > asked->memory) {
        why = "it passes the memory allowed (--memory)";
    }
    return why == NULL ? check_digest(asked, &opened->source, OF_PENCIL, &opened->pencil)
                       : unreadable(opened, name, why);
}

static void find_stripes(book *opened)
{
    size_t records = opened->sheet_octets / SPIREROOK_RECORD_OCTETS;
    opened->stripes = 0;
    for (size_t k = 0; k < records; k++) {
        if (spirerook_record_layer(spirerook_record_at(opened->sheet, k)) == 1) {
            opened->first[opened->stripes++] = k;
        }
    }
    opened->first[opened->stripes] = records;
}

int open_book(const options *asked, book *opened)
{
    memset(opened, 0, sizeof *opened);
    int status = read_page(asked, opened);
    if (status == STATUS_WHOLE) {
        status = find_pencil(asked, &opened->source);
    }
    if (status == STATUS_WHOLE && opened->source.sheet != NULL) {
        status = read_pencil(asked, opened);
    }
    if (status == STATUS_WHOLE) {
        find_stripes(opened);
    }
    return status;
}

void close_book(book *opened)
{
    free(opened->page.octets);
    free(opened->pencil.octets);
    forget_pencil(&opened->source);
}
