/* "Coded data: BadSheet, BadLine, Short.  For these the place is the record or
 * list entry, else 0." */
#include "data.h"

#include "numbers.h"
#include "sheet.h"

#include <stdbool.h>

enum { PAGE = 0, PENCIL = 1 };

static struct reference_part refusal(unsigned number, size_t place)
{
    struct reference_part part = {{number, (unsigned)place, 0}, PAGE, 0};
    return part;
}

/* The record of the layer that the call names.  Only for a sheet that keeps the
 * rules.  False: "no such stripe ..., or no such layer". */
static bool find_layer(const struct reference_data_call *call, size_t *place)
{
    for (size_t i = 0; i < call->sheet_octets / RECORD_OCTETS; i++) {
        struct record r = sheet_record(call->sheet, i);
        if (r.stripe == call->stripe && r.layer == call->layer) {
            *place = i;
            return true;
        }
    }
    return false;
}

/* "Layers 1 to 3 have their coded data in the page, higher ones in the pencil
 * file." */
static unsigned source_of(struct record r)
{
    return r.layer <= 3 ? PAGE : PENCIL;
}

struct reference_part reference_data(const struct reference_data_call *call)
{
    struct verdict verdict = sheet_judge(call->sheet, call->sheet_octets);
    size_t place;
    if (verdict.number != DONE) {
        return refusal(verdict.number, verdict.place);
    }
    if (!find_layer(call, &place)) {
        return refusal(BAD_LINE, 0);
    }
    struct record r = sheet_record(call->sheet, place);
    struct reference_part part = {{DONE, 0, 0}, PAGE, 0};
    /* "A layer is coded when its length is not 0." */
    if (r.length == 0) {
        return part;
    }
    part.source = source_of(r);
    uint64_t octets = part.source == PAGE ? call->page_octets : call->pencil_octets;
    /* Short: "coded data, does not fit whole" */
    if ((uint64_t)r.start + r.length > octets) {
        return refusal(SHORT, place);
    }
    part.start = r.start;
    part.answer.count = r.length;
    return part;
}
