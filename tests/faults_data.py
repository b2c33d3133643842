"""Plants faults in the reference's coded data, one at a time; the table has to find each.

A fault is found when the faulty build answers some call of tests/data.md
otherwise than the table does. So a rule that no line tests shows here, as a
fault that nobody finds.
"""

import sys

import data_making
import faults_grey
import planting
import reference_run

FEW = 30 * 28        # a sheet of more octets than this is tried only where no other finds a fault
SHORT = "(uint64_t)r.start + r.length > octets"
RETURN = "    return handed;"

# (file, what goes wrong, the text of the file, the text in its place)
FAULTS = [
    # the order of refusals
    ("data.c", "no judge of the sheet", "if (verdict.number != DONE) {",
     "if (verdict.number != DONE && call->sheet_octets < 28) {"),
    ("data.c", "BadSheet without its record", "refusal(verdict.number, verdict.place)",
     "refusal(verdict.number, 0)"),
    ("data.c", "BadLine before BadSheet", "    if (verdict.number != DONE) {",
     "    if (call->stripe > 8) return refusal(BAD_LINE, 0);\n    if (verdict.number != DONE) {"),
    ("data.c", "Short before BadSheet", "    if (verdict.number != DONE) {",
     "    if (call->sheet_octets >= 84 && sheet_record(call->sheet, 1).start >= call->page_octets)\n"
     "        return refusal(SHORT, 1);\n    if (verdict.number != DONE) {"),
    ("data.c", "only the records up to the layer judged",
     "sheet_judge(call->sheet, call->sheet_octets)",
     "sheet_judge(call->sheet, call->sheet_octets > 84 && call->stripe == 0 && "
     "call->sheet_octets % 84 == 0 ? 84 : call->sheet_octets)"),
    ("data.c", "a part record left out", "sheet_judge(call->sheet, call->sheet_octets)",
     "sheet_judge(call->sheet, call->sheet_octets / 28 * 28)"),
    ("data.c", "no sheet taken for no stripe", "    if (verdict.number != DONE) {",
     "    if (call->sheet_octets == 0) return refusal(BAD_LINE, 0);\n"
     "    if (verdict.number != DONE) {"),
    # stripes and layers
    ("data.c", "a layer of 8 bits", "r.layer == call->layer", "r.layer == call->layer % 256"),
    ("data.c", "a layer of 16 bits", "r.layer == call->layer", "r.layer == call->layer % 65536"),
    ("data.c", "a stripe of 8 bits", "r.stripe == call->stripe", "r.stripe == call->stripe % 256"),
    ("data.c", "a stripe of 16 bits", "r.stripe == call->stripe",
     "r.stripe == call->stripe % 65536"),
    ("data.c", "stripe 0 always", "r.stripe == call->stripe", "r.stripe == 0 * call->stripe"),
    ("data.c", "layers counted from 0", "r.layer == call->layer", "r.layer == call->layer + 1"),
    ("data.c", "stripes counted from 1", "r.stripe == call->stripe",
     "r.stripe + 1 == call->stripe"),
    ("data.c", "the highest layer where there is none",
     "r.stripe == call->stripe && r.layer == call->layer",
     "r.stripe == call->stripe && (r.layer == call->layer || (r.layer == 3 && call->layer > 15))"),
    ("data.c", "every stripe has three layers", "            *place = i;",
     "            *place = call->stripe * 3 + call->layer - 1;"),
    ("data.c", "every stripe has fifteen layers", "            *place = i;",
     "            *place = i < 30 ? i : call->stripe * 15 + call->layer - 1 + (i == 959);"),
    ("data.c", "at most 256 records", "i < call->sheet_octets / RECORD_OCTETS",
     "i < call->sheet_octets / RECORD_OCTETS && i < 256"),
    ("data.c", "BadLine with a place", "refusal(BAD_LINE, 0)",
     "refusal(BAD_LINE, call->sheet_octets / RECORD_OCTETS)"),
    ("data.c", "no such layer is an empty part", "return refusal(BAD_LINE, 0);",
     "return refusal(call->layer == 0 || call->layer > 15 ? DONE : BAD_LINE, 0);"),
    # sources
    ("data.c", "layer 3 in the pencil file", "r.layer <= 3", "r.layer < 3"),
    ("data.c", "layer 4 in the page", "r.layer <= 3", "r.layer <= 4"),
    ("data.c", "layers 10 to 15 in the page, as text", "r.layer <= 3",
     "(r.layer < 10 ? r.layer * 10 : r.layer) <= 30"),
    ("data.c", "masks in the page", "r.layer <= 3", "r.layer <= 3 || r.layer % 2 == 0"),
    ("data.c", "all in the page", "r.layer <= 3 ? PAGE : PENCIL", "PAGE"),
    ("data.c", "the sources exchanged", "r.layer <= 3 ? PAGE : PENCIL",
     "r.layer <= 3 ? PENCIL : PAGE"),
    ("data.c", "lengths of the sources exchanged",
     "part.source == PAGE ? call->page_octets : call->pencil_octets",
     "part.source == PAGE ? call->pencil_octets : call->page_octets"),
    ("data.c", "the longer source counts",
     "part.source == PAGE ? call->page_octets : call->pencil_octets",
     "call->page_octets > call->pencil_octets ? call->page_octets : call->pencil_octets"),
    # Short
    ("data.c", "an octet may lack", SHORT, "(uint64_t)r.start + r.length > octets + 1"),
    ("data.c", "a part may not end with its source", SHORT,
     "(uint64_t)r.start + r.length >= octets"),
    ("data.c", "only the start is looked at", SHORT, "r.start >= octets"),
    ("data.c", "only the length is looked at", SHORT, "r.length > octets"),
    ("data.c", "a sum of 16 bits", SHORT, "(uint16_t)(r.start + r.length) > octets"),
    ("data.c", "a signed sum", SHORT, "(int32_t)(r.start + r.length) > (int32_t)octets"),
    ("data.c", "a length of 24 bits", SHORT, "r.start + r.length % 16777216 > octets"),
    ("data.c", "data cut where it does not fit", "return refusal(SHORT, place);",
     "if (r.start >= octets) return refusal(SHORT, place);\n        r.length = octets - r.start;"),
    ("data.c", "Short without its record", "refusal(SHORT, place)", "refusal(SHORT, 0)"),
    ("data.c", "Short at the layer", "refusal(SHORT, place)", "refusal(SHORT, call->layer)"),
    ("data.c", "Short at the record behind", "refusal(SHORT, place)", "refusal(SHORT, place + 1)"),
    ("data.c", "all layers below must fit", "    struct reference_part part = {{DONE, 0, 0}, PAGE, 0};\n"
     "    /*", "    for (size_t i = 0; i < place; i++) if (sheet_record(call->sheet, i).layer <= 3 &&\n"
     "        sheet_record(call->sheet, i).start > call->page_octets) return refusal(SHORT, i);\n"
     "    struct reference_part part = {{DONE, 0, 0}, PAGE, 0};\n    /*"),
    # the part
    ("data.c", "an uncoded layer refused", "    if (r.length == 0) {\n        return part;",
     "    if (r.length == 0) {\n        return refusal(BAD_LINE, 0);"),
    ("data.c", "an empty part of the pencil file", "    if (r.length == 0) {\n        return part;",
     "    if (r.length == 0) {\n        part.source = source_of(r);\n        return part;"),
    ("data.c", "an empty part must fit too", "    if (r.length == 0) {\n        return part;",
     "    if (r.length == 0) {\n        if (call->pencil_octets == 0) return refusal(SHORT, place);\n"
     "        return part;"),
    ("data.c", "the start left out", "part.start = r.start;", "part.start = 0;"),
    ("data.c", "a start of 24 bits", "part.start = r.start;", "part.start = r.start % 16777216;"),
    ("data.c", "a start of 16 bits", "part.start = r.start;", "part.start = r.start % 65536;"),
    ("data.c", "the end in place of the length", "part.answer.count = r.length;",
     "part.answer.count = r.start + r.length;"),
    ("data.c", "a length of 16 bits", "part.answer.count = r.length;",
     "part.answer.count = r.length % 65536;"),
    ("as_library.c", "a count with a refusal", "found.answer.count,",
     "found.answer.count + found.answer.number,"),
    ("as_library.c", "a source with a refusal", "found.source, found.start",
     "found.source | (found.answer.number != 0), found.start"),
    ("as_library.c", "a place with Done", "found.answer.place,",
     "found.answer.place + !found.answer.number,"),
    # what is lent
    ("as_library.c", "the sheet changed", RETURN,
     "    if (sheet_len > 0) ((uint8_t *)sheet)[sheet_len - 1] ^= 1;\n" + RETURN),
    ("as_library.c", "the page changed", RETURN,
     "    if (page_len > 0) ((uint8_t *)page)[0] ^= 1;\n" + RETURN),
    ("as_library.c", "the pencil file changed", RETURN,
     "    if (pencil_len > 0) ((uint8_t *)pencil)[0] ^= 1;\n" + RETURN),
    ("as_library.c", "an octet behind the page read", RETURN,
     "    *(volatile const uint8_t *)(page + page_len);\n" + RETURN),
    ("as_library.c", "an octet behind the pencil file read", RETURN,
     "    *(volatile const uint8_t *)(pencil + pencil_len);\n" + RETURN),
    ("as_library.c", "a null pointer refused", RETURN,
     "    if (page == NULL || pencil == NULL) handed.place++;\n" + RETURN),
]


def found_by(program, cases):
    """The first call of the table whose answer or part is not the table's."""
    answers = reference_run.call_many(program, [case.call() for case in cases])
    for case, got in zip(cases, answers):
        if got != case.due():
            return "data %s, %s" % (case.number, case.name)
    return None


def main():
    cases = data_making.table()
    large = [case for case in cases if len(case.sheet) > FEW or max(case.lent) > 10 ** 6]
    groups = [[case for case in cases if case not in large], large]
    return planting.check_table("data", FAULTS + faults_grey.THROUGH, groups, found_by)


if __name__ == "__main__":
    sys.exit(main())
