"""Plants faults in the reference's writer, one at a time; the table has to find each.

A fault is found when the faulty build answers some sheet of tests/writes.md
otherwise than the table does. So a rule that no sheet tests shows here, as a
fault that nobody finds.
"""

import sys

import faults_fill
import faults_grey
import planting
import reference_run
import write_making

LARGE = 100000

# (file, what goes wrong, the text of the file, the text in its place)
FAULTS = [
    # before the records
    ("write.c", "no judge of the sheet", "if (verdict.number != DONE) {",
     "if (verdict.number != DONE && sheet_octets < 84) {"),
    ("write.c", "BadSheet without its record",
     "refusal(verdict.number, verdict.place)", "refusal(verdict.number, 0)"),
    ("write.c", "layer 4 taken", ".layer > 3) {", ".layer > 4) {"),
    ("write.c", "layers above 3 taken", "if (find_layer_above_3(&source, &place)) {",
     "if (find_layer_above_3(&source, &place) && false) {"),
    ("write.c", "only stripe 0 searched for layer 4",
     "i < source->records; i++) {\n        if (sheet_record(source->sheet, i).layer > 3)",
     "i < 5; i++) {\n        if (i < source->records && sheet_record(source->sheet, i).layer > 3)"),
    ("write.c", "BadMode without its record",
     "*place = i;", "*place = 0 * i;"),
    ("write.c", "BadMode at layer 3", "*place = i;", "*place = i - 1;"),
    ("write.c", "BadMode at the stripe's last layer", "*place = i;\n            return true;",
     "*place = i;\n            if (i + 1 == source->records ||\n"
     "                sheet_record(source->sheet, i + 1).layer <= 3) return true;"),
    ("write.c", "Short and Mismatch before BadMode",
     "    if (find_layer_above_3(&source, &place)) {\n        return refusal(BAD_MODE, place);\n"
     "    }\n    for (size_t i = 0; i < source.records; i++) {\n"
     "        unsigned number = judge_record(&source, i);",
     "    for (size_t i = 0; i < source.records; i++) {\n"
     "        if (sheet_record(sheet, i).layer > 3) return refusal(BAD_MODE, i);\n"
     "        unsigned number = judge_record(&source, i);"),
    ("write.c", "BadMode before BadSheet",
     "    if (verdict.number != DONE) {",
     "    source.records = sheet_octets / 28;\n"
     "    if (find_layer_above_3(&source, &place)) return refusal(BAD_MODE, place);\n"
     "    source.records = verdict.records;\n    if (verdict.number != DONE) {"),
    # Short
    ("write.c", "an octet may lack", "> source->octets;", "> source->octets + 1;"),
    ("write.c", "data may not end with its buffer", "> source->octets;", ">= source->octets;"),
    ("write.c", "only the start is looked at",
     "(uint64_t)r.start + r.length > source->octets", "r.start >= source->octets"),
    ("write.c", "only the length is looked at",
     "(uint64_t)r.start + r.length > source->octets", "r.length > source->octets"),
    ("write.c", "a start of 16 bits",
     "(uint64_t)r.start + r.length > source->octets",
     "r.start % 65536 + r.length > source->octets"),
    ("write.c", "start plus length as a signed number",
     "(uint64_t)r.start + r.length > source->octets",
     "(int32_t)(r.start + r.length) > (int32_t)source->octets"),
    ("write.c", "an uncoded record is Short where there is no data",
     "        return DONE;\n    }\n    if (is_short",
     "        return source->octets == 0 ? SHORT : DONE;\n    }\n    if (is_short"),
    ("write.c", "Mismatch of an image layer before Short",
     "    if (is_short(source, r)) {\n        return SHORT;\n    }\n    if (r.layer == 2) {",
     "    if (r.layer != 2 && (r.start >= source->octets || jpeg_walk(source->data + r.start,\n"
     "        source->octets - r.start, 0, 1200).number == 11)) return MISMATCH;\n"
     "    if (is_short(source, r)) {\n        return SHORT;\n    }\n    if (r.layer == 2) {"),
    ("write.c", "Mismatch of mask coders before Short",
     "    if (is_short(source, r)) {",
     "    if (r.layer == 2 && has_other_coder_before(source, i)) return MISMATCH;\n"
     "    if (is_short(source, r)) {"),
    ("write.c", "all Short before all Mismatch",
     "    for (size_t i = 0; i < source.records; i++) {\n        unsigned number",
     "    for (size_t i = 0; i < source.records; i++)\n"
     "        if (is_short(&source, sheet_record(sheet, i))) return refusal(SHORT, i);\n"
     "    for (size_t i = 0; i < source.records; i++) {\n        unsigned number"),
    ("write.c", "a record's fault at its stripe",
     "return refusal(number, i);", "return refusal(number, i / 3);"),
    ("write.c", "a record's fault without its place",
     "return refusal(number, i);", "return refusal(number, 0 * i);"),
    ("write.c", "records in the page's order",
     "        unsigned number = judge_record(&source, i);",
     "        i += i % 3 == 0 ? 1 : i % 3 == 1 ? -1 : 0;\n"
     "        unsigned number = judge_record(&source, i);\n"
     "        if (number == DONE) i += i % 3 == 1 ? -1 : i % 3 == 0 ? 1 : 0;"),
    # Mismatch
    ("write.c", "no walk", "    if (layer.number != DONE) {\n        return true;",
     "    if (layer.number != DONE) {\n        return false;"),
    ("write.c", "a walk that fails is taken for its own refusal",
     "return disagrees(source, r) ? MISMATCH : DONE;",
     "return disagrees(source, r) ? 11 : DONE;"),
    # a walk to the data's end that must end with its record is no fault: it says the same
    ("write.c", "the walk goes on behind the record and may end there",
     "r.length, 0,\n                                        first_mask(source).resolution);\n"
     "    if (layer.number != DONE) {\n        return true;\n    }\n    if (layer.end != r.length)",
     "source->octets - r.start, 0,\n                                        "
     "first_mask(source).resolution);\n"
     "    if (layer.number != DONE) {\n        return true;\n    }\n    if (layer.end < r.length)"),
    ("write.c", "the walk may end early", "layer.end != r.length", "layer.end > r.length"),
    ("write.c", "the end is not looked at", "if (layer.end != r.length) {", "if (false) {"),
    ("write.c", "the walk starts at 0", "jpeg_walk(source->data + r.start,",
     "jpeg_walk(source->data,"),
    *faults_fill.OF_WALK,
    *faults_grey.OF_WALK, *faults_grey.OF_WRITE, *faults_grey.THROUGH,
    ("write.c", "the width is not looked at", "layer.width != r.width || ", ""),
    ("write.c", "the height is not looked at", "layer.height != r.height ||", ""),
    ("write.c", "the resolution is not looked at",
     " || layer.resolution != r.resolution", ""),
    ("write.c", "width and height swapped", "layer.width != r.width || layer.height != r.height",
     "layer.width != r.height || layer.height != r.width"),
    ("write.c", "the low octet of the width only",
     "layer.width != r.width", "layer.width % 256 != r.width % 256"),
    ("write.c", "the low octet of the height only",
     "layer.height != r.height", "layer.height % 256 != r.height % 256"),
    ("write.c", "a picture's resolution divides its record's",
     "layer.resolution != r.resolution", "r.resolution % layer.resolution != 0"),
    ("write.c", "main resolution 400 always", "first_mask(source).resolution);", "400);"),
    ("write.c", "main resolution is the record's own",
     "first_mask(source).resolution);", "r.resolution * 0 + 200);"),
    ("write.c", "layer 3 is not walked", "    if (r.layer == 2) {\n        return has",
     "    if (r.layer == 3) return DONE;\n    if (r.layer == 2) {\n        return has"),
    ("write.c", "layer 1 is not walked", "    if (r.layer == 2) {\n        return has",
     "    if (r.layer == 1) return DONE;\n    if (r.layer == 2) {\n        return has"),
    ("write.c", "only stripe 0 is walked", "return disagrees(source, r) ? MISMATCH : DONE;",
     "return i < 3 && disagrees(source, r) ? MISMATCH : DONE;"),
    ("write.c", "masks are walked", "    if (r.layer == 2) {\n        return has",
     "    if (r.layer == 9) {\n        return has"),
    ("write.c", "two mask coders taken",
     "return has_other_coder_before(source, i) ? MISMATCH : DONE;", "return DONE;"),
    ("write.c", "two mask coders only beside each other", "for (size_t j = 0; j < i; j++) {",
     "for (size_t j = i > 3 ? i - 3 : 0; j < i; j++) {"),
    ("write.c", "only the first mask's coder counts, coded or not",
     "before.layer == 2 && is_coded(before) &&", "before.layer == 2 && j == 1 &&"),
    ("write.c", "an uncoded mask has coder 0", "before.layer == 2 && is_coded(before) &&",
     "before.layer == 2 &&"),
    ("write.c", "image coders count among the masks'", "before.layer == 2 && is_coded(before) &&",
     "is_coded(before) &&"),
    ("write.c", "all records before the first refusal", "        if (number != DONE) {\n"
     "            return refusal(number, i);", "        if (number != DONE && "
     "(number == SHORT || i + 1 == source.records ||\n            judge_record(&source, i + 1) != "
     "SHORT)) {\n            return refusal(number, i);"),
    # length and room
    ("write.c", "a page of 16,777,216 octets", "size > LONGEST", "size > LONGEST + 1"),
    ("write.c", "a page of 16,777,215 octets refused", "size > LONGEST", "size >= LONGEST"),
    ("write.c", "no TooLong", "if (size > LONGEST) {", "if (false) {"),
    ("write.c", "the size in 32 bits", "uint64_t size = page_size(&source);",
     "uint32_t size = (uint32_t)page_size(&source);"),
    ("write.c", "TooLong before the records", "    for (size_t i = 0; i < source.records; i++) {\n"
     "        unsigned number",
     "    if (page_size(&source) > LONGEST) return refusal(TOO_LONG, 0);\n"
     "    for (size_t i = 0; i < source.records; i++) {\n        unsigned number"),
    ("write.c", "NoRoom before TooLong",
     "    if (size > LONGEST) {\n        return refusal(TOO_LONG, 0);\n    }\n"
     "    if (page_octets < size) {\n        return refusal(NO_ROOM, 0);\n    }",
     "    if (page_octets < size) {\n        return refusal(NO_ROOM, 0);\n    }\n"
     "    if (size > LONGEST) {\n        return refusal(TOO_LONG, 0);\n    }"),
    ("write.c", "NoRoom before the records", "    for (size_t i = 0; i < source.records; i++) {\n"
     "        unsigned number",
     "    if (page_octets < page_size(&source)) return refusal(NO_ROOM, 0);\n"
     "    for (size_t i = 0; i < source.records; i++) {\n        unsigned number"),
    ("write.c", "exact room refused", "page_octets < size", "page_octets <= size"),
    ("write.c", "an octet of room may lack", "page_octets < size", "page_octets + 1 < size"),
    ("write.c", "room for four octets too many", "page_octets < size", "page_octets < size + 4"),
    ("write.c", "shared data counted once", "        size += r.length;",
     "        if (i < 3 || r.start != sheet_record(source->sheet, i - 3).start) size += r.length;"),
]

# the emission, one field at a time
FAULTS += [
    ("write.c", "least significant octet first", "pen->page[pen->at + k - 1]",
     "pen->page[pen->at + size - k]"),
    ("write.c", "another ident", "put(pen, 1, 0x52);", "put(pen, 1, 0x53);"),
    ("write.c", "data from 0", "source->data[r.start + k]", "source->data[k]"),
    ("write.c", "the coder of stripe 0 only", "for (size_t i = 0; i < source->records; i++) {\n"
     "        struct record r = sheet_record(source->sheet, i);\n        if (is_coded(r) && (",
     "for (size_t i = 0; i < 3; i++) {\n"
     "        struct record r = sheet_record(source->sheet, i);\n        if (is_coded(r) && ("),
    ("write.c", "the coder of the last stripe only",
     "for (size_t i = 0; i < source->records; i++) {\n"
     "        struct record r = sheet_record(source->sheet, i);\n        if (is_coded(r) && (",
     "for (size_t i = source->records - 3; i < source->records; i++) {\n"
     "        struct record r = sheet_record(source->sheet, i);\n        if (is_coded(r) && ("),
    ("write.c", "the first layer's coder, coded or not",
     "if (is_coded(r) && (r.layer == 2) == of_masks)", "if ((r.layer == 2) == of_masks)"),
    ("write.c", "mask coder 4 always", "put(pen, 1, coder_used(source, true));", "put(pen, 1, 4);"),
    ("write.c", "image coder 1 always",
     "put(pen, 1, coder_used(source, false));", "put(pen, 1, 1);"),
    ("write.c", "coder octets swapped",
     "put(pen, 1, coder_used(source, true));\n    put(pen, 1, coder_used(source, false));",
     "put(pen, 1, coder_used(source, false));\n    put(pen, 1, coder_used(source, true));"),
    ("write.c", "version 1", "put(pen, 1, 0); /* version */", "put(pen, 1, 1); /* version */"),
    ("write.c", "mode 2", "put(pen, 1, 1); /* mode */", "put(pen, 1, 2); /* mode */"),
    ("write.c", "length 18 of the start", "put(pen, 2, 16);", "put(pen, 2, 18);"),
    ("write.c", "main resolution of layer 1", "put(pen, 2, mask.resolution);",
     "put(pen, 2, sheet_record(source->sheet, 0).resolution);"),
    ("write.c", "width in two octets", "put(pen, 4, mask.width);",
     "put(pen, 4, mask.width % 32768);"),
    ("write.c", "a stripe's length counts the marker", "put(pen, 2, STRIPE_OCTETS - 2);",
     "put(pen, 2, STRIPE_OCTETS);"),
    ("write.c", "n of a stripe 2", "put_ident(pen, 0x01);", "put_ident(pen, 0x02);"),
    ("write.c", "type 7 always", "put(pen, 1, type_of(layer_1, layer_2, layer_3));",
     "put(pen, 1, 7);"),
    ("write.c", "background and foreground bits swapped", "type_of(layer_1, layer_2, layer_3)",
     "type_of(layer_3, layer_2, layer_1)"),
    ("write.c", "base colours swapped", "put_colour(pen, layer_1);\n    put_colour(pen, layer_3);",
     "put_colour(pen, layer_3);\n    put_colour(pen, layer_1);"),
    ("write.c", "offsets swapped", "put_offset(pen, layer_1);\n    put_offset(pen, layer_3);",
     "put_offset(pen, layer_3);\n    put_offset(pen, layer_1);"),
    ("write.c", "x and y swapped", "put(pen, 4, r.x);\n    put(pen, 4, r.y);",
     "put(pen, 4, r.y);\n    put(pen, 4, r.x);"),
    ("write.c", "height of stripe 0 in all", "put(pen, 4, layer_2.height);",
     "put(pen, 4, first_mask(source).height);"),
    ("write.c", "mask length of stripe 0 in all", "put(pen, 4, layer_2.length);",
     "put(pen, 4, first_mask(source).length);"),
    ("write.c", "background before the mask",
     "put_data(pen, source, layer_2);\n    put_data(pen, source, layer_1);",
     "put_data(pen, source, layer_1);\n    put_data(pen, source, layer_2);"),
    ("write.c", "foreground before the background",
     "put_data(pen, source, layer_1);\n    put_data(pen, source, layer_3);",
     "put_data(pen, source, layer_3);\n    put_data(pen, source, layer_1);"),
    ("write.c", "stripe 0 repeated", "put_stripe(pen, source, i);",
     "put_stripe(pen, source, 0 * i);"),
    ("write.c", "stripes backward", "put_stripe(pen, source, i);",
     "put_stripe(pen, source, source->records - 3 - i);"),
    ("write.c", "one FF D9 at the end", "    put(pen, 2, 0xFFD9);\n    put(pen, 2, 0xFFD9);\n",
     "    put(pen, 2, 0xFFD9);\n"),
    ("write.c", "a writer that writes nothing", "    put_page(&pen, &source);\n",
     "    pen.at = size;\n"),
    ("write.c", "a zero behind the end", "    put_page(&pen, &source);\n",
     "    put_page(&pen, &source);\n    if (page_octets > size) put(&pen, 1, 0);\n"),
    # what the driver has to see
    ("as_library.c", "a refusal changes an octet", "return told;",
     "if (told.number == 16 && page_len > 0) page[page_len - 1] ^= 1;\n    return told;"),
    ("as_library.c", "NoRoom changes an octet", "return told;",
     "if (told.number == 13 && page_len > 0) page[0] ^= 1;\n    return told;"),
    ("as_library.c", "an octet past the result changed", "return told;",
     "if (page_len > told.count) page[told.count] ^= 1;\n    return told;"),
    ("as_library.c", "an octet before the buffer changed", "return told;",
     "if (told.number == 0) page[-1] ^= 1;\n    return told;"),
    ("as_library.c", "an octet behind the buffer changed", "return told;",
     "if (told.number == 0) page[page_len] ^= 1;\n    return told;"),
    ("as_library.c", "an octet behind the data read", "return told;",
     "told.place += ((volatile const uint8_t *)data)[data_len] * 0;\n    return told;"),
    ("as_library.c", "an octet behind the sheet read", "return told;",
     "told.place += ((volatile const uint8_t *)sheet)[sheet_len] * 0;\n    return told;"),
    ("as_library.c", "the sheet changed", "return told;",
     "if (sheet_len > 18) ((uint8_t *)sheet)[18] ^= 1;\n    return told;"),
    ("as_library.c", "the data changed", "return told;",
     "if (data_len > 0) ((uint8_t *)data)[0] ^= 1;\n    return told;"),
    ("as_library.c", "a count with a refusal", "written.count}", "written.number + written.count}"),
    ("as_library.c", "a place with Done", "written.place,", "written.place + !written.number,"),
    ("as_library.c", "a null pointer refused", "return told;",
     "if (data == NULL) told.number = 2;\n    return told;"),
]


def found_by(program, cases):
    """The first sheet of the table whose answer or page is not the table's."""
    answers = reference_run.call_many(program, [(case.sheet, case.data, case.room)
                                                for case in cases])
    for case, got in zip(cases, answers):
        if got != (case.answer, case.page):
            return "write %s, %s" % (case.number, case.name)
    return None


def by_effort(cases):
    """Groups of cases, those first that take the least: few records, little data."""
    few = [case for case in cases if len(case.sheet) <= 15 * 28 and len(case.data) <= LARGE]
    many = [case for case in cases if case not in few and len(case.data) <= LARGE]
    return few, many, *([case] for case in cases if len(case.data) > LARGE)


def main():
    return planting.check_table("write", FAULTS, by_effort(write_making.table()), found_by)


if __name__ == "__main__":
    sys.exit(main())
