"""Plants faults in the reference's reader, one at a time; the table has to find each.

A fault is found when the faulty build answers some page of tests/pages.md
otherwise than the table does. So a rule that no page tests shows here, as a
fault that nobody finds.
"""

import sys

import faults_fill
import faults_grey
import page_making
import planting
import reference_run

LARGE = 100000

# (file, what goes wrong, the text of the file, the text in its place)
FAULTS = [
    ("reading.c", "least significant octet first",
     "reading->page[at + k];", "reading->page[at + size - 1 - k];"),
    ("reading.c", "a field may pass the end by an octet",
     "reading->octets - reading->at < size", "reading->octets - reading->at + 1 < size"),
    ("reading.c", "a field may not end with the page",
     "reading->octets - reading->at < size", "reading->octets - reading->at <= size"),
    ("reading.c", "Short at the page's end, not at the field",
     "refuse(reading, SHORT, reading->at)", "refuse(reading, SHORT, reading->octets)"),
    ("reading.c", "the first octet of a marker free", "reading->page[field] != 0xFF || ", ""),
    ("reading.c", "a bad marker at its second octet",
     "return refuse(reading, BAD_MARK, field);", "return refuse(reading, BAD_MARK, field + 1);"),
    ("reading.c", "a length of 5", "*length < 6", "*length < 5"),
    ("reading.c", "a length of 6 refused at once", "*length < 6", "*length <= 6"),
    ("reading.c", "the ident's third octet free", "|| reading->page[*field + 1] != 0x52 ||\n"
     "        reading->page[*field + 2] != 0x43", "|| reading->page[*field + 1] != 0x52"),
    ("page.c", "mask coder 8 refused", " && reading->mask_coder != 8", ""),
    ("page.c", "mask coder 3 taken", "reading->mask_coder != 2 &&",
     "reading->mask_coder != 2 && reading->mask_coder != 3 &&"),
    ("page.c", "image coder 2 taken", "reading->image_coder != 1)",
     "reading->image_coder != 1 && reading->image_coder != 2)"),
    ("page.c", "start of page with any n", "if (n != 0x00)", "if (n > 0xFE)"),
    ("page.c", "the length of the start before its ident",
     "if (n != 0x00) {", "if (n != 0x00 && length == START_LENGTH) {"),
    ("page.c", "start of page of any length",
     "if (length != START_LENGTH)", "if (length < START_LENGTH)"),
    ("page.c", "a bad length of the start at its ident",
     "BAD_LENGTH, length_field);\n    }\n    if (!read_number",
     "BAD_LENGTH, field);\n    }\n    if (!read_number"),
    ("page.c", "version 1", "if (version != 0)", "if (version > 1)"),
    ("page.c", "mode 2", "if (mode != 1)", "if (mode < 1 || mode > 2)"),
    ("page.c", "main resolution free",
     "!jpeg_resolution_is_listed(reading->main_resolution)", "reading->main_resolution == 0"),
    ("page.c", "page width 0", "reading->page_width < 1 || ", ""),
    ("page.c", "page width 32,769", "reading->page_width > 32768", "reading->page_width > 32769"),
    ("page.c", "page width 32,768 refused",
     "reading->page_width > 32768", "reading->page_width > 32767"),
    ("page.c", "an optional body not skipped", "read_field(reading, length - 6, &body)",
     "read_field(reading, 0 * length, &body)"),
    ("page.c", "optional n 02", "n >= 0x03", "n >= 0x02"),
    ("page.c", "optional n 03 refused", "n >= 0x03", "n > 0x03"),
    ("page.c", "optional n FF", "n <= 0xFE", "n <= 0xFF"),
    ("page.c", "optional n FE refused", "n <= 0xFE", "n < 0xFE"),
    ("page.c", "optional segments between stripes",
     "n <= 0xFE && reading->stripes == 0", "n <= 0xFE"),
    ("page.c", "64 stripes refused",
     "reading->stripes == MOST_STRIPES", "reading->stripes == MOST_STRIPES - 1"),
    ("page.c", "a 65th stripe at its length",
     "refuse(reading, BAD_STRIPE, ident)", "refuse(reading, BAD_STRIPE, length_field)"),
    ("page.c", "a stripe of any length",
     "if (length != STRIPE_LENGTH)", "if (length < STRIPE_LENGTH)"),
    ("page.c", "a stripe's length does not count itself",
     "STRIPE_LENGTH = 2 + 4", "STRIPE_LENGTH = 4"),
    ("page.c", "no stripes taken", "return refuse(reading, BAD_STRIPE, marker);", "return true;"),
    ("page.c", "no stripes at the second FF D9",
     "refuse(reading, BAD_STRIPE, marker)", "refuse(reading, BAD_STRIPE, marker + 2)"),
    ("page.c", "one FF D9 ends the page",
     "read_segments(reading) && read_marker_due(reading, 0xD9) &&", "read_segments(reading) &&"),
    ("page.c", "anything behind the end", "if (reading->page[reading->at] != 0)", "if (false)"),
    ("page.c", "every second octet behind the end", "reading->at += 1;", "reading->at += 2;"),
    ("page.c", "TooLong one octet early",
     "page_octets > MOST_OCTETS", "page_octets >= MOST_OCTETS"),
    ("page.c", "TooLong one octet late",
     "page_octets > MOST_OCTETS", "page_octets > MOST_OCTETS + 1"),
    ("page.c", "room for a record less", "sheet_octets < records * RECORD_OCTETS",
     "sheet_octets + 1 < records * RECORD_OCTETS"),
    ("page.c", "x and y changed places",
     "put(octets, 4, 2, record->x);", "put(octets, 4, 2, record->y);"),
    ("page.c", "a start in two octets", "put(octets, 18, 4, record->start);",
     "put(octets, 18, 4, record->start % 65536);"),
    ("page.c", "octet 27 left as it was", "put(octets, 26, 2, 0);", "put(octets, 26, 1, 0);"),
    ("stripe.c", "type 5 taken", "type == 5 || ", ""),
    ("stripe.c", "type 8 taken", "type > 7", "type > 8"),
    ("stripe.c", "a mask without a coder", "has_mask(type) && reading->mask_coder == 0", "false"),
    ("stripe.c", "a foreground without a coder",
     "(has_background(type) || has_foreground(type)) &&", "has_background(type) &&"),
    ("stripe.c", "an absent layer's offset judged", "present && (", "("),
    ("stripe.c", "y offset not judged", " || *y > 65535", ""),
    ("stripe.c", "an offset's place behind its first half",
     "*y = number_at(reading, field + 4, 4);", "*y = number_at(reading, field += 4, 4);"),
    ("stripe.c", "height 0", "stripe->height < 1 || ", ""),
    ("stripe.c", "heights of 65,536", "reading->heights + stripe->height > 65535",
     "reading->heights + stripe->height > 65536"),
    ("stripe.c", "heights not added", "reading->heights += stripe->height;", ""),
    ("stripe.c", "a mask length without a mask",
     "(stripe->mask_length == 0) != !has_mask(stripe->type)",
     "stripe->mask_length == 0 && has_mask(stripe->type)"),
    ("stripe.c", "the background behind the foreground's offset",
     "!read_image(reading, stripe.background_x, stripe.background_y,",
     "!read_image(reading, stripe.foreground_x, stripe.foreground_y,"),
    ("stripe.c", "the mask behind the foreground in the sheet",
     "records[1] = mask;", "records[1] = foreground;"),
    ("stripe.c", "stripe 0 always", "record.stripe = reading->stripes;", "record.stripe = 0;"),
    ("stripe.c", "an absent layer loses its colour",
     "record.colour[k] = colour[k];", "record.colour[k] = layer == 3 ? 0 : colour[k];"),
    ("stripe.c", "a virtual mask without a width", "record.width = reading->page_width;",
     "record.width = has_mask(stripe->type) ? reading->page_width : 0;"),
    ("stripe.c", "an image layer with the mask's coder",
     "record->coder = reading->image_coder;", "record->coder = reading->mask_coder;"),
    ("stripe.c", "a layer's length without its FF D9",
     "(uint32_t)(layer.end - start)", "(uint32_t)(layer.end - start - 2)"),
    ("stripe.c", "an image layer at the main resolution",
     "record->resolution = layer.resolution;", ""),
    ("jpeg.c", "FF 01 has a length", "return STANDS_ALONE;", "return WITH_LENGTH;"),
    ("jpeg.c", "FF C4 a frame", "code != 0xC4 && ", ""),
    ("jpeg.c", "FF CC a frame", " && code != 0xCC", ""),
    ("jpeg.c", "FF C9 no frame", "code <= 0xCF &&", "code <= 0xCF && code != 0xC9 &&"),
    ("jpeg.c", "restart markers outside a scan", "code <= 0xD7) {\n        return FAULT;",
     "code <= 0xD7) {\n        return STANDS_ALONE;"),
    ("jpeg.c", "a second FF D8", "code == 0xD8) {\n        return FAULT;",
     "code == 0xD8) {\n        return STANDS_ALONE;"),
    ("jpeg.c", "FF BF a frame", "code >= 0xC0", "code >= 0xBF"),
    ("jpeg.c", "FF D0 a frame", "code <= 0xCF", "code <= 0xD0"),
    ("jpeg.c", "FF BF a segment", "code <= 0xBF", "code < 0xBF"),
    ("jpeg.c", "FF 02 a segment", "code >= 0x02", "code > 0x02"),
    ("jpeg.c", "300 not listed", "resolution == 300 ||", "resolution == 301 ||"),
    ("jpeg.c", "a layer's bad length at its marker",
     "return stop(walk, BAD_LENGTH, field);", "return stop(walk, BAD_LENGTH, field - 2);"),
    ("jpeg.c", "a body may pass the end", "fits(walk, field + 2, *length - 2)",
     "fits(walk, field + 2, *length > 2 ? *length - 3 : 0)"),
    ("jpeg.c", "the tag's last octet free", "k < sizeof tag; k++", "k < sizeof tag - 1; k++"),
    ("jpeg.c", "the tag in any segment", "marker.code == 0xE1 && ", ""),
    ("jpeg.c", "a tagged segment of 11", "length >= 12", "length >= 11"),
    ("jpeg.c", "a tagged segment of exactly 12", "length >= 12", "length == 12"),
    ("jpeg.c", "the last tagged segment counts", " &&\n        !walk->has_resolution) {", ") {"),
    ("jpeg.c", "300 under 400",
     "walk->main_resolution % resolution != 0", "walk->main_resolution < resolution"),
    ("jpeg.c", "two frames", "if (walk->has_frame) {", "if (false) {"),
    ("jpeg.c", "a second frame behind a scan only",
     "if (walk->has_frame) {", "if (walk->has_scan) {"),
    ("jpeg.c", "a frame without a resolution", "if (!walk->has_resolution) {", "if (false) {"),
    ("jpeg.c", "a frame of length 7",
     "read_length(walk, marker.behind, 8,", "read_length(walk, marker.behind, 7,"),
    ("jpeg.c", "a frame of length 8 refused",
     "read_length(walk, marker.behind, 8,", "read_length(walk, marker.behind, 9,"),
    ("jpeg.c", "height and width changed places",
     "walk->layer.height = two_octets(walk, body + 1);",
     "walk->layer.height = two_octets(walk, body + 3);"),
    ("jpeg.c", "a frame of height 0", "if (walk->layer.height == 0)", "if (false)"),
    ("jpeg.c", "a frame of width 0 at its height",
     "return stop(walk, BAD_LAYER, body + 3);", "return stop(walk, BAD_LAYER, body + 1);"),
    ("jpeg.c", "FF D7 ends a scan", "marker.code <= 0xD7;", "marker.code < 0xD7;"),
    ("jpeg.c", "FF 01 is data", "if (marker.code == 0x00) {", "if (marker.code <= 0x01) {"),
    ("jpeg.c", "scan data without an end at the page's end",
     "return stop(walk, SHORT, data);", "return stop(walk, SHORT, at);"),
    ("jpeg.c", "a scan without a frame", "if (!walk->has_frame) {", "if (false) {"),
    ("jpeg.c", "an end without a scan", "if (!walk->has_scan) {", "if (false) {"),
    ("jpeg.c", "a marker without FF", "if (walk->page[due] != 0xFF) {", "if (false) {"),
    ("jpeg.c", "a layer without FF D8", "|| walk->page[start + 1] != 0xD8", ""),
    *faults_fill.OF_WALK, *faults_fill.OF_PLACES,
    *faults_grey.OF_COUNTS, *faults_grey.OF_WALK, *faults_grey.OF_PLACES, *faults_grey.OF_READ,
    # what the driver has to see
    ("as_library.c", "a refusal changes an octet", "return same;",
     "if (same.number == 7 && sheet_len > 0) sheet[sheet_len - 1] ^= 1;\n    return same;"),
    ("as_library.c", "an octet past the result changed", "return same;",
     "if (sheet_len > same.count * 28) sheet[same.count * 28] ^= 1;\n    return same;"),
    ("as_library.c", "an octet before the buffer changed", "return same;",
     "if (same.number == 0) sheet[-1] ^= 1;\n    return same;"),
    ("as_library.c", "an octet behind the buffer changed", "return same;",
     "if (same.number == 0) sheet[sheet_len] ^= 1;\n    return same;"),
    ("as_library.c", "an octet behind the page read", "return same;",
     "same.place += ((volatile const uint8_t *)page)[page_len] * 0;\n    return same;"),
    ("as_library.c", "a count with a refusal", "answer.count}", "answer.number + answer.count}"),
    ("as_library.c", "a place with Done", "{answer.number, answer.place,",
     "{answer.number, answer.place + !answer.number,"),
    ("as_library.c", "a null pointer refused", "return same;",
     "if (page == NULL) same.number = 2;\n    return same;"),
]


def found_by(program, cases):
    """The first page of the table whose answer is not the table's."""
    answers = reference_run.read_many(program, [(case.page, case.room) for case in cases])
    for case, lines in zip(cases, answers):
        if page_making.answer(lines) != case.answer or case.lines() not in (None, lines):
            return "page %s, %s" % (case.number, case.name)
    return None


def main():
    cases = page_making.table()
    groups = ([case for case in cases if len(case.page) <= LARGE],
              [case for case in cases if len(case.page) > LARGE])
    return planting.check_table("read", FAULTS, groups, found_by)


if __name__ == "__main__":
    sys.exit(main())
