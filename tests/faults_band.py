"""Plants faults in the reference's painter of bands and in the call over it, one at a time; the
tables have to find each.

A fault is found when the faulty build answers some call of tests/bands.md, or a call for the band
of a row of tests/lines.md, otherwise than the table does. The reference's lines stay sound, and
nobody holds its bands to them here: what finds a fault is an answer from the papers. The wrong
programs of request 2026-12 are among the faults.
"""

import sys

import band_making
import faults_painting
import faults_unseen
import line_making
import planting
import reference_run

MANY = 15 * 28

STRIPE_IS = "if (r.stripe == call->stripe) {"
NO_STRIPE = "    if (stripe.layers == 0) {"
PLANES = "    if (!take_planes(&stripe, &place)) {"
SIZE = "uint64_t size = stripe.width * stripe.height * PIXEL_OCTETS;"
ROOM = "if (out_octets < size) {"
LAYER_SIZE = "uint64_t size = (uint64_t)r.width * r.height * sample_size(r);"


def ahead(what, text, code):
    """Code before a text that stays."""
    return what, text, code + "\n" + text


# what goes wrong, the text of band.c, the text in its place
REFUSALS = [
    ("no judge of the sheet", "if (verdict.number != DONE) {",
     "if (verdict.number != DONE && call->sheet_octets < 84) {"),
    ("BadSheet without its record", "refusal(verdict.number, verdict.place)",
     "refusal(verdict.number, 0)"),
    ahead("BadLine before BadSheet", "    if (verdict.number != DONE) {",
          "    if (call->stripe > 6) return refusal(BAD_LINE, 0);"),
    ahead("BadPlane before BadLine", NO_STRIPE,
          "    if (!take_planes(&stripe, &place)) return refusal(BAD_PLANE, place);"),
    ahead("a part entry before BadLine", NO_STRIPE,
          "    if (call->plane_octets % 5) return refusal(BAD_PLANE, call->plane_octets / 5);"),
    ahead("NoRoom before BadLine", NO_STRIPE,
          "    if (out_octets < 4 * sheet_record(call->sheet, 1).width) return refusal(NO_ROOM, 0);"),
    ahead("NoRoom before BadPlane", PLANES,
          "    if (out_octets < 4 * stripe.width * stripe.height) return refusal(NO_ROOM, 0);"),
    ahead("room for a line judged before BadPlane", PLANES,
          "    if (out_octets < 4 * stripe.width) return refusal(NO_ROOM, 0);"),
    ahead("NoRoom before BadSheet", "    struct verdict verdict = ",
          "    if (out_octets == 0) return refusal(NO_ROOM, 0);"),
    ("BadLine with a place", "refusal(BAD_LINE, 0)", "refusal(BAD_LINE, call->stripe)"),
    ("BadLine for a stripe of one line", NO_STRIPE, "    if (stripe.height < 2) {"),
    ("the last stripe where there is none", STRIPE_IS, "if (r.stripe <= call->stripe) {"),
    ("a stripe of 16 bits", STRIPE_IS, "if (r.stripe == call->stripe % 65536) {"),
    ("a stripe of 8 bits", STRIPE_IS, "if (r.stripe == call->stripe % 256) {"),
    ("stripe 0 always", STRIPE_IS, "if (r.stripe == 0 * call->stripe) {"),
    ("layers of a later stripe taken", STRIPE_IS,
     "if (r.stripe == call->stripe || (stripe.layers >= 3 && r.layer == stripe.layers + 1)) {"),
]

LISTS = [
    ("equal layers taken", "layer <= before ||", "layer < before ||"),
    ("any order taken", "layer <= before ||", "layer == before ||"),
    ("uncoded layers taken", "return is_coded(r) && start_of", "return start_of"),
    ("a plane one octet past its buffer", "<= stripe->call->sample_octets",
     "<= stripe->call->sample_octets + 1"),
    ("a plane may not end with its buffer", "<= stripe->call->sample_octets",
     "< stripe->call->sample_octets"),
    ("start plus size of 32 bits", "start_of(entry) + size <=",
     "(uint32_t)(start_of(entry) + size) <="),
    ("a size of 32 bits", LAYER_SIZE, LAYER_SIZE.replace("uint64_t size", "uint32_t size")),
    ("one octet a sample of every layer when judged", LAYER_SIZE,
     "uint64_t size = (uint64_t)r.width * r.height;"),
    ("only as many rows as the stripe has lines must fit", LAYER_SIZE,
     LAYER_SIZE.replace("* r.height", "* (r.height < stripe->height ? r.height : stripe->height)")),
    ("a layer beyond the page not judged", "return is_coded(r) && start_of",
     "return is_coded(r) && r.x >= stripe->width || is_coded(r) && start_of"),
    ("a part entry ignored", "return call->plane_octets % ENTRY_OCTETS == 0;", "return true;"),
    ahead("a part entry before whole ones", "    for (*place = 0; *place < call",
          "    if (call->plane_octets % 5) { *place = call->plane_octets / 5; return false; }"),
    ("BadPlane without its entry", "refusal(BAD_PLANE, place)", "refusal(BAD_PLANE, 0 * place)"),
    ("starts least significant octet first",
     "(uint64_t)entry[1] << 24 | (uint64_t)entry[2] << 16 | (uint64_t)entry[3] << 8 | entry[4]",
     "(uint64_t)entry[4] << 24 | (uint64_t)entry[3] << 16 | (uint64_t)entry[2] << 8 | entry[1]"),
    ("starts of 16 bits", "(uint64_t)entry[1] << 24 | (uint64_t)entry[2] << 16 | ", ""),
    ("samples from the first octet always", "call->samples + start_of(entry);", "call->samples;"),
]

SIZES = [
    ("NoRoom judged by a line", ROOM, "if (out_octets < 4 * stripe.width) {"),
    ("NoRoom judged by all lines but one", ROOM, "if (out_octets < size - 4 * stripe.width) {"),
    ("a size of 32 bits", SIZE, SIZE.replace("uint64_t", "uint32_t")),
    ("a size of 32 bits with a sign", ROOM, "if ((int64_t)out_octets < (int32_t)size) {"),
    ("a size of 16 bits", SIZE, SIZE.replace("uint64_t", "uint16_t")),
    ("three octets of room a pixel", ROOM, "if (out_octets < size / 4 * 3) {"),
    ("an octet of room may lack", ROOM, "if (out_octets + 1 < size) {"),
    ("more room than the band asked for", ROOM, "if (out_octets <= size) {"),
    ("pixels counted, not octets", "{DONE, 0, size}", "{DONE, 0, size / 4}"),
    ("a line counted", "{DONE, 0, size}", "{DONE, 0, 4 * stripe.width}"),
    ("NoRoom with a place", "refusal(NO_ROOM, 0)", "refusal(NO_ROOM, 1)"),
    ("what fits is painted, and NoRoom told", ROOM, "if (out_octets < size) {\n"
     "        memset(out, 0, out_octets);"),
    ("octets past the band 0", "    struct reference_answer answer = {DONE, 0, size};",
     "    memset(out + size, 0, out_octets - size);\n"
     "    struct reference_answer answer = {DONE, 0, size};"),
    ("the page's height for the stripe's", "    stripe.height = second.height;",
     "    for (size_t i = 1; i < call->sheet_octets / RECORD_OCTETS; i++)\n"
     "        if (sheet_record(call->sheet, i).layer == 2)\n"
     "            stripe.height += sheet_record(call->sheet, i).height;"),
    ("the first stripe's height for all", "stripe.height = second.height;",
     "stripe.height = sheet_record(call->sheet, 1).height;"),
    ("the highest layer's height for the stripe's", "    stripe.height = second.height;",
     "    for (uint32_t i = 1; i <= stripe.layers; i++)\n"
     "        if (stripe.layer[i].record.height > stripe.height)\n"
     "            stripe.height = stripe.layer[i].record.height;"),
]

OF_BAND = [("band.c", *fault) for fault in REFUSALS + LISTS + SIZES + faults_painting.ALL]


def found_by(program, asked):
    """The first call of the tables whose answer or band is not due."""
    answers = reference_run.call_many(program, [each.case for each in asked])
    return next((each.what for each, got in zip(asked, answers) if not each.is_due(got)), None)


def groups():
    """What is asked, those calls first that take the least: of few records."""
    bands, lines = band_making.table(), line_making.table()
    for few in (True, False):
        yield [case.asked(unseen) for case in bands if (len(case.sheet) <= MANY) == few
               for unseen in case.unseens()[:4 if few else 1]]
        yield band_making.asked_of_lines([line for line in lines
                                          if (len(line.sheet) <= MANY) == few])


def main():
    of_call = [(file, what, old, new) for _, what, file, old, new
               in faults_unseen.OF_BAND + faults_unseen.OF_BAND_LENT]
    return planting.check_table("band", OF_BAND + of_call, list(groups()), found_by)


if __name__ == "__main__":
    sys.exit(main())
