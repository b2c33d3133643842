"""Plants faults in the reference's composer and in the two calls over it, one at a time; the table
has to find each.

A fault is found when the faulty build answers some call of tests/lines.md
otherwise than the table does. So a rule that no line tests shows here, as a
fault that nobody finds.
"""

import sys

import faults_grey
import faults_unseen
import line_making
import planting
import reference_run

MANY = 15 * 28

# (file, what goes wrong, the text of the file, the text in its place)
FAULTS = [
    # the order of refusals
    ("line.c", "no judge of the sheet", "if (verdict.number != DONE) {",
     "if (verdict.number != DONE && call->sheet_octets < 84) {"),
    ("line.c", "BadSheet without its record",
     "refusal(verdict.number, verdict.place)", "refusal(verdict.number, 0)"),
    ("line.c", "BadLine before BadSheet", "    if (verdict.number != DONE) {",
     "    if (call->stripe > 8 || call->line > 8 && call->line < 10) return refusal(BAD_LINE, 0);\n"
     "    if (verdict.number != DONE) {"),
    ("line.c", "BadPlane before BadLine", "    if (!has_line(&work)) {",
     "    if (find_bad_plane(&work, &place)) return refusal(BAD_PLANE, place);\n"
     "    if (!has_line(&work)) {"),
    ("line.c", "a part entry before BadLine", "    if (!has_line(&work)) {",
     "    if (call->plane_octets % 5) return refusal(BAD_PLANE, call->plane_octets / 5);\n"
     "    if (!has_line(&work)) {"),
    ("line.c", "NoRoom before BadLine", "    if (!has_line(&work)) {",
     "    if (out_octets < 4 * sheet_record(call->sheet, 1).width) return refusal(NO_ROOM, 0);\n"
     "    if (!has_line(&work)) {"),
    ("line.c", "NoRoom before BadPlane", "    if (find_bad_plane(&work, &place)) {",
     "    if (out_octets < 4 * work.record[2].width) return refusal(NO_ROOM, 0);\n"
     "    if (find_bad_plane(&work, &place)) {"),
    ("line.c", "NoRoom before BadSheet", "    struct verdict verdict = ",
     "    if (out_octets == 0) return refusal(NO_ROOM, 0);\n    struct verdict verdict = "),
    # stripes and lines
    ("line.c", "the line behind the last taken",
     "work->call->line < work->record[2].height", "work->call->line <= work->record[2].height"),
    ("line.c", "lines not judged", "work->layers != 0 && work->call->line < work->record[2].height",
     "work->layers != 0"),
    ("line.c", "a line of 16 bits", "work->call->line < work->record[2].height",
     "work->call->line % 65536 < work->record[2].height"),
    ("line.c", "a stripe of 16 bits", "r.stripe == call->stripe",
     "r.stripe == call->stripe % 65536"),
    ("line.c", "a stripe of 8 bits", "r.stripe == call->stripe", "r.stripe == call->stripe % 256"),
    ("line.c", "stripe 0 always", "r.stripe == call->stripe", "r.stripe == 0 * call->stripe"),
    ("line.c", "the last stripe where there is none",
     "r.stripe == call->stripe", "r.stripe <= call->stripe"),
    ("line.c", "BadLine with a place", "refusal(BAD_LINE, 0)", "refusal(BAD_LINE, call->stripe)"),
    # the plane list
    ("line.c", "layer 0 taken", "    if (plane.layer < 1 || plane",
     "    if (plane.layer == 0) return false;\n    if (plane"),
    ("line.c", "absent layers passed over",
     "plane.layer > work->layers) {\n"
     "        return true;",
     "plane.layer > work->layers) {\n"
     "        return false;"),
    ("line.c", "layers above 3 of a later stripe taken", "r.stripe == call->stripe",
     "r.stripe == call->stripe || (work.layers >= 3 && r.layer == work.layers + 1)"),
    ("line.c", "uncoded layers taken", "    if (!is_coded(r)) {\n        return true;",
     "    if (!is_coded(r)) {\n        return false;"),
    ("line.c", "a virtual mask taken", "    if (!is_coded(r)) {\n        return true;",
     "    if (!is_coded(r) && r.layer != 2) {\n        return true;"),
    ("line.c", "equal layers taken", ".layer >= plane.layer", ".layer > plane.layer"),
    ("line.c", "any order taken", ".layer >= plane.layer", ".layer == plane.layer"),
    ("line.c", "only the first entry looked at for order", "j < i; j++", "j < i && j < 1; j++"),
    ("line.c", "layers ordered as text in the list", ".layer >= plane.layer",
     ".layer * (plane_at(work->call, j).layer < 10 ? 10 : 1) >= plane.layer * "
     "(plane.layer < 10 ? 10 : 1)"),
    ("line.c", "a plane one octet past its buffer", "> work->call->sample_octets;",
     "> work->call->sample_octets + 1;"),
    ("line.c", "a plane may not end with its buffer", "> work->call->sample_octets;",
     ">= work->call->sample_octets;"),
    ("line.c", "only the start is looked at", "plane.start + size > work", "plane.start >= work"),
    ("line.c", "only the size is looked at", "plane.start + size > work", "size > work"),
    ("line.c", "start plus size of 32 bits", "plane.start + size > work",
     "(uint32_t)(plane.start + size) > work"),
    ("line.c", "a size of 32 bits", "uint64_t size = (uint64_t)r.width * r.height",
     "uint32_t size = r.width * r.height"),
    ("line.c", "a size of 16 bits", "uint64_t size = (uint64_t)r.width * r.height",
     "uint64_t size = (uint16_t)(r.width * r.height)"),
    ("line.c", "one octet a sample of every layer when judged",
     "r.height * sample_size(r)", "r.height"),
    ("line.c", "only the rows down to the line must fit",
     "uint64_t size = (uint64_t)r.width * r.height",
     "uint64_t size = (uint64_t)r.width * (work->call->line + 1 < r.height ? "
     "work->call->line + 1 : r.height)"),
    ("line.c", "the scaled area must fit",
     "uint64_t size = (uint64_t)r.width * r.height",
     "uint64_t size = (uint64_t)r.width * r.height * (work->record[2].resolution / r.resolution)"),
    ("line.c", "a part entry ignored", "return work->call->plane_octets % ENTRY_OCTETS != 0;",
     "return false;"),
    ("line.c", "a part entry of four octets ignored",
     "return work->call->plane_octets % ENTRY_OCTETS != 0;",
     "return work->call->plane_octets % ENTRY_OCTETS % 4 != 0;"),
    ("line.c", "a part entry before whole ones", "    for (size_t i = 0; i < whole; i++) {",
     "    if (work->call->plane_octets % 5 != 0) { *place = whole; return true; }\n"
     "    for (size_t i = 0; i < whole; i++) {"),
    ("line.c", "a part entry at the last whole one", "    *place = whole;",
     "    *place = whole - (whole > 0);"),
    ("line.c", "BadPlane without its entry", "            *place = i;",
     "            *place = 0 * i;"),
    ("line.c", "BadPlane at the layer", "            *place = i;",
     "            *place = plane_at(work->call, i).layer;"),
    ("line.c", "the last entry at fault",
     "            return true;\n"
     "        }\n"
     "    }\n"
     "    *place = whole;",
     "            for (size_t j = i + 1; j < whole; j++) if (is_bad_plane(work, j)) "
     "*place = j;\n"
     "            return true;\n"
     "        }\n"
     "    }\n"
     "    *place = whole;"),
    ("line.c", "starts least significant octet first",
     "plane.start = plane.start * 256 + octets[k];",
     "plane.start += (uint64_t)octets[k] << 8 * (k - 1);"),
    ("line.c", "starts of three octets", "for (size_t k = 1; k < ENTRY_OCTETS",
     "for (size_t k = 2; k < ENTRY_OCTETS"),
    ("line.c", "starts of 16 bits", "for (size_t k = 1; k < ENTRY_OCTETS",
     "for (size_t k = 3; k < ENTRY_OCTETS"),
    # room
    ("line.c", "three octets of room a pixel", "if (out_octets < size) {",
     "if (out_octets < size / 4 * 3) {"),
    ("line.c", "an octet of room may lack", "if (out_octets < size) {",
     "if (out_octets + 1 < size) {"),
    ("line.c", "more room than the line asked for", "if (out_octets < size) {",
     "if (out_octets <= size) {"),
    ("line.c", "a size of the line that wraps at 65,536",
     "* PIXEL_OCTETS;\n"
     "    if",
     "* PIXEL_OCTETS % 65536;\n"
     "    if"),
    ("line.c", "pixels counted, not octets", "{DONE, 0, size}", "{DONE, 0, size / 4}"),
    ("line.c", "NoRoom with a place", "refusal(NO_ROOM, 0)",
     "refusal(NO_ROOM, work.record[2].width)"),
    # areas
    ("line.c", "x divided before the offset is taken away", "(x - r.x) / k", "x / k - r.x / k"),
    ("line.c", "y divided before the offset is taken away",
     "(call->line - r.y) / k", "call->line / k - r.y / k"),
    ("line.c", "x not divided", "uint64_t column = (x - r.x) / k;",
     "uint64_t column = x - r.x < r.width ? x - r.x : r.width - 1;"),
    ("line.c", "y not divided", "uint64_t row = (call->line - r.y) / k;",
     "uint64_t row = call->line - r.y < r.height ? call->line - r.y : r.height - 1;"),
    ("line.c", "the x offset not taken away", "uint64_t column = (x - r.x) / k;",
     "uint64_t column = x / k % r.width;"),
    ("line.c", "the y offset not taken away", "uint64_t row = (call->line - r.y) / k;",
     "uint64_t row = call->line / k % r.height;"),
    ("line.c", "rounded up", "uint64_t column = (x - r.x) / k;",
     "uint64_t column = (x - r.x + k - 1) / k % r.width;"),
    ("line.c", "offsets in layer samples", "uint64_t right = r.x + r.width * k;",
     "r.x *= k; r.y *= k;\n    uint64_t right = r.x + r.width * k;"),
    ("line.c", "areas not scaled across", "uint64_t right = r.x + r.width * k;",
     "uint64_t right = r.x + r.width;"),
    ("line.c", "areas not scaled down", "uint64_t below = r.y + r.height * k;",
     "uint64_t below = r.y + r.height;"),
    ("line.c", "a pixel too many across", "x < right",
     "x <= right && (x - r.x) / k < r.width + (r.width > 1 ? 1 : 0)"),
    ("line.c", "a line too many", "y < below", "y <= below"),
    ("line.c", "a pixel too few across", "x < right", "x + 1 < right"),
    ("line.c", "no left edge", "x >= r.x && ", ""),
    ("line.c", "no upper edge", "y >= r.y && ", ""),
    ("line.c", "no right edge", "x < right && ", ""),
    ("line.c", "no lower edge", " && y < below", ""),
    ("line.c", "width times k of 16 bits", "r.x + r.width * k", "r.x + (uint16_t)(r.width * k)"),
    ("line.c", "height times k of 16 bits", "r.y + r.height * k", "r.y + (uint16_t)(r.height * k)"),
    ("line.c", "the right edge of 16 bits", "uint64_t right = ", "uint16_t right = "),
    ("line.c", "the lower edge of 16 bits", "uint64_t below = ", "uint16_t below = "),
    ("line.c", "rows of the page's width", "row * r.width + column",
     "(row * sheet_record(call->sheet, 1).width + column) % (r.width * r.height)"),
    ("line.c", "columns first", "row * r.width + column", "column * r.height + row"),
    ("line.c", "k of layer 1 for all", "work->record[2].resolution / r.resolution",
     "work->record[2].resolution / work->record[1].resolution"),
    ("line.c", "k from 400", "work->record[2].resolution / r.resolution",
     "(r.resolution < 400 ? 400 : r.resolution) / r.resolution"),
    ("line.c", "all image layers at layer 1's offset",
     "    struct record r = work->record[layer];\n"
     "    uint64_t k",
     "    struct record r = work->record[layer];\n"
     "    if (is_coded(work->record[1])) r.x = work->record[1].x;\n"
     "    uint64_t k"),
    # values
    ("line.c", "the base colour used inside", "value_read(work->call, r, plane, k, x)",
     "is_mask(layer) ? value_read(work->call, r, plane, k, x) : value_outside(work, r)"),
    ("line.c", "layer 1's base colour outside every layer",
     "colour_of(r.colour[0], r.colour[1], r.colour[2])",
     "colour_of(work->record[1].colour[0], work->record[1].colour[1], "
     "work->record[1].colour[2])"),
    ("line.c", "black outside", "return colour_of(r.colour[0], r.colour[1], r.colour[2]);",
     "return is_coded(r) ? 0x008060 : colour_of(r.colour[0], r.colour[1], r.colour[2]);"),
    ("line.c", "outside a mask 1",
     "    return 0;\n"
     "}\n"
     "\n"
     "/* \"Inside,",
     "    return is_coded(r);\n"
     "}\n"
     "\n"
     "/* \"Inside,"),
    ("line.c", "a mask octet 2 taken as 0", "sample[0] == 0 ? 0 : 1", "sample[0] % 2 == 0 ? 0 : 1"),
    ("line.c", "only a mask octet 1 taken as 1", "sample[0] == 0 ? 0 : 1",
     "sample[0] == 1 ? 1 : 0"),
    ("line.c", "a mask octet is its top bit", "sample[0] == 0 ? 0 : 1",
     "sample[0] >= 128 || sample[0] == 1"),
    ("line.c", "masks upside down", "sample[0] == 0 ? 0 : 1", "sample[0] == 0 ? 1 : 0"),
    ("line.c", "an image sample's octets backward", "colour_of(sample[0], sample[1], sample[2])",
     "colour_of(sample[2], sample[1], sample[0])"),
    ("line.c", "the third octet not read", "colour_of(sample[0], sample[1], sample[2])",
     "colour_of(sample[0], sample[1], sample[1])"),
    ("line.c", "four octets an image sample", "(plane.start + number * sample_size(r))",
     "(plane.start + number * sample_size(r) + (is_mask(r.layer) || number + 1 "
     ">= r.width * r.height ? 0 : number))"),
    ("line.c", "samples from the first octet always", "(plane.start + number",
     "(0 * plane.start + number"),
    # virtual masks
    ("line.c", "virtual mask 1 without a coded layer 3", " && is_coded(work->record[3])) {", ") {"),
    ("line.c", "no virtual mask", "        return 1;", "        return 0;"),
    ("line.c", "virtual masks above 2", "r.layer == 2 && !is_coded(r) && is_coded(work->record[3])",
     "!is_coded(r) && is_coded(work->record[r.layer + 1])"),
    ("line.c", "a virtual mask above a coded mask", "r.layer == 2 && !is_coded(r) && is_coded",
     "r.layer <= 4 && !is_coded(r) && is_coded"),
    ("line.c", "a virtual mask only where layer 3 is",
     "pixel->value[layer] = value_outside(work, r);",
     "pixel->value[layer] = value_outside(work, r);\n"
     "        if (layer == 2 && !is_inside(work->record[3], "
     "work->record[2].resolution / work->record[3].resolution, x, work->call->line)) "
     "pixel->value[2] = 0;"),
    # the order of layers
    ("line.c", "masks above 2 ignored", "mask < pixel->layers; mask += 2", "mask < 3; mask += 2"),
    ("line.c", "masks above 12 ignored", "mask < pixel->layers; mask += 2",
     "mask < pixel->layers && mask <= 12; mask += 2"),
    ("line.c", "the lowest mask that is 1", "            colour = pixel->value[mask + 1];",
     "            return pixel->value[mask + 1];"),
    ("line.c", "layers ordered as text",
     "    return colour;\n"
     "}\n"
     "\n"
     "/* Whether a layer that",
     "    for (uint32_t mask = 10; mask < pixel->layers; mask += 2) if "
     "(pixel->value[mask] == 1) colour = pixel->value[mask + 1];\n"
     "    for (uint32_t mask = 2; mask < pixel->layers && mask < 10; mask += 2) if "
     "(pixel->value[mask] == 1) colour = pixel->value[mask + 1];\n"
     "    return colour;\n"
     "}\n"
     "\n"
     "/* Whether a layer that"),
    ("line.c", "a mask takes the layer below", "colour = pixel->value[mask + 1];",
     "colour = pixel->value[mask - 1];"),
    ("line.c", "mask 0 takes layer 1 again",
     "            colour = pixel->value[mask + 1];\n"
     "        }",
     "            colour = pixel->value[mask + 1];\n"
     "        } else {\n"
     "            colour = pixel->value[1];\n"
     "        }"),
    ("line.c", "a known mask taken as 1, whatever its value", "        if (pixel->value[mask] == 1) {",
     "        if (pixel->value[mask] == 1 || !pixel->unread[mask]) {"),
    ("line.c", "layer 1 never shown", "uint32_t colour = pixel->value[1];",
     "uint32_t colour = pixel->value[3];"),
    # seen and unseen
    ("line.c", "all unseen", "bool seen = is_seen(&pixel, &colour);",
     "bool seen = is_seen(&pixel, &colour) && false;"),
    ("line.c", "all seen", "bool seen = is_seen(&pixel, &colour);",
     "bool seen = is_seen(&pixel, &colour) || true;"),
    ("line.c", "an unread mask taken as 0", "is_mask(layer) ? choice : probe[choice]",
     "is_mask(layer) ? 0 : probe[choice]"),
    ("line.c", "an unread mask taken as 1", "is_mask(layer) ? choice : probe[choice]",
     "is_mask(layer) ? 1 : probe[choice]"),
    ("line.c", "an unread mask above 2 taken as 0", "is_mask(layer) ? choice : probe[choice]",
     "is_mask(layer) ? (layer > 2 ? 0 : choice) : probe[choice]"),
    ("line.c", "pixel (d) called unseen", "        if (compose(pixel) != *colour) {",
     "        if (compose(pixel) != *colour || pixel->unread[2]) {"),
    ("line.c", "unseen where any layer is unread", "        if (compose(pixel) != *colour) {",
     "        if (compose(pixel) != *colour || i != 0) {"),
    ("line.c", "an unread image layer taken as 0 0 0", ": probe[choice]", ": 0 * probe[choice]"),
    ("line.c", "an unread image layer taken as its base colour",
     "        pixel->unread[layer] = true;",
     "        if (is_mask(layer)) pixel->unread[layer] = true; else "
     "pixel->value[layer] = value_outside(work, r);"),
    ("line.c", "unread layers are unread outside too",
     "    if (!is_coded(r) || !is_inside(r, k, x, work->call->line)) {",
     "    if (is_coded(r) && !find_plane(work->call, layer, &plane)) pixel->unread[layer] = true;\n"
     "    else if (!is_coded(r) || !is_inside(r, k, x, work->call->line)) {"),
    ("line.c", "uncoded layers are unread",
     "    if (!is_coded(r) || !is_inside(r, k, x, work->call->line)) {",
     "    if (!is_coded(r) && !is_mask(layer)) pixel->unread[layer] = true;\n"
     "    else if (!is_coded(r) || !is_inside(r, k, x, work->call->line)) {"),
    ("line.c", "unread masks share one bit", "            number /= PROBES;",
     "            if (!is_mask(layer)) number /= PROBES;"),
    ("line.c", "colours compared by their first octet", "compose(pixel) != *colour",
     "compose(pixel) / 65536 != *colour / 65536"),
    ("line.c", "colours compared without their third octet", "compose(pixel) != *colour",
     "compose(pixel) / 256 != *colour / 256"),
    ("line.c", "seen in 0 0 0 is unseen", "octets[3] = seen ? 1 : 0;",
     "octets[3] = seen && colour != 0;"),
    ("line.c", "seen is 255", "octets[3] = seen ? 1 : 0;", "octets[3] = seen ? 255 : 0;"),
    ("line.c", "a colour shown that is not seen", "uint32_t shown = seen ? colour : unseen;",
     "uint32_t shown = colour;"),
    ("line.c", "a colour's octets backward", "octets[0] = (uint8_t)(shown / 65536);",
     "shown = shown % 256 * 65536 + shown / 256 % 256 * 256 + shown / 65536;\n"
     "    octets[0] = (uint8_t)(shown / 65536);"),
]


def found_by(program, asked):
    """The first call of the table whose answer or line is not the table's."""
    answers = reference_run.call_many(program, [case for _, case, _ in asked])
    return next((what for (what, _, due), got in zip(asked, answers) if got != due), None)


def groups_of(cases):
    """(call, what is asked of it): those first that take the least, few records."""
    for few in (True, False):
        chosen = [case for case in cases if (len(case.sheet) <= MANY) == few]
        yield "line", [case.asked(None) for case in chosen]
        yield "line_unseen", [case.asked(unseen) for case in chosen
                              for unseen in case.unseens()[1:4 if few else 2]]


def main():
    names, groups = zip(*groups_of(line_making.table()))
    of_calls = [(file, "%s: %s" % (call, what), old, new) for call, what, file, old, new
                in faults_unseen.OF_COLOUR + faults_unseen.OF_LENT]
    faults = FAULTS + faults_unseen.SHARED + faults_grey.OF_LINE + faults_grey.THROUGH + of_calls
    return planting.check_table("line", faults, groups, found_by, names)


if __name__ == "__main__":
    sys.exit(main())
