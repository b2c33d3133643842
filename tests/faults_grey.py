"""Faults of grey layers, for the other programs that plant faults: (file, what goes wrong, the text
of the file, the text in its place); and some of them for tests/faults_boundary.py, with the call
before them.

The wrong programs of request 2026-07 are among them, but for one: contents of an unread grey layer
with every colour give every pixel that the greys give, since two values are enough to tell.
"""

# sheet.c, and the listing

JPEG = "bool is_jpeg = is_coded(r) && !is_even(r.layer) && r.coder == 1;"
RULE = "return r.grey != 0 && !(r.grey == 1 && is_jpeg);"


def jpeg_layers(what, which):
    """Other records are taken for JPEG layers."""
    return "sheet.c", what, JPEG, "bool is_jpeg = %s;" % which


def rule(what, breaks):
    return "sheet.c", what, RULE, "return %s;" % breaks


OF_SHEET = [
    rule("octet 17 free", "false"),
    rule("octet 17 is 0, as before", "r.grey != 0"),
    rule("octet 17 must be 1 in JPEG layers", "r.grey != (is_jpeg ? 1 : 0)"),
    rule("octet 17 of 2 taken", "r.grey != 0 && !(r.grey <= 2 && is_jpeg)"),
    rule("octet 17 of 3 taken", "r.grey != 0 && !((r.grey == 1 || r.grey == 3) && is_jpeg)"),
    rule("any octet 17 of a JPEG layer", "r.grey != 0 && !is_jpeg"),
    rule("only the lowest bit of octet 17", "r.grey % 2 != 0 && !is_jpeg"),
    rule("octet 17 judged in stripe 0 only", "r.stripe == 0 && r.grey != 0 && !is_jpeg"),
    jpeg_layers("octet 17 on masks", "is_coded(r) && r.coder == 1"),
    jpeg_layers("octet 17 on masks of any coder", "is_coded(r)"),
    jpeg_layers("octet 17 on masks above 2", "is_coded(r) && r.coder == 1 && r.layer != 2"),
    jpeg_layers("octet 17 on uncoded image layers", "!is_even(r.layer)"),
    jpeg_layers("octet 17 on uncoded layers above 3",
                "!is_even(r.layer) && (is_coded(r) || r.layer > 3)"),
    jpeg_layers("octet 17 in any record", "true"),
    jpeg_layers("octet 17 of layer 1 only", "is_coded(r) && r.layer == 1"),
    jpeg_layers("octet 17 of layers 1 and 3 only",
                "is_coded(r) && !is_even(r.layer) && r.layer < 4"),
    jpeg_layers("no octet 17 of layer 15", "is_coded(r) && !is_even(r.layer) && r.layer < 15"),
]
# those that show through every call that is lent a sheet
THROUGH = [fault for fault in OF_SHEET if fault[1] in (
    "octet 17 free", "octet 17 is 0, as before", "octet 17 must be 1 in JPEG layers",
    "octet 17 of 2 taken", "any octet 17 of a JPEG layer", "octet 17 on masks",
    "octet 17 on uncoded image layers", "octet 17 in any record")]
OF_LISTING = [
    ("console.c", "a listing without octet 17", "r.length,     r.grey}", "r.length}"),
    ("console.c", "octet 17 before start and length", "r.start,  r.length,     r.grey}",
     "r.grey, r.start, r.length}"),
]

# the walk: jpeg.c

COUNT = "walk->layer.components = walk->page[body + 5];"
OTHER = "if (walk->layer.components != 1 && walk->layer.components != 3) {"
AT = "return stop(walk, BAD_LAYER, body + 5);"
IS_OTHER = "walk->page[body + 5] != 1 && walk->page[body + 5] != 3"
IN_SCAN = "    walk->has_scan = true;\n"


def counted(what, components):
    """Another count than that of the frame."""
    return "jpeg.c", what, COUNT, "walk->layer.components = %s;" % components


def taken(what, other):
    """Other counts are refused; `c` is the count."""
    return "jpeg.c", what, OTHER, "if (%s) {" % other.replace("c", "walk->layer.components")


def before(what, text, code):
    return "jpeg.c", what, text, code + text


# a writer has no record that such a count agrees with
OF_COUNTS = [
    taken("no component taken", "c > 3 || c == 2"),
    taken("two components taken", "c < 1 || c > 3"),
    taken("four components taken", "c != 1 && c != 3 && c != 4"),
    taken("255 components taken", "c != 1 && c != 3 && c != 255"),
    taken("any count taken", "false"),
]
OF_WALK = [
    taken("only three components taken", "c != 3"),
    taken("only one component taken", "c != 1"),
    counted("seven bits of the count", "walk->page[body + 5] % 128"),
    counted("three wherever it is not one", "walk->page[body + 5] == 1 ? 1 : 3"),
    counted("one wherever it is not three", "walk->page[body + 5] == 3 ? 3 : 1"),
    counted("three always", "3"),
    counted("the fifth octet of the body", "walk->page[body + 4]"),
    counted("the seventh octet of the body", "walk->page[body + 6]"),
    counted("the body's last octet", "walk->page[marker.behind + length - 1]"),
    before("the scan header's count handed back", IN_SCAN,
           "    walk->layer.components = length > 2 ? walk->page[marker.behind + 2] : 3;\n"),
    before("the scan header's count judged too", IN_SCAN,
           "    if (length > 2 && walk->page[marker.behind + 2] != walk->layer.components)\n"
           "        return stop(walk, BAD_LAYER, marker.behind + 2);\n"),
    before("the frame's length judged by its count", "    " + OTHER,
           "    if (length != 8 + 3 * walk->layer.components)\n"
           "        return stop(walk, BAD_LENGTH, marker.behind);\n"),
    before("a frame of more than three components' length", "    " + OTHER,
           "    if (length > 17) return stop(walk, BAD_LENGTH, marker.behind);\n"),
]

# where a count is refused, and what only a reader does
OF_PLACES = [
    before("the count judged before the height",
           "    walk->layer.height = two_octets(walk, body + 1);\n",
           "    if (%s) return stop(walk, BAD_LAYER, body + 5);\n" % IS_OTHER),
    before("the count judged before the width",
           "    walk->layer.width = two_octets(walk, body + 3);\n",
           "    if (%s) return stop(walk, BAD_LAYER, body + 5);\n" % IS_OTHER),
    before("the count judged before the second frame", "    if (walk->has_frame) {\n",
           "    if (fits(walk, marker.behind, 8) && walk->page[marker.behind + 7] == 2)\n"
           "        return stop(walk, BAD_LAYER, marker.behind + 7);\n"),
    before("the count judged before the body's end", "    if (!read_length(walk, marker.behind, 8,",
           "    if (fits(walk, marker.behind, 8) && walk->page[marker.behind + 7] == 2)\n"
           "        return stop(walk, BAD_LAYER, marker.behind + 7);\n"),
    *(("jpeg.c", "another count at " + what, AT, "return stop(walk, BAD_LAYER, %s);" % place)
      for what, place in (("the frame's marker", "marker.place"), ("the body's start", "body"),
                          ("the width", "body + 3"), ("the octet behind it", "body + 6"))),
    ("jpeg.c", "another count is BadLength", AT, AT.replace("BAD_LAYER", "BAD_LENGTH")),
    ("jpeg.c", "another count is Short", AT, AT.replace("BAD_LAYER", "SHORT")),
]

# reading: stripe.c and page.c

GREY = "record->grey = layer.components == 1 ? 1 : 0;"


def kept(what, grey):
    return "stripe.c", what, GREY, "record->grey = %s;" % grey


OF_READ = [
    kept("octet 17 is the count", "layer.components"),
    kept("octet 17 is 0 always", "0"),
    kept("octet 17 is 1 always", "1"),
    kept("octet 17 is 1 for three components", "layer.components == 3 ? 1 : 0"),
    kept("octet 17 of the background only", "record->layer == 1 && layer.components == 1"),
    kept("octet 17 of the foreground only", "record->layer == 3 && layer.components == 1"),
    kept("octet 17 of stripe 0 only", "record->stripe == 0 && layer.components == 1"),
    ("stripe.c", "octet 17 on masks", "record->length = stripe->mask_length;",
     "record->length = stripe->mask_length;\n    record->grey = 1;"),
    ("stripe.c", "octet 17 in uncoded records", "record.resolution = reading->main_resolution;",
     "record.resolution = reading->main_resolution;\n    record.grey = 1;"),
    ("page.c", "octet 17 left as it was", "    put(octets, 17, 1, record->grey);\n", ""),
]

# writing: write.c

AGREES = "if (layer.components != (r.grey == 1 ? 1 : 3)) {"
SHORT = "    if (is_short(source, r)) {\n        return SHORT;\n    }\n    if (r.layer == 2) {"


def written(what, disagrees):
    return "write.c", what, AGREES, "if (%s) {" % disagrees


OF_WRITE = [
    written("octet 17 ignored in writing", "false"),
    written("a grey record of any data", "r.grey == 0 && layer.components != 3"),
    written("a coloured record of any data", "r.grey == 1 && layer.components != 1"),
    written("octet 17 the other way round", "layer.components != (r.grey == 1 ? 3 : 1)"),
    written("octet 17 of layer 1 only", "r.layer == 1 && layer.components != (r.grey == 1 ? 1 : 3)"),
    written("octet 17 of layer 3 only", "r.layer == 3 && layer.components != (r.grey == 1 ? 1 : 3)"),
    written("octet 17 of stripe 0 only",
            "r.stripe == 0 && layer.components != (r.grey == 1 ? 1 : 3)"),
    written("octet 17 compared with the count", "layer.components != r.grey"),
    ("write.c", "octet 17 before Short", SHORT,
     "    if (r.layer != 2 && r.start < source->octets && jpeg_walk(source->data + r.start,\n"
     "        source->octets - r.start, 0, 1200).components != (r.grey == 1 ? 1 : 3))\n"
     "        return MISMATCH;\n" + SHORT),
]

# lines: line.c

SIZE = "return is_mask(r.layer) || is_grey(r) ? 1 : 3;"
COLOUR = "return colour_of(lightness, 128, 96);"
IS_GREY = "return r.grey == 1;"
UNREAD = "        pixel->unread[layer] = true;\n        pixel->grey[layer] = is_grey(r);\n"
BASE = "return colour_of(r.colour[0], r.colour[1], r.colour[2]);"
FOUND = ("        struct record r = sheet_record(call->sheet, i);\n"
         "        if (r.stripe == call->stripe) {")


def coloured(what, octets):
    """Another colour of a grey sample; `v` is its octet."""
    return "line.c", what, COLOUR, "return colour_of(%s);" % octets.replace("v", "lightness")


def known(what, colour):
    """An unread grey sample is taken for known."""
    return ("line.c", "unread grey taken as " + what, UNREAD,
            "        if (is_grey(r)) pixel->value[layer] = %s;\n"
            "        else pixel->unread[layer] = true;\n" % colour)


OF_LINE = [
    ("line.c", "three octets a grey sample", SIZE, "return is_mask(r.layer) ? 1 : 3;"),
    ("line.c", "two octets a grey sample", SIZE,
     "return is_mask(r.layer) ? 1 : is_grey(r) ? 2 : 3;"),
    ("line.c", "one octet a sample wherever a layer is grey", SIZE,
     "static bool any; any = any || is_grey(r); return is_mask(r.layer) || any ? 1 : 3;"),
    ("line.c", "three octets a grey sample when judged", "r.height * sample_size(r)",
     "r.height * (is_mask(r.layer) ? 1 : 3)"),
    ("line.c", "three octets a grey sample when read", "number * sample_size(r))",
     "number * (is_mask(r.layer) ? 1 : 3))"),
    ("line.c", "an octet of a grey plane may lack", "plane.start + size > work->call",
     "plane.start + size > is_grey(r) + work->call"),
    ("line.c", "a grey plane may not end with the samples", "plane.start + size > work->call",
     "plane.start + size + is_grey(r) > work->call"),
    ("line.c", "rows of a grey plane in fours", "uint64_t number = row * r.width + column;",
     "uint64_t number = row * (is_grey(r) ? (r.width + 3) / 4 * 4 : r.width) + column;"),
    ("line.c", "grey samples at the main resolution", "uint64_t column = (x - r.x) / k;",
     "uint64_t column = (x - r.x) / (is_grey(r) ? 1 : k);"),
    coloured("(v, v, v)", "v, v, v"),
    coloured("(v, 96, 128)", "v, 96, 128"),
    coloured("(v, 128, 128)", "v, 128, 128"),
    coloured("(v, 0, 0)", "v, 0, 0"),
    coloured("(v, 128, 97)", "v, 128, 97"),
    coloured("(128, 96, v)", "128, 96, v"),
    coloured("lightness upside down", "255 - v, 128, 96"),
    coloured("seven bits of lightness", "v % 128, 128, 96"),
    coloured("a lightness of 0 is 0 0 0", "v, v ? 128 : 0, v ? 96 : 0"),
    ("line.c", "grey in layer 1 only", IS_GREY, "return r.grey == 1 && r.layer == 1;"),
    ("line.c", "grey in layers 1 and 3 only", IS_GREY, "return r.grey == 1 && r.layer < 4;"),
    ("line.c", "no grey in layer 15", IS_GREY, "return r.grey == 1 && r.layer != 15;"),
    ("line.c", "no grey", IS_GREY, "return false;"),
    ("line.c", "every image layer grey", IS_GREY, "return r.layer % 2 == 1;"),
    ("line.c", "grey as in stripe 0", FOUND, FOUND.replace("        if (", (
        "        for (size_t j = 0; j < 15 && j < call->sheet_octets / RECORD_OCTETS; j++)\n"
        "            if (sheet_record(call->sheet, j).stripe == 0 &&\n"
        "                sheet_record(call->sheet, j).layer == r.layer)\n"
        "                r.grey = sheet_record(call->sheet, j).grey;\n        if ("))),
    ("line.c", "a grey layer's base colour in grey", BASE,
     "if (is_grey(r)) return grey_of(r.colour[0]);\n        " + BASE),
    known("black", "grey_of(0)"),
    known("white", "grey_of(255)"),
    known("the grey of unseen pixels", "grey_of(128)"),
    known("its base colour", "value_outside(work, r)"),
    known("what is below it", "layer > 2 ? pixel->value[layer - 2] : 0"),
    ("line.c", "one lightness of unread grey", "grey_of(lightness++)", "grey_of(lightness)"),
    ("line.c", "colours compared without their lightness", "compose(pixel) != *colour",
     "compose(pixel) % 65536 != *colour % 65536"),
]

# those that a few hundred random cases of a call must meet
OFTEN = {
    "read": ("two components taken", "any count taken", "only three components taken",
             "the scan header's count handed back", "octet 17 is the count", "octet 17 is 0 always",
             "octet 17 on masks", "another count at the frame's marker"),
    "write": ("octet 17 ignored in writing", "a coloured record of any data",
              "only three components taken", "the scan header's count handed back"),
    "line": ("three octets a grey sample", "(v, v, v)", "(v, 96, 128)", "no grey",
             "unread grey taken as black", "an octet of a grey plane may lack"),
    "judge": ("octet 17 free", "octet 17 is 0, as before", "octet 17 on masks",
              "octet 17 on uncoded image layers", "any octet 17 of a JPEG layer"),
    "data": ("octet 17 is 0, as before", "octet 17 free"),
}
OFTEN["line_unseen"] = OFTEN["line"]
ALL_OF = {"read": OF_COUNTS + OF_WALK + OF_PLACES + OF_READ, "write": OF_WALK + OF_WRITE,
          "line": OF_LINE, "line_unseen": OF_LINE, "judge": OF_SHEET, "data": OF_SHEET}
OF_CALLS = [(call, what, file, old, new) for call, faults in ALL_OF.items()
            for file, what, old, new in faults if what in OFTEN[call]]
