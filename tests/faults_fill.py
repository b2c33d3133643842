"""Faults of fill before markers: for tests/faults_page.py, and those that more than a place tells
of for tests/faults_write.py: (file, what goes wrong, the text of the file, the text in its place);
some of them for tests/faults_boundary.py too, with the call before them.

The wrong programs of request 2026-03 are among them.
"""

RUN = "walk->page[at] == 0xFF) {\n        at += 1;"
CODE = "switch (class_of(marker.code)) {"
CUT = "if (!read_marker(walk, due, &marker)) {\n        return stop(walk, SHORT, due);"
CUT_DATA = "break;\n        } else if (is_data"
IN_SCAN = "walk->at = marker.place;"
TAGGED = "    size_t body = marker.behind + 2;\n    /* \"Before the frame"
BEHIND = "walk->layer.resolution = resolution;\n    }\n    walk->at = marker.behind + length;"
LAST_FF = "marker.behind - 2"


def longest(what, most):
    """A run that is read up to some length only, so that its next FF is taken for a code."""
    return "jpeg.c", what, RUN, RUN.replace("0xFF)", "0xFF && at - place < %d)" % most)


def skipped(what, of_code):
    """What is a fault outside a scan is passed by, with its run."""
    return ("jpeg.c", what, CODE, "if (%s) {\n        walk->at = marker.behind;\n"
            "        return true;\n    }\n    %s" % (of_code, CODE))


def refused(what, case):
    """No fill before the markers of a class."""
    return "jpeg.c", what, case, case.replace(":", ": if (marker.run > 1) break;", 1)


# what the walk takes and what it does not
OF_WALK = [
    longest("one FF only", 1),
    longest("a run of at most two", 2),
    longest("a run of at most 63", 63),
    longest("a run of at most 65,535", 65535),
    refused("no fill before FF 01", "case STANDS_ALONE: walk->at"),
    refused("no fill before a frame", "case FRAME: return"),
    refused("no fill before a scan", "case SCAN: return"),
    refused("no fill before the end", "case END: return"),
    refused("no fill before a segment", "case WITH_LENGTH: return"),
    ("jpeg.c", "fill outside a scan only", IN_SCAN,
     "if (marker.run > 1) return stop(walk, BAD_LAYER, at);\n            " + IN_SCAN),
    ("jpeg.c", "fill in a scan only", CODE,
     "if (marker.run > 1 && !walk->has_scan) return stop(walk, BAD_LAYER, due);\n    " + CODE),
    ("jpeg.c", "FF FF 00 is FF and data", "return marker.run == 1;", "return true;"),
    ("jpeg.c", "FF FF 00 is data, a longer run not", "return marker.run == 1;",
     "return marker.run <= 2;"),
    ("jpeg.c", "FF 00 ends a scan", "return marker.run == 1;", "return false;"),
    ("jpeg.c", "FF FF D3 ends a scan", "return marker.code >= 0xD0",
     "return marker.run == 1 && marker.code >= 0xD0"),
    ("jpeg.c", "restart markers behind fill only", "return marker.code >= 0xD0",
     "return marker.run > 1 && marker.code >= 0xD0"),
    skipped("FF FF 00 before a scan is skipped",
            "marker.code == 0x00 && marker.run > 1 && !walk->has_scan"),
    skipped("FF FF 00 behind a scan is skipped",
            "marker.code == 0x00 && marker.run > 1 && walk->has_scan"),
    skipped("FF FF D3 outside a scan is skipped",
            "marker.code >= 0xD0 && marker.code <= 0xD7 && marker.run > 1"),
    skipped("FF FF D8 behind FF D8 is skipped", "marker.code == 0xD8 && marker.run > 1"),
    ("jpeg.c", "fill before FF D8", "size_t start = walk->at;",
     "size_t start = walk->at;\n    while (fits(walk, start, 3) && walk->page[start] == 0xFF &&\n"
     "           walk->page[start + 1] == 0xFF)\n        start += 1;"),
    ("jpeg.c", "00 is fill", "size_t due = walk->at;",
     "size_t due = walk->at;\n    while (fits(walk, due, 3) && walk->page[due] == 0) due += 1;"),
    ("jpeg.c", "any octet is fill", "size_t due = walk->at;",
     "size_t due = walk->at;\n    while (fits(walk, due, 3) && walk->page[due] != 0xFF) due += 1;"),
    ("jpeg.c", "fill taken in a body, behind its length", TAGGED,
     TAGGED.replace("2;\n", "2;\n    uint32_t left = length - 2;\n"
                    "    for (; left > 0 && walk->page[body] == 0xFF; left--)\n"
                    "        body += 1, marker.behind += 1;\n", 1)),
    ("jpeg.c", "fill taken between a code and its length",
     "    if (!fits(walk, field, 2)) {",
     "    while (fits(walk, field, 3) && walk->page[field] == 0xFF) field += 1;\n"
     "    if (!fits(walk, field, 2)) {"),
    ("jpeg.c", "a body's last FF begins the next run", BEHIND,
     BEHIND + "\n    if (walk->page[walk->at - 1] == 0xFF) walk->at -= 1;"),
    ("jpeg.c", "a scan header's last FF begins the next run", "size_t at = data;",
     "size_t at = data - 1;"),
    ("jpeg.c", "what stands behind a marker is counted from its first FF",
     "marker->behind = at + 1;", "marker->behind = place + 2;"),
    ("jpeg.c", "a layer ends two octets behind its last run's first FF",
     "walk->layer.end = marker.behind;", "walk->layer.end = marker.place + 2;"),
]

# where a fault is told, and what only a reader does
OF_PLACES = [
    ("jpeg.c", "every marker at its last FF", "marker->place = place;", "marker->place = at - 1;"),
    ("jpeg.c", "the marker behind scan data at its last FF", IN_SCAN, "walk->at = %s;" % LAST_FF),
    ("jpeg.c", "a wrong code at its last FF",
     "case FAULT: break;\n    }\n    return stop(walk, BAD_LAYER, marker.place);",
     "case FAULT: break;\n    }\n    return stop(walk, BAD_LAYER, %s);" % LAST_FF),
    *(("jpeg.c", "%s at the last FF" % what,
       "if (%s) {\n        return stop(walk, BAD_LAYER, marker.place);" % test,
       "if (%s) {\n        return stop(walk, BAD_LAYER, %s);" % (test, LAST_FF))
      for what, test in (("a second frame", "walk->has_frame"),
                         ("a missing resolution", "!walk->has_resolution"),
                         ("a missing frame", "!walk->has_frame"),
                         ("a missing scan", "!walk->has_scan"))),
    ("jpeg.c", "a cut run outside a scan at its last FF", CUT,
     CUT.replace("SHORT, due", "SHORT, walk->octets - 1")),
    ("jpeg.c", "a cut run outside a scan at the page's end", CUT,
     CUT.replace("SHORT, due", "SHORT, walk->octets")),
    ("jpeg.c", "a cut run outside a scan is BadLayer", CUT, CUT.replace("SHORT", "BAD_LAYER")),
    ("jpeg.c", "a cut run in scan data at its first FF", CUT_DATA,
     CUT_DATA.replace("break;", "return stop(walk, SHORT, at);")),
    ("jpeg.c", "a cut run of two or more in scan data at its first FF", CUT_DATA,
     CUT_DATA.replace("break;", "return stop(walk, SHORT, fits(walk, at, 2) ? at : data);")),
    ("jpeg.c", "a cut run in scan data is BadLayer", CUT_DATA,
     CUT_DATA.replace("break;", "return stop(walk, BAD_LAYER, at);")),
    ("jpeg.c", "a single octet where a marker is due is judged", "if (!fits(walk, due, 2)) {",
     "if (fits(walk, due, 1) && walk->page[due] != 0xFF) return stop(walk, BAD_LAYER, due);\n"
     "    if (!fits(walk, due, 2)) {"),
    ("stripe.c", "FF behind a layer is passed by", "reading->at = layer.end;",
     "reading->at = layer.end;\n    while (reading->octets - reading->at > 2 &&\n"
     "           number_at(reading, reading->at, 2) == 0xFFFF)\n        reading->at += 1;"),
    ("reading.c", "fill before a page's marker that is due", "size_t field;\n    if (!read_field(",
     "size_t field;\n    while (reading->octets - reading->at > 2 &&\n"
     "           number_at(reading, reading->at, 2) == 0xFFFF)\n        reading->at += 1;\n"
     "    if (!read_field("),
    ("page.c", "fill before a segment's marker", "size_t marker;\n",
     "size_t marker;\n        while (reading->octets - reading->at > 2 &&\n"
     "               number_at(reading, reading->at, 2) == 0xFFFF)\n"
     "            reading->at += 1;\n"),
]

# those that a few hundred random cases of a call must meet
OFTEN = ("one FF only", "a run of at most two", "no fill before the end", "fill outside a scan only",
         "FF FF 00 is FF and data", "FF FF D3 ends a scan", "fill before FF D8",
         "fill taken in a body, behind its length", "every marker at its last FF")
OF_CALLS = [(call, what, file, old, new)
            for call, faults in (("read", OF_WALK + OF_PLACES), ("write", OF_WALK))
            for file, what, old, new in faults if what in OFTEN]
