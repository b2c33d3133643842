"""Plants faults in the reference, one at a time, and puts it in the library's place; the cases of
tests/test_boundary.py, far fewer of them, have to find each.

Most are faults of the boundary: an octet beside a buffer written, an input
changed, a number or a count that is not due, something kept from call to call.
The tables of answers find the others too; here random cases do.
"""

import os
import random
import sys
import threading

import boundary_making
import calls
import faults_fill
import faults_grey
import faults_painting
import faults_unseen
import fuzz
import planting
import reference_run

SEED = 20
COUNT = reference_run.trials(200)    # good cases, and as many damaged
READ, WRITE, LINE, DATA, JUDGE, LINE_UNSEEN, BAND = (
    "    return same;", "    return told;", "    return shown;", "    return handed;",
    "    return judged;", "    return given;", "    return painted;")
LINE_INPUTS = [("sheet", "sheet_len"), ("planes", "planes_len"), ("samples", "samples_len")]


def before(answer, code):
    """Code before an exported call gives its answer."""
    return "as_library.c", answer, "    %s\n%s" % (code, answer)


def lent(call, answer, out, size, inputs):
    """Faults in what is lent, the same for each call that writes: (call, what, file, old, new)"""
    variable = answer.split()[1].rstrip(";")
    for what, code in [
            ("an octet behind the buffer written", "if (%s) %s[%s] ^= 1;" % (size, out, size)),
            ("an octet before the buffer written", "if (%s) %s[-1] ^= 1;" % (size, out)),
            ("a refusal changes the first octet",
             "if (%s.number && %s) %s[0] ^= 1;" % (variable, size, out)),
            ("a refusal changes the last octet",
             "if (%s.number && %s) %s[%s - 1] ^= 1;" % (variable, size, out, size)),
            ("NoRoom fills the buffer",
             "for (size_t k = 0; %s.number == 13 && k < %s; k++) %s[k] = 0;"
             % (variable, size, out))]:
        yield (call, what, *before(answer, code))
    for name, length in inputs:
        yield (call, "the %s changed" % name,
               *before(answer, "if (%s) ((uint8_t *)%s)[%s - 1] ^= 1;" % (length, name, length)))
        yield (call, "an octet behind the %s read" % name,
               *before(answer, "*(volatile const uint8_t *)(%s + %s);" % (name, length)))


def answered(call, answer):
    """Faults in the answer itself, the same for each call."""
    variable = answer.split()[1].rstrip(";")
    for what, code in [
            ("a number too high by one where it is 14 or 2",
             "if (%s.number == 14 || %s.number == 2) %s.number++;" % ((variable,) * 3)),
            ("a place too high by one", "if (%s.place) %s.place++;" % ((variable,) * 2)),
            ("a count with a refusal", "if (%s.number) %s.count = 1;" % ((variable,) * 2)),
            ("a place with Done", "if (!%s.number) %s.place = 1;" % ((variable,) * 2)),
            ("every fifth call answers as the one before", "static unsigned calls; static "
             "__typeof__(%s) last; if (++calls %% 5 == 0) %s = last; last = %s;"
             % ((variable,) * 3)),
            ("a count too high by one", "if (%s.count) %s.count++;" % ((variable,) * 2))]:
        yield (call, what, *before(answer, code))


# what a few hundred random bands must meet
OF_PAINTING = [(what, "band.c", old, new) for what, old, new in faults_painting.ALL if what in (
    "an unknown mask keeps the lower colour", "the crop in samples and not in main pixels",
    "the image layer's area for the crop", "the mask's area for the image",
    "a crop's columns kept from pair to pair", "leftovers of the buffer outside layer 1",
    "a row too few below", "a column too few at the left", "lines from the bottom up",
    "from the highest pair down", "no virtual mask", "x divided before the offset is taken away",
    "no grey", "what is behind the last whole block left out")]

# (call, what goes wrong, file, the text of the file, the text in its place)
FAULTS = [
    *lent("read", READ, "sheet", "sheet_len", [("page", "page_len")]),
    *answered("read", READ),
    ("read", "null refused", *before(READ, "if (page == NULL) same.place = 1;")),
    ("read", "octets past the sheet 0", *before(
        READ, "for (size_t k = 28 * same.count; !same.number && k < sheet_len; k++) sheet[k] = 0;")),
    ("read", "TooLong an octet early", "page.c", "16777215", "16777214"),
    ("read", "TooLong an octet late", "page.c", "16777215", "16777216"),
    *lent("write", WRITE, "page", "page_len", [("sheet", "sheet_len"), ("data", "data_len")]),
    *answered("write", WRITE),
    ("write", "octets past the page 0", *before(
        WRITE, "for (size_t k = told.count; !told.number && k < page_len; k++) page[k] = 0;")),
    ("write", "TooLong not told", *before(WRITE, "if (told.number == 18) told.number = 13;")),
    ("write", "an octet of the page", *before(WRITE, "if (told.count > 40) page[40] ^= 1;")),
    *lent("line", LINE, "out", "out_len", LINE_INPUTS),
    *answered("line", LINE),
    *lent("line_unseen", LINE_UNSEEN, "out", "out_len", LINE_INPUTS),
    *answered("line_unseen", LINE_UNSEEN),
    *lent("band", BAND, "out", "out_len", LINE_INPUTS),
    *answered("band", BAND),
    *(("band", what, *fault) for what, *fault in OF_PAINTING),
    *faults_unseen.OF_COLOUR,
    *faults_unseen.OF_BAND,
    *faults_fill.OF_CALLS,
    *faults_grey.OF_CALLS,
    ("line", "octets past the line 0", *before(
        LINE, "for (size_t k = shown.count; !shown.number && k < out_len; k++) out[k] = 0;")),
    ("line", "the last pixel seen", *before(LINE, "if (shown.count) out[shown.count - 1] = 1;")),
    ("line", "an odd address refused", *before(
        LINE, "if ((uintptr_t)planes % 2 && planes_len) shown.number = 15, shown.count = 0;")),
    *answered("data", DATA),
    ("data", "the sheet changed", *before(
        DATA, "if (sheet_len) ((uint8_t *)sheet)[0] ^= 1;")),
    ("data", "the page changed", *before(DATA, "if (page_len) ((uint8_t *)page)[0] ^= 1;")),
    ("data", "the pencil file changed", *before(
        DATA, "if (pencil_len) ((uint8_t *)pencil)[pencil_len - 1] ^= 1;")),
    ("data", "an octet behind the pencil file read", *before(
        DATA, "*(volatile const uint8_t *)(pencil + pencil_len);")),
    ("data", "an empty part of the pencil file", *before(
        DATA, "if (!handed.number && layer > 3) handed.source = 1;")),
    ("data", "a start too high by one", *before(DATA, "if (handed.count) handed.start++;")),
    ("data", "layer 3 in the pencil file", "data.c", "r.layer <= 3", "r.layer < 3"),
    ("data", "a part may not end with its source", "data.c", "r.length > octets",
     "r.length >= octets"),
    *answered("judge", JUDGE),
    ("judge", "the sheet changed", *before(
        JUDGE, "if (sheet_len) ((uint8_t *)sheet)[sheet_len - 1] ^= 1;")),
    ("judge", "an octet behind the sheet read", *before(
        JUDGE, "*(volatile const uint8_t *)(sheet + sheet_len);")),
    ("judge", "null taken", *before(
        JUDGE, "if (sheet == NULL) judged.number = 0;")),
    ("judge", "octets counted", *before(JUDGE, "if (judged.count) judged.count = sheet_len;")),
    ("judge", "stripes counted", "as_library.c", "verdict.place, verdict.records}",
     "verdict.place, verdict.stripes}"),
    # the sheet's rules, through each call that is lent one
    ("judge", "a coder that no mask has", "sheet.c", "coder == 8", "coder >= 8"),
    ("write", "a coder that no mask has", "sheet.c", "coder == 8", "coder >= 8"),
    ("line", "any coder of an image layer", "sheet.c", "!is_even(r.layer) && r.coder != 1",
     "!is_even(r.layer) && r.coder > 200"),
    ("data", "a sum of 2^32 taken", "sheet.c", ">= UINT64_C(4294967296)",
     "> UINT64_C(4294967296)"),
]


class Due:
    """The cases of each call and what the sound reference answers, made once."""

    def __init__(self):
        self.made, self.one = {}, threading.Lock()

    def of(self, call):
        with self.one:
            return self.made.get(call.name) or self.make(call)

    def make(self, call):
        sound = reference_run.build("reference_%s_plain" % call.name,
                                    parts=reference_run.parts_of(call.name))
        batches = list(boundary_making.batches(call, random.Random(SEED), COUNT, 1))
        if call.name == "read":
            longest = bytes(boundary_making.LONGEST)
            batches.append(("longest", [(longest, 84), (longest[:-1], 84)]))
        self.made[call.name] = [(what, cases, call.answers(sound, cases))
                                for what, cases in batches]
        return self.made[call.name]


def found_by(program, call, due):
    """The first case that a faulty library answers otherwise, and where it stands; or None."""
    for what, cases, answers in due.of(call):
        got = call.answers(program, cases)
        wrong = next((k for k in range(len(cases)) if got[k] != answers[k]), None)
        if wrong is not None:
            return "%s, case %d: %s for %s" % (what, wrong, got[wrong][0][:60],
                                               answers[wrong][0]), cases[wrong]
    return None


def main():
    tally, due = reference_run.Tally(), Due()
    kept = os.environ.get("FUZZ_CASES")     # where found cases are put, if anywhere

    def first(planted, number):
        name = FAULTS[number][0]
        program = planted.build(reference_run.parts_of(name))
        found = found_by(program, calls.ALL[name], due)
        if found and kept:
            fuzz.keep(name, found[1], kept)
        return found and found[0]

    planting.check_all(tally, "faults_boundary", [
        (file, "%s: %s" % (name, what), old, new) for name, what, file, old, new in FAULTS], first)
    return tally.end()


if __name__ == "__main__":
    sys.exit(main())
