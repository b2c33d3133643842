"""Plants faults in the reference, one at a time; each has to be found.

A fault is found when the faulty build and the sound one list a sheet of the
table, or else a random one, differently. So a rule that no sheet tests shows
here, as a fault that nobody finds.
"""

import random
import sys

import calls
import faults_grey
import planting
import reference_run
import sheet_making
import sheet_random

RANDOM_SHEETS = reference_run.trials(300)
SEED = 1

# (what goes wrong, the text of sheet.c, the text in its place)
FAULTS = [
    ("least significant octet first",
     "number * 256 + octets[at + k]", "number * 256 + octets[at + size - 1 - k]"),
    ("the stripe's first octet is not read",
     "RECORD_OCTETS, 0, 2)", "RECORD_OCTETS, 1, 1)"),
    ("octet 27 is not read",
     "number_at(octets, 26, 2)", "number_at(octets, 26, 1)"),
    ("a length's top octet is not read",
     "number_at(octets, 22, 4)", "number_at(octets, 23, 3)"),
    ("coded by the coder and not the length", "return r.length != 0;", "return r.coder != 0;"),
    ("stripes may come back", "before.stripe > r.stripe", "before.stripe > r.stripe + 64"),
    ("a 65th stripe", "r.stripe >= 64)", "r.stripe > 64)"),
    ("layer 0", "r.layer < 1)", "r.layer > 255)"),
    ("a layer twice", "return find(sheet, i, r.stripe, r.layer, &other);", "return false;"),
    ("a gap in layers", "if (!find(sheet, i, r.stripe, layer, &other))",
     "if (!find(sheet, i, r.stripe, 1, &other))"),
    ("even N", "n % 2 == 1 && n >= 3", "n >= 3"),
    ("N of 1", "n % 2 == 1 && n >= 3", "n % 2 == 1 && n >= 1"),
    ("a layer above 15 is seen only at the end", "r.layer > 15)", "r.layer > 17)"),
    ("N judged in the last stripe only", "!is_good_n(records_of_stripe(sheet, i, stripe))",
     "records_of_stripe(sheet, i, stripe) == 0"),
    ("N judged by stripe 0 at the end", "records_of_stripe(sheet, whole, last_stripe)",
     "records_of_stripe(sheet, whole, 0)"),
    ("mask coder 8 refused", " || r.coder == 8;", ";"),
    ("mask coder 3 taken", "r.coder == 2 ||", "r.coder == 2 || r.coder == 3 ||"),
    ("image coder 2 taken", "&& r.coder != 1)", "&& r.coder != 1 && r.coder != 2)"),
    ("coded height 0", "if (r.width == 0 || r.height == 0)", "if (r.width == 0)"),
    ("start plus length 2^32", ">= UINT64_C(4294967296)", "> UINT64_C(4294967296)"),
    ("start plus length wraps", "(uint64_t)r.start + (uint64_t)r.length",
     "(uint64_t)(uint32_t)(r.start + r.length)"),
    ("uncoded with a start", "r.coder != 0 || r.start != 0", "r.coder != 0"),
    ("uncoded with a coder", "r.coder != 0 || r.start != 0", "r.start != 0"),
    ("a virtual mask above layer 2", "if (r.layer == 2) {\n        return false;",
     "if (is_even(r.layer)) {\n        return false;"),
    ("uncoded with y", "r.x != 0 || r.y != 0 || r.width", "r.x != 0 || r.width"),
    ("layer 2 with y", "if (r.x != 0 || r.y != 0)", "if (r.x != 0)"),
    ("width 32,769", "r.width > 32768", "r.width > 32769"),
    ("width 32,768 refused", "r.width > 32768", "r.width >= 32768"),
    ("heights of 65,536", "return heights > 65535;", "return heights > 65536;"),
    ("the last height not counted", "j <= i; j++", "j < i; j++"),
    ("another width in a later stripe", "before.width != r.width", "before.width < r.width"),
    ("a smaller main resolution in a later stripe", "before.resolution != r.resolution",
     "before.resolution < r.resolution"),
    ("300 not listed", "resolution == 300 ||", "resolution == 301 ||"),
    ("uncoded at any divisor", "return r.resolution == main_resolution;",
     "return main_resolution % r.resolution == 0;"),
    ("300 under 400", "return main_resolution % r.resolution == 0;",
     "return main_resolution >= r.resolution;"),
    ("layer 1 matched in stripe 0 only", "!fits_main(layer_1, r.resolution);",
     "r.stripe == 0 && !fits_main(layer_1, r.resolution);"),
    ("layer 1 not matched", "!fits_main(layer_1, r.resolution);",
     "!is_listed(layer_1.resolution);"),
    ("a third octet of colour in a mask", " || r.colour[2] != 0)", ")"),
    ("1 and 3 without 2", "return is_coded(layer_1) && is_coded(layer_3) && !is_coded(layer_2);",
     "return false;"),
    ("1 and 3 refused with 2 too", "is_coded(layer_3) && !is_coded(layer_2);",
     "is_coded(layer_3);"),
    ("layer 3 alone refused", " && !is_coded(layer_3)) {", ") {"),
    ("the choice judged in stripe 0 only", "if (layer_3.layer != 3 ||",
     "if (layer_3.layer != 3 || layer_3.stripe != 0 ||"),
    ("a part record of one octet", "octets % RECORD_OCTETS != 0", "octets % RECORD_OCTETS > 1"),
    ("a part record counted as read", "refused_at(whole, \"part record\")",
     "refused_at(whole + 1, \"part record\")"),
    ("a bad stop at the last record", "refused_at(whole, \"stops badly\")",
     "refused_at(whole - 1, \"stops badly\")"),
]


class Sheets:
    """The sheets, small ones of the table first, and what the sound reference says of them."""

    def __init__(self):
        rng = random.Random(SEED)
        sheets = [("sheet %s, %s" % (case.number, case.name), case.sheet)
                  for case in sheet_making.table()]
        self.known = sorted(sheets, key=lambda named: len(named[1]))
        self.random = [("random sheet %d" % k, bytes(sheet_random.damaged(
            rng, sheet_random.good_sheet(rng)))) for k in range(RANDOM_SHEETS)]
        judge = reference_run.build("reference_judge_sound", parts=reference_run.parts_of("judge"))
        self.judged = {id(group): self.answers(judge, group) for group in (self.known, self.random)}
        self.list = reference_run.build()
        self.listed = {}

    @staticmethod
    def answers(judge, sheets):
        return calls.ALL["judge"].answers(judge, [(sheet,) for _, sheet in sheets])

    def listing(self, name, sheet):
        """Of the sound reference; asked for late, since it takes a process for each sheet."""
        if name not in self.listed:
            self.listed[name] = reference_run.run(self.list, sheet)[0]
        return self.listed[name]

    def found_by(self, planted, _):
        """The first sheet that is judged otherwise; or else the first that is listed otherwise."""
        judge = planted.build(reference_run.parts_of("judge"))
        for group in (self.known, self.random):
            for named, due, got in zip(group, self.judged[id(group)], self.answers(judge, group)):
                if due != got:
                    return named[0]
        listing = planted.build(reference_run.LIST)
        return next((name for name, sheet in self.known
                     if reference_run.run(listing, sheet)[0] != self.listing(name, sheet)), None)


def main():
    tally = reference_run.Tally()
    faults = [("sheet.c", *fault) for fault in FAULTS]
    planting.check_all(tally, "faults_sheet", faults + faults_grey.OF_SHEET + faults_grey.OF_LISTING,
                       Sheets().found_by)
    return tally.end()


if __name__ == "__main__":
    sys.exit(main())
