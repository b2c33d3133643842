"""The words for sheets that the library refuses (host/sheet_words.c), as the viewer and the page
maker say them.

Each rule stands here a second time, written from the paper as a question about the records up to one
of them. Of every sheet of tests/sheets.md and of random damaged ones that are refused, the words
must be those of the first rule, in the order below, that is broken at the place. SEED repeats a run.
"""

import os
import random
import re
import subprocess
import sys
import tempfile

import make_kit
import reference_run
import sheet_making
import sheet_random
import view_making
from sheet_making import record

HOST = os.path.join(reference_run.ROOT, "host")
RANDOM = reference_run.trials(6000)
RUN = 500            # sheets in one run of the driver
RESOLUTIONS = (100, 200, 300, 400, 600, 1200)
END = " (docs/FIELDS.md, section 7)"


class Record:
    """The fields of a record, by the paper's table."""

    def __init__(self, octets):
        (self.stripe, self.layer, self.coder, self.x, self.y, self.width, self.height,
         self.resolution) = (int.from_bytes(octets[at:at + size], "big") for at, size in (
             (0, 2), (2, 1), (3, 1), (4, 2), (6, 2), (8, 2), (10, 2), (12, 2)))
        self.base, self.grey, self.zeros = octets[14:17], octets[17], octets[26:28]
        self.start, self.length = (int.from_bytes(octets[at:at + 4], "big") for at in (18, 22))
        self.is_coded, self.is_even = self.length != 0, self.layer % 2 == 0


class Sheet:
    """All records, the one in question last among those `up_to` it; `one` is None at the end."""

    def __init__(self, octets, place):
        self.octets = octets
        whole = [Record(octets[k:k + 28]) for k in range(0, len(octets) // 28 * 28, 28)]
        self.before = whole[:place]
        self.one = whole[place] if place < len(whole) else None
        self.up_to = whole[:place + 1]

    def stripe(self, number):
        """The layers of a stripe among the records before."""
        return [each.layer for each in self.before if each.stripe == number]

    def own(self, layer):
        """This layer of the same stripe, before or here: a list of none or one."""
        return [each for each in self.up_to if each.stripe == self.one.stripe
                and each.layer == layer]

    def masks(self):
        return [each for each in self.up_to if each.layer == 2]

    def pairs(self):
        """(layer, layer 2) that this record completes: its own, or layer 1's where it is layer 2."""
        if self.one.layer == 2:
            return [(one, self.one) for one in self.own(1)]
        return [(self.one, two) for two in self.own(2)] if self.one.layer > 2 else []


def layers_are(good):
    """Whether a stripe may have these layers and no more."""
    return sorted(good) == list(range(1, len(good) + 1)) and len(good) in range(3, 16, 2)


def odd_end(sheet):
    """A stripe before this record's has a number of layers that it may not have."""
    return any(not layers_are(sheet.stripe(number))
               for number in {each.stripe for each in sheet.before} - {sheet.one.stripe})


def is_refused_choice(sheet, pattern):
    layers = [sheet.own(number) for number in (1, 2, 3)]
    return (sheet.one.layer == 3 and all(layers)
            and tuple(layer[0].is_coded for layer in layers) in pattern)


# (words, whether the record in question breaks the rule with those before it)
RULES = [
    ("a sheet has at most 960 records", lambda s: len(s.up_to) > 64 * 15),
    ("records must stand in order of stripe, and in a stripe of layer", lambda s: any(
        (each.stripe, each.layer) > (s.one.stripe, s.one.layer) for each in s.before)),
    ("octets 26 and 27 of a record must be 0", lambda s: any(s.one.zeros)),
    ("stripes must run 0, 1, 2 with no gap", lambda s: any(
        not s.stripe(number) for number in range(s.one.stripe))),
    ("a sheet has at most 64 stripes", lambda s: len({each.stripe for each in s.up_to}) > 64),
    ("a stripe's layers must run 1, 2, 3 with no gap", lambda s: s.one.layer == 0 or any(
        number not in s.stripe(s.one.stripe) for number in range(1, s.one.layer))),
    ("a stripe must have each layer once", lambda s: s.one.layer in s.stripe(s.one.stripe)),
    ("a stripe has at most 15 layers", lambda s: s.one.layer > 15),
    ("the stripe before must end with an odd layer, 3 or above", odd_end),
    ("a coded mask's coder must be 1, 2, 4 or 8", lambda s: s.one.is_coded and s.one.is_even
     and s.one.coder not in (1, 2, 4, 8)),
    ("a coded image's coder must be 1", lambda s: s.one.is_coded and not s.one.is_even
     and s.one.coder != 1),
    ("octet 17 of a record must be 0, or 1 in that of a coded image of coder 1",
     lambda s: s.one.grey > 1 or s.one.grey == 1 and not (
         s.one.is_coded and not s.one.is_even and s.one.coder == 1)),
    ("a coded layer's width and height must not be 0", lambda s: s.one.is_coded
     and 0 in (s.one.width, s.one.height)),
    ("a coded layer's start plus its length must be below 2^32", lambda s: s.one.is_coded
     and s.one.start + s.one.length >= 2 ** 32),
    ("a layer that is not coded must have coder 0", lambda s: not s.one.is_coded
     and s.one.coder != 0),
    ("a layer that is not coded must have start 0", lambda s: not s.one.is_coded
     and s.one.start != 0),
    ("a layer that is not coded must have offsets 0 0", lambda s: not s.one.is_coded
     and s.one.layer != 2 and (s.one.x, s.one.y) != (0, 0)),
    ("a layer that is not coded must have width and height 0, but for layer 2",
     lambda s: not s.one.is_coded and s.one.layer != 2 and (s.one.width, s.one.height) != (0, 0)),
    ("layer 2 must have offsets 0 0", lambda s: s.one.layer == 2 and (s.one.x, s.one.y) != (0, 0)),
    ("layer 2's width, which is the page's, must be 1 to 32768", lambda s: s.one.layer == 2
     and not 1 <= s.one.width <= 32768),
    ("layer 2's height, which is the stripe's, must be 1 to 65535", lambda s: s.one.layer == 2
     and not 1 <= s.one.height <= 65535),
    ("the heights of all stripes must sum to 65535 at most", lambda s: s.one.layer == 2
     and sum(each.height for each in s.masks()) > 65535),
    ("layer 2 must have the same width in all stripes", lambda s: s.one.layer == 2
     and len({each.width for each in s.masks()}) > 1),
    ("layer 2 must have the same resolution in all stripes", lambda s: s.one.layer == 2
     and len({each.resolution for each in s.masks()}) > 1),
    ("a resolution must be 100, 200, 300, 400, 600 or 1200",
     lambda s: s.one.resolution not in RESOLUTIONS),
    ("layer 1 is not coded, so its resolution must be layer 2's", lambda s: s.one.layer == 2 and any(
        not one.is_coded and one.resolution != two.resolution for one, two in s.pairs())),
    ("layer 1's resolution must divide layer 2's", lambda s: s.one.layer == 2 and any(
        two.resolution % one.resolution for one, two in s.pairs())),
    ("a layer that is not coded must have layer 2's resolution", lambda s: s.one.layer > 2 and any(
        not one.is_coded and one.resolution != two.resolution for one, two in s.pairs())),
    ("a layer's resolution must divide layer 2's", lambda s: s.one.layer > 2 and any(
        two.resolution % one.resolution for one, two in s.pairs())),
    ("a mask's base colour must be 0 0 0", lambda s: s.one.is_even and any(s.one.base)),
    ("at least one of layers 1 to 3 must be coded",
     lambda s: is_refused_choice(s, {(False, False, False)})),
    ("layers 1 and 3 must not both be coded without layer 2",
     lambda s: is_refused_choice(s, {(True, False, True)})),
]
# the same of the end, where no whole record stands
ENDS = [
    ("a sheet must end with a whole record of 28 octets", lambda s: len(s.octets) % 28 != 0),
    ("a sheet must not be empty", lambda s: not s.octets),
    ("the last stripe must end with an odd layer, 3 or above",
     lambda s: not layers_are(s.stripe(s.before[-1].stripe))),
]
ALL = [words for words, _ in RULES + ENDS]


def due_words(octets, place):
    """The words of the first rule broken at this place, or None."""
    sheet = Sheet(octets, place)
    rules = ENDS if sheet.one is None else RULES
    return next((words for words, breaks in rules if breaks(sheet)), None)


def told_of(program, sheets):
    """The driver's line for each sheet."""
    lines = []
    for at in range(0, len(sheets), RUN):
        given = b"".join(len(sheet).to_bytes(4, "big") + sheet for sheet in sheets[at:at + RUN])
        printed, wrong = reference_run.run(program, given, "many")
        got = printed.splitlines()
        lines += got[:RUN] + ["no answer: %s" % wrong] * (len(sheets[at:at + RUN]) - len(got))
    return lines


def crafted():
    """Sheets for rules that damage at random hardly meets: each breaks one."""
    full = sheet_making.base_sheet("coded(64,15)")
    yield bytes(full + record(64, 1, 1, 0, 0, 5, 5, 200, (1, 2, 3), 0, 9))
    yield bytes(full + sheet_making.base_sheet("coded(1,3)"))
    for name in ("start", "x", "height"):
        sheet = sheet_making.base_sheet("plain(1,5)")
        sheet_making.put(sheet, 3, name, 7)
        yield bytes(sheet)
    for kind, record_of, octet in (("coded", 1, 1), ("coded", 3, 1), ("plain", 4, 1), ("coded", 0, 2),
                                   ("coded", 4, 255), ("plain", 0, 128)):
        sheet = sheet_making.base_sheet(kind + "(1,5)")
        sheet_making.put(sheet, record_of, "octet17", octet)
        yield bytes(sheet)


def check_words(tally, program, rng):
    sheets = [case.sheet for case in sheet_making.table()] + list(crafted())
    known = len(sheets)
    sheets += [bytes(sheet_random.damaged(rng, sheet_random.good_sheet(rng))) for _ in range(RANDOM)]
    met, refused = set(), 0
    for number, (sheet, line) in enumerate(zip(sheets, told_of(program, sheets))):
        found = re.fullmatch(r"refused 14 (\d+) (.+)", line)
        if found is None:
            tally.check(line == "good", "sheet %d: %s" % (number, line))
            continue
        refused += number >= known
        due = due_words(sheet, int(found[1]))
        met.add(found[2])
        tally.check(due == found[2], "sheet %d at record %s: '%s' is due, not '%s': %s" % (
            number, found[1], due, found[2], sheet[:28 * 8].hex()))
    tally.check(refused > RANDOM // 2, "of %d damaged sheets %d are refused" % (RANDOM, refused))
    for words in ALL:
        tally.check(words in met, "no sheet has the words '%s'" % words)
    tally.check(met == set(ALL), "words of no rule: %s" % (met - set(ALL)))
    print("%d sheets, %d of the random ones refused; %d rules" % (len(sheets), refused, len(ALL)))


def check_viewer(tally, folder):
    """The viewer says the words of a pencil sheet, in its one line."""
    make_kit.write(os.path.join(folder, "m.pbm"), make_kit.pbm(make_kit.strokes(40, 9)))
    status, _, wrong = make_kit.make(folder, "resolution 400\nstripe\nmask m.pbm\npencil-mask m.pbm\n"
                                     "pencil-image none\n", "--pencil", "s", "f")
    tally.check(status == 0, "no page is made: %s" % wrong)
    good = make_kit.read(os.path.join(folder, "s"))
    for name, place, words in (
            ("3.octet14=1", 3, "a mask's base colour must be 0 0 0"),
            ("3.octet17=1", 3, "octet 17 of a record must be 0, or 1 in that of a coded image of coder 1"),
            ("4.layer=7", 4, "a stripe's layers must run 1, 2, 3 with no gap"),
            ("1.height=0", 1, "a coded layer's width and height must not be 0"),
            ("cut 139", 4, "a sheet must end with a whole record of 28 octets"),
            ("cut 112", 4, "the last stripe must end with an odd layer, 3 or above"),
            ("cut 0", 0, "a sheet must not be empty")):
        make_kit.write(os.path.join(folder, "s"), bytes(
            sheet_making.changed(bytearray(good), name)))
        ran = subprocess.run([view_making.VIEW, "p.page", "--pencil", "s", "f", "--no-digests"], cwd=folder,
                             check=False, stdout=subprocess.PIPE, stderr=subprocess.PIPE)
        due = "s: refused: BadSheet (14) at record %d: the sheet breaks one of its rules: %s%s\n" % (
            place, words, END)
        tally.check((ran.returncode, ran.stdout, ran.stderr.decode()) == (1, b"", due),
                    "%s: %s, not %s" % (name, ran, due))


def check_maker(tally, folder):
    """The page maker says them of the sheet that it makes of a plan."""
    make_kit.write(os.path.join(folder, "i.ppm"), make_kit.ppm(4, 4, lambda x, y: (1, 2, 3)))
    head = "resolution 400\nwidth 40\nstripe\nheight 9\n"
    for plan, place, words, line in (
            (head, "2 (stripe 0, layer 3)", "at least one of layers 1 to 3 must be coded", 3),
            (head + "foreground i.ppm\nbackground i.ppm\n", "2 (stripe 0, layer 3)",
             "layers 1 and 3 must not both be coded without layer 2", 5),
            (head + "background i.ppm\nstripe\nheight 65535\nbackground i.ppm\n",
             "4 (stripe 1, layer 2)", "the heights of all stripes must sum to 65535 at most", 7)):
        due = ("spirerook-make: p.plan: refused: BadSheet (14) at record %s: the sheet breaks one of "
               "its rules: %s%s; see line %d\n" % (place, words, END, line))
        ran = make_kit.make(folder, plan)
        tally.check(ran == (1, "", due), "%s: %s, not %s" % (plan, ran, due))


def check_manual(tally):
    """The rules stand in docs/FIELDS.md, where the words send the reader, and in this order."""
    with open(os.path.join(reference_run.ROOT, "docs", "FIELDS.md"), encoding="utf-8") as file:
        section = file.read().partition("\n## 7. ")[2].partition("\n## 8. ")[0]
    rows = re.findall(r"^\| (\d+) \| (.+?) \|", section.partition("### The rules")[2], re.M)
    due = [(str(k + 1), words) for k, words in enumerate(ALL)]
    tally.check(rows == due, "docs/FIELDS.md, section 7, has the rules %s" % (rows,))


def main():
    seed = int(os.environ.get("SEED") or random.randrange(2 ** 32))
    print("SEED=%d" % seed)
    tally = reference_run.Tally()
    for path in (reference_run.archive(), view_making.VIEW, make_kit.PROGRAM):
        if not os.path.exists(path):
            tally.check(False, "no %s: make it first" % path)
            return tally.end()
    program = reference_run.build("sheet_words", flags=("-O2", "-I", HOST), parts=(
        "console.c", *reference_run.in_driver("lent.c", "words.c"),
        os.path.join(HOST, "sheet_words.c"), reference_run.archive()))
    check_words(tally, program, random.Random(seed))
    check_manual(tally)
    with tempfile.TemporaryDirectory() as folder:
        check_viewer(tally, folder)
        check_maker(tally, folder)
    return tally.end()


if __name__ == "__main__":
    sys.exit(main())
