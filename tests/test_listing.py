"""Compares the listing program with the reference, octet for octet of output.

The program is crates/listing/out/listing, which tools/listing runs, or what
the environment variable LISTING names; SEED makes a run again.
"""

import collections
import concurrent.futures
import os
import random
import sys

import reference_run
import sheet_making
import sheet_random

# each takes two processes; the judge behind it has its own call, which takes far more (test_boundary)
SHEETS = reference_run.trials(360)
UNDAMAGED = SHEETS // 6
LEAST_GOOD = SHEETS // 12
LEAST_REFUSED = SHEETS // 3
LARGEST = 26880

# "A listing" of the paper; request 2026-07 ends its lines with octet 17
EXAMPLE = """\
0 1 0 0 0 0 0 200 255 128 96 0 0 0
0 2 4 0 0 4 2 200 0 0 0 60 5 0
0 3 0 0 0 0 0 200 0 128 96 0 0 0
"""


class Pair:
    """The program under test and the reference."""

    def __init__(self, listing, reference):
        self.listing = listing
        self.reference = reference

    def both(self, sheet):
        """What each prints, and the rule that the reference found broken."""
        expected, rule = reference_run.run(self.reference, sheet, "rule")
        return reference_run.run(self.listing, sheet)[0], expected, rule.strip()


def short(listing):
    return reference_run.answer(listing) if len(listing) > 60 else repr(listing)


def told_by(name, got, expected):
    return "%s: listing %s, expected %s" % (name, short(got), short(expected))


def own_listing(sheet):
    """A good sheet's listing, from neither program."""
    fields = ["stripe", "layer", "coder", "x", "y", "width", "height", "resolution",
              "octet14", "octet15", "octet16", "start", "length", "octet17"]
    lines = (" ".join(str(sheet_making.get(sheet, k, field)) for field in fields)
             for k in range(len(sheet) // sheet_making.RECORD))
    return "".join(line + "\n" for line in lines)


def sized_inputs(rng):
    """(name, sheet, answer or None): every length that stands at an edge."""
    full = bytes(sheet_random.good_sheet(rng, stripes=64, layers=15))
    assert len(full) == LARGEST
    yield "26,880 octets, good", full, own_listing(full)
    for octets in (0, 1, 27, 28, 26880, 26881, 26908, 10000000):
        yield "%d zero octets" % octets, bytes(octets), "refused 14 0\n"
        yield "%d random octets" % octets, rng.randbytes(octets), None
        if octets < LARGEST:
            place = octets // sheet_making.RECORD
            yield "%d octets of a good sheet" % octets, full[:octets], "refused 14 %d\n" % place
        if octets > LARGEST:
            over = octets - LARGEST
            again = (full * (over // LARGEST + 1))[:over]
            for kind, more in (("zeros", bytes(over)), ("random octets", rng.randbytes(over)),
                               ("itself", again)):
                yield ("%d octets, a good sheet and %s" % (octets, kind), full + more,
                       "refused 14 960\n")


def check_known(tally, pair, rng):
    """The example, the table, and every edge of length."""
    got, expected, _ = pair.both(bytes(sheet_making.example()))
    tally.check(got == EXAMPLE, told_by("the paper's example", got, EXAMPLE))
    tally.check(expected == EXAMPLE, "the reference lists the paper's example otherwise")
    for name, sheet, answer in sized_inputs(rng):
        got, expected, _ = pair.both(sheet)
        tally.check(got == expected, told_by(name, got, expected))
        if answer is not None:
            tally.check(got == answer, told_by(name, got, answer))
    for case in sheet_making.table():
        got, expected, _ = pair.both(case.sheet)
        tally.check(got == expected, told_by("sheet %s" % case.number, got, expected))
        tally.check(reference_run.answer(got) == case.answer,
                    "%s, but the listing says %s" % (case.line(), reference_run.answer(got)))


def random_sheets(rng):
    """Good sheets and damaged ones, by turns that the seed decides."""
    for k in range(SHEETS):
        sheet = sheet_random.good_sheet(rng)
        yield bytes(sheet if k < UNDAMAGED else sheet_random.damaged(rng, sheet)), k < UNDAMAGED


def check_random(tally, pair, rng):
    """The differential test; it also counts what it reached."""
    good = 0
    places = collections.Counter()
    rules = collections.Counter()
    sheets = list(random_sheets(rng))
    with concurrent.futures.ThreadPoolExecutor(max_workers=2) as workers:
        outcomes = workers.map(lambda pairs: pair.both(pairs[0]), sheets)
        for k, ((sheet, undamaged), (got, expected, rule)) in enumerate(zip(sheets, outcomes)):
            tally.check(got == expected, told_by("random sheet %d" % k, got, expected))
            if undamaged:
                tally.check(got == own_listing(sheet), "random sheet %d is good" % k)
            if expected.startswith("refused"):
                places[expected] += 1
                rules[rule] += 1
            else:
                good += 1
    refused = sum(places.values())
    print("%d random sheets: %d good, %d refused at %d different records by %d rules"
          % (len(sheets), good, refused, len(places), len(rules)))
    print(", ".join("%s %d" % each for each in rules.most_common()))
    tally.check(good >= LEAST_GOOD, "only %d good sheets" % good)
    tally.check(refused >= LEAST_REFUSED, "only %d refused sheets" % refused)


def main():
    seed = int(os.environ.get("SEED") or random.randrange(2 ** 32))
    print("SEED=%d" % seed)
    built = os.path.join(reference_run.ROOT, "crates", "listing", "out", "listing")
    listing = os.environ.get("LISTING") or os.path.join(reference_run.ROOT, "tools", "listing")
    tally = reference_run.Tally()
    tally.check("LISTING" in os.environ or os.access(built, os.X_OK), "no program %s" % built)
    if tally.failed == 0:
        pair = Pair(listing, reference_run.build())
        check_known(tally, pair, random.Random(seed))
        check_random(tally, pair, random.Random(seed + 1))
    return tally.end()


if __name__ == "__main__":
    sys.exit(main())
