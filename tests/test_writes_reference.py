"""Holds the reference's writer to tests/writes.md, to round trips and to random sheets,
and the library to the reference on every one of them: the same answer, and the
same page octet for octet.

SEED makes a run again; LIBRARY names another archive than build/libspirerook.a.
"""

import collections
import itertools
import os
import random
import sys

import calls
import counts
import page_making
import page_random
import reference_run
import test_outside
import write_making
import write_random
from write_random import one_picture, page_of, rows_of, sheet_of, without_starts

GOOD = reference_run.trials(150)
DAMAGED = reference_run.trials(1200)
PICTURES = 10        # written with every length up to their own, and beyond
POSITIONS = 140      # more than a writer looks at in one step
LARGE = 100000       # more room than any page but the longest needs
LONGEST = 16777215
SANITIZED = ("-O2", "-fsanitize=address,undefined", "-fno-sanitize-recover=all")


def check_table(tally, watched, plain, cases):
    tally.check([case.number for case in cases] == [str(k + 1) for k in range(len(cases))],
                "the numbers of the table")
    tally.check(len({case.name for case in cases}) == len(cases), "a name stands twice")
    for case in cases:
        tally.check(case.is_told(), "%s, but the page told has %d" % (case.told(), len(case.page)))
    for writer, many in ((watched, False), (plain, True)):
        writer.check([(case.told(), (case.sheet, case.data, case.room), (case.answer, case.page))
                      for case in cases if (len(case.sheet) > calls.MANY) == many])


def check_rooms(writer, cases):
    """A page of N octets is written in any room from N on, and in none below."""
    works = []
    for case in cases:
        least = len(case.page)
        if not 0 < least <= LARGE:
            continue
        for room in (0, 1, least // 2, least - 1, least, least + 1, LARGE):
            due = (case.answer, case.page) if room >= least else ("refused 13 0", b"")
            works.append(("%s, in room %d" % (case.told(), room), (case.sheet, case.data, room), due))
    writer.check(works)


class RoundTrip:
    """Pages read, written and read again."""

    def __init__(self, tally, writer):
        self.tally, self.writer = tally, writer
        self.reader = reference_run.build("reference_read_plain", parts=reference_run.parts_of("read"))

    def read(self, pages):
        return [rows_of(lines) if lines[:1].isdigit() else lines for lines in
                reference_run.read_many(self.reader, [(page, page_making.ROOM) for page in pages])]

    def check(self, what, pages):
        """(name, page), all of them good."""
        sheets = self.read([page for _, page in pages])
        due = [page_of(rows, page) for rows, (_, page) in zip(sheets, pages)]
        self.writer.check([("%s: %s" % (what, name), (sheet_of(rows), page, len(page)),
                            ("done %d" % len(made), made))
                           for rows, (name, page), made in zip(sheets, pages, due)])
        for (name, _), rows, made, again in zip(pages, sheets, due, self.read(due)):
            self.tally.check(not isinstance(again, str)
                             and without_starts(again) == without_starts(rows),
                             "%s: %s: another sheet when read again" % (what, name))
        # what a writer made comes back octet for octet, out of itself as the data
        self.writer.check([("%s, a second time: %s" % (what, name),
                            (sheet_of(rows), made, len(made)), ("done %d" % len(made), made))
                           for (name, _), rows, made in zip(pages, self.read(due), due)])
        same = sum(made == page for made, (_, page) in zip(due, pages))
        print("%s: %d pages read, written and read again, %d of them in the writer's form"
              % (what, len(pages), same))
        return same


def check_round_trips(tally, writer, rng):
    trip = RoundTrip(tally, writer)
    accepted = [(case.name, case.page) for case in page_making.table()
                if case.answer.startswith("done")]
    trip.check("tests/pages.md", accepted)
    outside = test_outside.good_pages(test_outside.stored())
    trip.check("tests/outside", [(name, page) for name, (page, _) in outside])
    trip.check("random pages", [("number %d" % k, page_random.random_page(rng)[0])
                                for k in range(GOOD)])
    form = [("number %d" % k, page_of(*write_random.random_work(rng))) for k in range(GOOD)]
    tally.check(trip.check("random pages in the writer's form", form) == GOOD,
                "a page made in the writer's form is in another")


def picture_work(told, rows, data, good):
    """What is due to one of these: Done, or Mismatch at the picture's record."""
    coded = next(k for k, row in enumerate(rows) if row[12])
    page = page_of(rows, data) if good else b""
    due = "done %d" % len(page) if good else "refused 16 %d" % coded
    return told, (sheet_of(rows), data, write_making.ROOM), (due, page)


def check_lengths(writer, rng):
    """A picture's record of every other length than its own is a Mismatch."""
    works = []
    for k in range(PICTURES):
        octets, *picture = page_random.random_picture(rng, 1200)
        layer = rng.choice([1, 3])
        before, behind = rng.choice([b"", b"\xff", b"\xff\xd8"]), rng.choice([b"\0", octets])
        for length in range(1, len(octets) + 2):
            rows = one_picture(layer, picture, len(before), length)
            works.append(picture_work("picture %d in %d octets" % (k, length), rows,
                                      before + octets + behind, length == len(octets)))
    writer.check(works)
    print("%d records of other lengths than their pictures'" % (len(works) - PICTURES))


def check_positions(writer):
    """A code behind its FF, or behind fill, at every octet of scan data, and the record's end
    around it."""
    head = bytes(write_making.octets_of("soi fax frame scan"))
    works = []
    for k, code in itertools.product(range(POSITIONS), (0x00, 0xD0, 0xD7, 0xD9, 0xDA)):
        before = bytes(k % 9)
        for run in (1, 2, 5):
            at = len(head) + k      # of the first FF
            octets = head + b"\xfe" * k + b"\xff" * run + bytes([code]) + b"\xfe" * 40 + b"\xff\xd9"
            is_data = run == 1 if code == 0x00 else code < 0xD8
            ends = at + run + 1 if code == 0xD9 else len(octets) if is_data else None
            for length in {at, at + 1, at + run, at + run + 1, len(octets)}:
                rows = one_picture(1, (50, 20, 200, 0), len(before), length)
                works.append(picture_work(
                    "%d FF and %02X in scan data at %d, a record of %d" % (run, code, k, length),
                    rows, before + octets + b"\xff\xd9", length == ends))
    writer.check(works)


def check_longest(writer):
    """Image layers that fill the longest page, and pass it by one octet."""
    for kind, layer in ((1, 1), (4, 3)):
        for size, number in ((LONGEST, "done"), (LONGEST + 1, "refused 18 0")):
            rest = size - 26 - 39
            settings = "start%d=0,length%d=%d" % (layer, layer, rest)
            rows = "t%d(%s,width%d=50,height%d=20,resolution%d=200)" % (
                kind, settings, layer, layer, layer)
            data = bytes(write_making.octets_of("soi fax frame scan zeros(%d) eoi" % (rest - 41)))
            page = bytes(write_making.octets_of("start(mask=0) bare(type=%d)" % kind)) + data
            due = (("done %d" % size, page + write_random.END) if number == "done"
                   else (number, b""))
            writer.check([("layer %d in a page of %d octets" % (layer, size),
                           (bytes(write_making.sheet_of(rows)), data, LONGEST + 1), due)])


def check_good(writer, rng):
    """Sheets that keep every rule, over data in any order, some of it shared."""
    works = []
    for k in range(GOOD):
        rows, data = write_random.random_work(rng)
        page = page_of(rows, data)
        works.append(("random sheet %d" % k, (sheet_of(rows), data, len(page) + rng.choice([0, 9])),
                      ("done %d" % len(page), page)))
    writer.check(works)


def check_damaged(tally, writer, rng):
    """Damaged sheets and data: the answer that their parts tell, and every refusal is reached."""
    works = [write_random.damaged_work(rng) for _ in range(DAMAGED)]
    works += [write_random.faulty_layer(rng) for _ in range(DAMAGED // 3)]
    numbers, due = collections.Counter(), []
    for k, ((sheet, data), (answer, page)) in enumerate(
            zip(works, write_random.Judge().verdicts(works))):
        room = rng.choice([LARGE, len(page), max(0, len(page) - 1)]) if page else rng.randrange(99)
        if len(page) > room:
            answer, page = "refused 13 0", b""
        due.append(("damaged sheet %d" % k, (sheet, data, room), (answer, page)))
        numbers[int(answer.split()[1]) if answer.startswith("refused") else 0] += 1
    writer.check(due)
    print("%d damaged sheets: %s" % (len(works), ", ".join(
        "answer %d %d times" % each for each in sorted(numbers.items()))))
    missing = {0, 1, 5, 13, 14, 16} - set(numbers)
    tally.check(not missing, "no damaged sheet has the answers %s" % missing)


def main():
    seed = int(os.environ.get("SEED") or random.randrange(2 ** 32))
    print("SEED=%d" % seed)
    tally, counted = reference_run.Tally(), counts.Counts()
    # the reference's judge takes its time, and much more of it where each step is watched
    watched = calls.Both(tally, calls.ALL["write"], "reference_write", SANITIZED, counted=counted)
    plain = calls.Both(tally, calls.ALL["write"], library=watched.library, counted=counted)
    cases = write_making.table()
    check_table(tally, watched, plain, cases)
    check_rooms(plain, cases)
    check_round_trips(tally, plain, random.Random(seed))
    check_lengths(plain, random.Random(seed + 1))
    check_positions(plain)
    check_longest(plain)
    check_good(watched, random.Random(seed + 2))
    check_damaged(tally, watched, random.Random(seed + 3))
    if watched.library is not None:
        print("%d sheets written by the reference and by the library"
              % (watched.compared + plain.compared))
        counted.save("test_writes_reference")
    return tally.end()


if __name__ == "__main__":
    sys.exit(main())
