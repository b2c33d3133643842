"""Holds the reference's painter of bands to tests/bands.md, to the lines of tests/lines.md and to
bands worked out the other way round; and the library to the reference on every one of them: the
same answer, and the same band octet for octet. Beside that the library's bands are held to its own
lines (tests/driver/band_lines.c), and some of the reference's to its.

SEED makes a run again; LIBRARY names another archive than build/libspirerook.a.
"""

import os
import random
import sys

import band_making
import band_random
import calls
import counts
import line_making
import line_random
import reference_run
import sheet_random
from line_making import GREY

GOOD = reference_run.trials(1200)    # random bands
WORKED_OUT = 4       # one random band in so many is worked out here too, which takes the longest
HELD = 6             # and one of the reference's in so many is held to its lines
PLANES = 500         # plane lists with faults
SHEETS = 500         # damaged sheets
STRIPES = 200        # stripes asked for beside those that there are
ROOMS = 30           # bands asked for in every room around their size
UNSEEN = 100         # bands asked for with several unseen colours
LEAST = {0: 1000, 13: 100, 14: 100, 15: 100, 17: 100}
BLOCK = 64           # pixels that may be looked at together
SANITIZED = ("-O2", "-fsanitize=address,undefined", "-fno-sanitize-recover=all")


def drivers(tally):
    """The reference watched and as it is, each beside the library's bands held to its lines."""
    call, counted = calls.ALL["band"], counts.Counts()
    library = reference_run.build_library_driver(tally, "band_lines", reference_run.BAND_LINES)
    watched = calls.Both(tally, call, "reference_band", SANITIZED, library, counted)
    return watched, calls.Both(tally, call, library=library, counted=counted)


def check_asked(both, asked):
    """Calls that are due something (band_making.Asked)."""
    answers = both.answers(lambda k: asked[k].what, [each.case for each in asked])
    for each, got in zip(asked, answers):
        both.tally.check(each.is_due(got), "%s: %s is due, but the reference: %s" % (
            each.what, each.answer, calls.difference((each.answer, each.octets), got)))


def check_table(tally, both, cases):
    tally.check([case.number for case in cases] == [str(k + 1) for k in range(len(cases))],
                "the numbers of the table")
    tally.check(len({case.name for case in cases}) == len(cases), "a name stands twice")
    for case in cases:
        tally.check(case.is_told() and case.has_shape(), "%s, but the band told has %d octets, or "
                    "other lines than the stripe" % (case.told(), len(case.due()[1])))
    asked = [case.asked(unseen) for case in cases for unseen in case.unseens()]
    check_asked(both, asked)
    print("tests/bands.md: %d bands, asked for %d times" % (len(cases), len(asked)))


def check_lines_table(both, lines):
    asked = band_making.asked_of_lines(lines)
    check_asked(both, asked)
    print("tests/lines.md: asked of %d bands" % len(asked))


def check_random(tally, both, works):
    """All by the reference and the library, some worked out here."""
    own = works[::WORKED_OUT]
    both.check([("random band %d" % (k * WORKED_OUT), work.call(), work.due())
                for k, work in enumerate(own)])
    answers = both.answers(lambda k: "random band %d" % k, [work.call() for work in works])
    marks = b"".join(band[3::4] for _, band in answers)
    wide = sum(work.named().width > BLOCK for work in works)
    print("%d random bands of %d pixels, %d of them unseen; %d are wider than %d pixels"
          % (len(works), len(marks), marks.count(0), wide, BLOCK))
    tally.check(all(answer == "done %d" % work.size() for work, (answer, _) in zip(works, answers)),
                "a random band is refused")
    tally.check(wide > len(works) / 8, "only %d random bands are wide" % wide)
    tally.check(0.1 < marks.count(0) / len(marks) < 0.9, "hardly any unseen pixels, or seen ones")


def check_held(tally, works):
    """The reference paints what its lines compose, which try every content."""
    program = reference_run.build("reference_band_lines",
                                  parts=reference_run.CALLS + reference_run.BAND_LINES)
    got = calls.ALL["band"].answers(program, [work.call() for work in works])
    for k, (answer, _) in enumerate(got):
        tally.check(answer.startswith("done"), "random band %d, the reference beside its lines: %s"
                    % (k * HELD, answer))


def check_rooms(both, works):
    """In any room from its size on, and in none below."""
    asked = []
    for k, work in enumerate(works):
        size, due = work.size(), work.due()
        for room in {0, 1, 4 * work.named().width, size // 2, size + 64,
                     *range(size - 4, size + 5)}:
            asked.append(("band %d in room %d" % (k, room), work.call(room=room),
                          due if room >= size else ("refused 13 0", b"")))
    both.check(asked)


def check_stripes(both, rng, works):
    """Stripes beside those that there are; whatever else is wrong comes later."""
    asked = []
    for k, work in enumerate(works):
        count = len(work.stripes)
        stripe = rng.choice([count, count, count + 1, 64, 256, 65536, 2 ** 32 - 1])
        changes = rng.choice([{}, {"room": 0}, {"planes": b"\0" * rng.randint(1, 9)}])
        asked.append(("band %d as stripe %d" % (k, stripe), work.call(stripe=stripe, **changes),
                      ("refused 17 0", b"")))
    both.check(asked)


def check_planes(both, rng, works):
    """Plane lists with faults; where one stays good the reference alone says the band."""
    faulty, good = [], []
    for k, work in enumerate(works):
        octets, samples = line_random.damaged_planes(rng, work)
        place = line_random.plane_fault(work, octets, samples)
        call = work.call(planes=octets, samples=samples, room=rng.choice([work.room, 0]))
        if place is None:
            good.append(call)
        else:
            faulty.append(("plane list %d" % k, call, ("refused 15 %d" % place, b"")))
    both.check(faulty)
    both.answers(lambda k: "good plane list %d" % k, good)


def check_sheets(both, rng, works):
    damaged = []
    for work in works:
        sheet = bytes(sheet_random.damaged(rng, bytearray(work.sheet)))
        damaged.append(work.call(sheet=sheet, room=rng.choice([4 * 65536, work.room, 0])))
    both.answers(lambda k: "damaged sheet %d" % k, damaged)


def check_unseen(tally, both, works):
    """Another unseen colour alters unseen pixels alone, and those by it, of the library itself."""
    program = both.library or both.reference
    due = both.call.answers(program, [work.call() for work in works])
    for unseen in (GREY, (0, 0, 0), (255, 255, 255), (1, 2, 3)):
        cases = [work.call()[:5] + unseen for work in works]
        for k, ((_, one), got) in enumerate(zip(due, both.call.answers(program, cases))):
            other = b"".join(one[at:at + 4] if one[at + 3] else bytes(unseen) + b"\0"
                             for at in range(0, len(one), 4))
            tally.check(got == ("done %d" % len(one), other), "band %d with unseen %d %d %d: %s" % (
                k, *unseen, calls.difference(("done %d" % len(one), other), got, "by its mark")))


def end(tally, both):
    """Enough answers of each number."""
    numbers = both.counts.calls["band"]
    print("answers: " + ", ".join("%d %d times" % each for each in sorted(numbers.items())))
    for number, least in LEAST.items():
        tally.check(numbers[number] >= least, "only %d answers %d" % (numbers[number], number))
    if both.library is not None:
        both.counts.save("test_bands_reference")


def main():
    seed = int(os.environ.get("SEED") or random.randrange(2 ** 32))
    print("SEED=%d" % seed)
    rng, tally = random.Random(seed), reference_run.Tally()
    watched, plain = drivers(tally)
    check_table(tally, watched, band_making.table())
    check_lines_table(watched, line_making.table())
    works = [band_random.Work(rng) for _ in range(GOOD)]
    check_random(tally, plain, works)
    check_held(tally, works[::HELD])
    small = [work for work in works if work.size() < 1000]
    check_rooms(watched, small[:ROOMS])
    check_stripes(watched, rng, [rng.choice(works) for _ in range(STRIPES)])
    check_planes(watched, rng, [rng.choice(works) for _ in range(PLANES)])
    check_sheets(watched, rng, [rng.choice(works) for _ in range(SHEETS)])
    check_unseen(tally, plain, works[:UNSEEN])
    end(tally, plain)
    return tally.end()


if __name__ == "__main__":
    sys.exit(main())
