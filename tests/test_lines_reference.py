"""Holds the reference's composer to tests/lines.md, to lines worked out the other way round
and to what must hold of any line; and the library to the reference on every one of
them: the same answer, and the same line octet for octet. The table is asked of both calls
that compose a line; of all other cases each call has its half.

SEED makes a run again; LIBRARY names another archive than build/libspirerook.a.
"""

import copy
import os
import random
import sys

import boundary_making
import calls
import counts
import line_making
import line_random
import reference_run
import sheet_random
from line_making import GREY

GOOD = reference_run.trials(1500)
PLANES = 600         # plane lists with faults
SHEETS = 600         # damaged sheets
NOISE = 200          # random octets as a sheet
ROOMS = 60           # lines asked for in every room around their size
LINES = 250          # stripes and lines asked for beside those that there are
BETWEEN = 150        # good calls, and as many damaged, made with several unseen colours
LEAST = {0: 1000, 13: 100, 14: 100, 15: 100, 17: 100}      # answers of each call
ALIKE = 3            # lines of each call, at least, with a seen pixel of the unseen colour
SANITIZED = ("-O2", "-fsanitize=address,undefined", "-fno-sanitize-recover=all")


def check_table(tally, watched, plain, cases):
    tally.check([case.number for case in cases] == [str(k + 1) for k in range(len(cases))],
                "the numbers of the table")
    tally.check(len({case.name for case in cases}) == len(cases), "a name stands twice")
    for case in cases:
        tally.check(case.is_told(), "%s, but the line told has %d"
                    % (case.told(), len(case.due()[1])))
    few = [case.asked(unseen) for case in cases if len(case.sheet) <= calls.MANY
           for unseen in case.unseens()]
    # the reference takes its time over many records
    many = [case.asked(unseen) for case in cases if len(case.sheet) > calls.MANY
            for unseen in case.unseens()[:2]]
    watched.check(few)
    plain.check(many)
    print("tests/lines.md: %d lines, asked for %d times" % (len(cases), len(few) + len(many)))


def check_rooms(composer, told, lines):
    """(call, (answer, line)) of Done: in any room from its size on, and in none below."""
    works = []
    for k, (call, due) in enumerate(lines):
        size = len(due[1])
        for room in {0, 1, size // 2, *range(max(0, size - 5), size + 6), size + 64}:
            asked = call[:3] + (room,) + call[4:]
            works.append(("%s %d, in room %d" % (told, k, room), asked,
                          due if room >= size else ("refused 13 0", b"")))
    composer.check(works)


def pixels_of(line):
    return [line[at:at + 4] for at in range(0, len(line), 4)]


def seen_in(line):
    """The colours of the pixels that are seen."""
    return [pixel[:3] for pixel in pixels_of(line) if pixel[3]]


def is_alike(line):
    """Whether a seen pixel has the colour that an unseen one has too."""
    return any(pixel[3] == 0 and pixel[:3] in seen_in(line) for pixel in set(pixels_of(line)))


def check_random(composer, works):
    answers = composer.check([("random line %d" % k, work.call(), work.due())
                              for k, work in enumerate(works)])
    marks = [pixel[3] for _, line in answers for pixel in pixels_of(line)]
    print("%d random lines of %d pixels, %d of them unseen"
          % (len(works), len(marks), marks.count(0)))
    return answers


def check_alike(tally, works, answers):
    """The random lines of each call do have such pixels."""
    alike = [work.unseen is None for work, (_, line) in zip(works, answers) if is_alike(line)]
    for grey in (True, False):
        tally.check(alike.count(grey) >= ALIKE, "only %d random lines with a seen pixel of the "
                    "unseen colour, %stold" % (alike.count(grey), "un" * grey))


def check_one_more(tally, composer, rng, works, answers):
    """Reading one more layer never alters a seen pixel."""
    more, before = [], []
    for work, (_, line) in zip(works, answers):
        if work.unread():
            wider = copy.copy(work)
            wider.planes, wider.samples = dict(work.planes), bytearray(work.samples)
            wider.read(rng, rng.choice(work.unread()))
            more.append(wider)
            before.append(line)
    got = composer.check([("line %d with one more layer read" % k, work.call(), work.due())
                          for k, work in enumerate(more)])
    newly = 0
    for k, (line, (_, wider)) in enumerate(zip(before, got)):
        seen = [at for at in range(0, len(line), 4) if line[at + 3]]
        tally.check(len(wider) == len(line) and
                    all(wider[at:at + 4] == line[at:at + 4] for at in seen),
                    "line %d with one more layer read: a seen pixel is another" % k)
        newly += sum(wider[3::4]) - len(seen)
    print("%d lines with one more layer read: %d pixels seen that were not" % (len(more), newly))
    tally.check(newly > 100, "one more layer hardly shows more")


def check_all_read(tally, composer, rng, works):
    """All coded layers listed means every pixel seen."""
    for work in works:
        for layer in work.unread():
            work.read(rng, layer)
    got = composer.check([("line %d, all read" % k, work.call(), work.due())
                          for k, work in enumerate(works)])
    for k, (_, line) in enumerate(got):
        tally.check(all(line[3::4]), "line %d, all read: a pixel is unseen" % k)


def as_unseen(line, unseen):
    """A line with another unseen colour."""
    return b"".join(line_making.unseen_pixel(unseen) if pixel[3] == 0 else pixel
                    for pixel in pixels_of(line))


def check_between(tally, composer, rng):
    """What holds between the two calls, and between unseen colours, of the library by itself: the
    same answer, and a line that differs in unseen pixels only; refused, nothing is written, which
    the drivers look at."""
    asked = [make["line"](rng) for make in (boundary_making.GOOD, boundary_making.DAMAGED)
             for _ in range(BETWEEN)]
    line, sibling = composer.boths.values()
    due = line.call.answers(line.library or line.reference, asked)
    seen = [tuple((seen_in(octets) or [GREY])[0]) for _, octets in due]
    for unseens in ([GREY] * len(asked), [(0, 0, 0)] * len(asked), [(255, 255, 255)] * len(asked),
                    seen, [line_random.some_unseen(rng) for _ in asked]):
        got = sibling.call.answers(sibling.library or sibling.reference,
                                   list(map(line_making.with_unseen, asked, unseens)))
        for k, ((answer, octets), unseen) in enumerate(zip(due, unseens)):
            # octet for octet where the colour is the line's own
            same = octets if unseen == GREY else as_unseen(octets, unseen)
            tally.check(got[k] == (answer, same) and counts.number_of(answer) >= 0, "call %d: %s"
                        % (k, calls.difference((answer, same), got[k], "the line call",
                                               "its sibling with unseen %d %d %d" % unseen)))
    print("%d calls made with several unseen colours" % len(asked))


def check_lines(composer, rng, works):
    """Stripes and lines beside those that there are."""
    asked = []
    for k, work in enumerate(works):
        stripes, height = len(work.stripes), work.named().height
        beside = rng.choice([stripes, stripes + 1, 64, 256, 65536, 2 ** 32 - 1])
        below = rng.choice([height, height, height + 1, height + 65536, 2 ** 32 - 1])
        for stripe, line in ((beside, 0), (work.number, below)):
            asked.append(("line %d as stripe %d, line %d" % (k, stripe, line),
                          work.call(stripe=stripe, line=line), ("refused 17 0", b"")))
    composer.check(asked)


def check_planes(composer, rng, works):
    """Plane lists with faults; where one stays good the reference alone says the line."""
    faulty, good = [], []
    for k, work in enumerate(works):
        octets, samples = line_random.damaged_planes(rng, work)
        place = line_random.plane_fault(work, octets, samples)
        room = rng.choice([work.room, work.room, 0])
        call = work.call(planes=octets, samples=samples, room=room)
        if place is None:
            good.append(call)
        else:
            faulty.append(("plane list %d" % k, call, ("refused 15 %d" % place, b"")))
    composer.check(faulty)
    composer.answers(lambda k: "good plane list %d" % k, good)


def check_sheets(composer, rng, works):
    damaged = []
    for work in works:
        sheet = bytes(sheet_random.damaged(rng, bytearray(work.sheet)))
        damaged.append(work.call(sheet=sheet, room=rng.choice([4 * 32768, work.room, 0])))
    composer.answers(lambda k: "damaged sheet %d" % k, damaged)
    noise = []
    for _ in range(NOISE):
        octets = bytes(rng.randrange(rng.choice([2, 256]))
                       for _ in range(rng.choice([28, 84, 140, rng.randint(0, 200)])))
        noise.append(line_making.with_unseen(
            (octets, octets[:5], octets, 200, rng.randrange(2), rng.randrange(2)),
            line_random.maybe_unseen(rng)))
    composer.answers(lambda k: "random octets %d" % k, noise)


def composers(tally, counted):
    """The two calls, as one: with the reference watched, and as it is. It tries thousands of
    contents, and takes its time where each step is watched."""
    watched, plain = {}, {}
    for name, parts in (("line", 6), ("line_unseen", 9)):
        call = calls.ALL[name]
        watched[parts] = calls.Both(tally, call, "reference_" + name, SANITIZED, counted=counted)
        plain[parts] = calls.Both(tally, call, library=watched[parts].library, counted=counted)
    return calls.Siblings(tally, watched), calls.Siblings(tally, plain)


def end(tally, counted, boths):
    """Enough answers of each number from each call."""
    for name in ("line", "line_unseen"):
        numbers = counted.calls[name]
        print("answers of %s: " % name
              + ", ".join("%d %d times" % each for each in sorted(numbers.items())))
        for number, least in LEAST.items():
            tally.check(numbers[number] >= least, "%s: only %d answers %d"
                        % (name, numbers[number], number))
    compared = sum(both.compared for both in boths)
    if compared:
        print("%d lines composed by the reference and by the library" % compared)
        counted.save("test_lines_reference")


def main():
    seed = int(os.environ.get("SEED") or random.randrange(2 ** 32))
    print("SEED=%d" % seed)
    rng = random.Random(seed)
    tally, counted = reference_run.Tally(), counts.Counts()
    watched, plain = composers(tally, counted)
    cases = line_making.table()
    check_table(tally, watched, plain, cases)
    shown = [case.asked(rng.choice(case.unseens()))[1:] for case in cases[::8]]
    check_rooms(plain, "line of the table", [(call, due) for call, due in shown
                                             if 0 < len(due[1]) < 1000])
    works = [line_random.Work(rng) for _ in range(GOOD)]
    for work in works:
        work.unseen = line_random.maybe_unseen(rng, seen_in(work.due()[1]))
    answers = check_random(plain, works)
    check_alike(tally, works, answers)
    check_random(watched, works[::8])
    check_one_more(tally, plain, rng, works, answers)
    check_rooms(watched, "random line", [(work.call(), due) for work, due in
                                         list(zip(works, answers))[:ROOMS]])
    check_lines(watched, rng, works[:LINES])
    check_planes(watched, rng, [rng.choice(works) for _ in range(PLANES)])
    check_sheets(watched, rng, [rng.choice(works) for _ in range(SHEETS)])
    check_all_read(tally, plain, rng, works[::2])
    check_between(tally, plain, rng)
    end(tally, counted, [*watched.boths.values(), *plain.boths.values()])
    return tally.end()


if __name__ == "__main__":
    sys.exit(main())
