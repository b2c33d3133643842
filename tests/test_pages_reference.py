"""Holds the reference's reader to tests/pages.md, to cut pages and to random ones,
and the library to the reference on every one of them: the same answer, and the
same records octet for octet.

SEED makes a run again; LIBRARY names another archive than build/libspirerook.a.
"""

import collections
import itertools
import os
import random
import sys

import counts
import fill_pages
import page_making
import page_random
import reference_run

GOOD = reference_run.trials(300)
PADDED = reference_run.trials(150)
DAMAGED = reference_run.trials(1800)
LAYERS = reference_run.trials(900)
POSITIONS = 200      # more than a reader looks at in one step
LARGE = 10000        # a page above this is cut only at some octets
TOGETHER = 3 * 10 ** 6    # octets of pages in one run of a reader: to begin takes its time too
FIRST_CODED = 61     # no coded data of a Mode 1 page stands before this
RECORD = 28
SANITIZED = ("-O2", "-fsanitize=address,undefined", "-fno-sanitize-recover=all")


def room_for(page):
    """Room for any sheet that a page of this length can have: a stripe takes 39 octets."""
    return min(page_making.ROOM, 84 * (len(page) // 39))


class Reader:
    """The reference, and beside it the library, if there is one."""

    def __init__(self, tally, library, name, flags):
        self.tally, self.library = tally, library
        self.reference = reference_run.build(name, flags=flags,
                                             parts=reference_run.parts_of("read"))
        self.compared, self.counts = 0, counts.Counts()

    def lines(self, told, pages):
        """What the reference prints for each page, which the library prints too."""
        return self.lines_in_rooms(told, [(page, room_for(page)) for page in pages])

    def lines_in_rooms(self, told, pages):
        """The same for each (page, room); `told` names one of them by its number."""
        answers = reference_run.read_many(self.reference, pages)
        if self.library is not None:
            got = reference_run.read_many(self.library, pages)
            wrong = [k for k in range(len(pages)) if got[k] != answers[k]]
            for k in wrong[:5]:
                self.tally.check(False, "%s: %s" % (told(k), difference(answers[k], got[k])))
            if not wrong:
                self.tally.check(True, "")
            self.compared += len(pages)
            self.counts.add("read", map(page_making.answer, answers))
        return answers


def difference(expected, got):
    """The first line where the library does not say what the reference does."""
    lines = zip(expected.splitlines() + ["no more"], got.splitlines() + ["no more"])
    first = next((pair for pair in lines if pair[0] != pair[1]), ("", "other line ends"))
    return "the reference says %s, the library %s" % first


def check_table(tally, reader, cases):
    """Every line of the table: the answer, and the records where they are told."""
    tally.check([case.number for case in cases] == [str(k + 1) for k in range(len(cases))],
                "the numbers of the table")
    tally.check(len({case.name for case in cases}) == len(cases), "a name stands twice")
    answers = reader.lines_in_rooms(lambda k: cases[k].told(),
                                    [(case.page, case.room) for case in cases])
    for case, lines in zip(cases, answers):
        tally.check(page_making.answer(lines) == case.answer,
                    "%s, but the reference says %s" % (case.told(), page_making.answer(lines)))
        if case.lines() is not None:
            tally.check(lines == case.lines(), "%s: other records\n%s" % (case.told(), lines))
        if case.answer.startswith("done"):
            tally.check(inside(case.page, lines), "%s: data outside the page" % case.told())


def runs(works):
    """(case, numbers, pages)s in lists of those that one run of a reader is given."""
    run, octets = [], 0
    for work in works:
        run.append(work)
        octets += sum(len(page) for page, _ in work[2])
        if octets > TOGETHER:
            yield run
            run, octets = [], 0
    yield run


def answered(reader, what, works):
    """(case, numbers, what the reader prints) of each (case, numbers, pages), a page and a room for
    each number; `what` a number is tells which page of the case it is."""
    for run in runs(works):
        told = ["%s, %s %d" % (case.told(), what, number) for case, numbers, _ in run
                for number in numbers]
        lines = iter(reader.lines_in_rooms(told.__getitem__, [
            each for *_, pages in run for each in pages]))
        for case, numbers, _ in run:
            yield case, numbers, [next(lines) for _ in numbers]


def in_rooms(cases):
    """(case, rooms, pages): first in the room that it needs."""
    for case in cases:
        if case.answer.startswith("done") and len(case.page) <= LARGE:
            least = RECORD * int(case.answer.split()[1])
            rooms = [least, 0, 1, RECORD, least - RECORD, least - 1, least, least + 1,
                     least + RECORD, 100000]
            yield case, rooms, [(case.page, room) for room in rooms]


def check_rooms(tally, reader, cases):
    """A page whose sheet has R records is read in any room from 28 R on, and in none below."""
    for case, rooms, (whole, *answers) in answered(reader, "in room", in_rooms(cases)):
        wrong = [room for room, lines in zip(rooms[1:], answers)
                 if lines != (whole if room >= rooms[0] else "refused 13 0\n")]
        tally.check(page_making.answer(whole) == case.answer and not wrong,
                    "%s: in room %s" % (case.told(), wrong))


def refusal(lines):
    """(number, place) of a refusal, or None."""
    words = lines.split()
    return (int(words[1]), int(words[2])) if words[:1] == ["refused"] else None


def inside(page, lines):
    """Every coded record's data is in the page, and a picture's is a picture."""
    for line in lines.splitlines():
        layer, begin, length = (int(line.split()[k]) for k in (1, 11, 12))
        if length == 0:
            continue
        data = page[begin:begin + length]
        if begin < FIRST_CODED or len(data) != length:
            return False
        if layer != 2 and (data[:2] != b"\xff\xd8" or data[-2:] != b"\xff\xd9"):
            return False
    return True


def made(what, words, answer):
    return "%s: %s" % (what, words), b"".join(map(page_making.part, words.split())), answer


def code_pages():
    """(what, page, answer): every marker code at three places of a layer, behind one FF and behind
    fill, each time followed by 00 04 5A 5A, which is the rest of a segment that can be skipped."""
    for code, run in itertools.product(range(256), (1, 2, 9)):
        octets = "FF" * run + "%02X00045A5A" % code
        data = code in range(0xD0, 0xD8) or (code == 0x00 and run == 1)
        frame, skipped = code in page_random.FRAMES, code in page_random.SKIPPED
        # before the frame, at 77
        answer = ("refused 11 %d" % (78 + run) if code == 0x01
                  else "refused 3 %d" % (78 + run) if frame
                  else "done 3" if skipped else "refused 11 77")
        yield made("before the frame", "head1 soi fax %s frame scan 12 eoi end" % octets, answer)
        # in scan data, where its marker is at 101; and outside of it, at 105
        for what, before, at in (("in scan data", "12", 101),
                                 ("behind a scan", "12FFDB0002", 105)):
            taken = skipped or code == 0xDA or (data and at == 101)
            behind = at + run + 1
            answer = ("done 3" if taken else "refused 11 %d" % behind if code == 0x01
                      else "refused 2 %d" % behind if code == 0xD9 else "refused 11 %d" % at)
            yield made(what, "head1 soi fax frame scan %s%s eoi end" % (before, octets), answer)


def count_pages():
    """(what, page, answer): every count of components, in a background and in a foreground."""
    for count in range(256):
        for what, words, at in (("background", "head1 back(c=%d) end", 86),
                                ("foreground", "start stripe(type=6) mask fore(c=%d) end", 91)):
            answer = "done 3" if count in (1, 3) else "refused 11 %d" % at
            yield made("a %s of %d components" % (what, count), words % count, answer)


# what may stand in scan data, and where its fault is counted from its first octet, if it has one
IN_DATA = [(b"\xff\x00", None), (b"\xff\xd0", None), (b"\xff\xd7", None), (b"\xff\x01", 2),
           (b"\xff\x02", 0), (b"\xff\xcf", 0), (b"\xff\xd8", 0), (b"\xff\xff\x00", 0),
           (b"\xff\xff\xd0", None), (b"\xff\xff\xff\xd7", None), (b"\xff\xff\x01", 3),
           (b"\xff\xff\x02", 0), (b"\xff\xff\xff\xd8", 0)]


def position_pages():
    """(what, page, answer): a code behind its FF at every octet of scan data, and one octet at
    every place behind the end: a reader may well look at many octets at a time."""
    before = b"".join(map(page_making.part, "head1 soi fax frame scan".split()))
    end = b"\xff\xd9\xff\xd9\xff\xd9"
    for k in range(POSITIONS):
        yield "%d octets of scan data" % k, before + b"\xfe" * k + end, "done 3"
        yield "scan data of %d octets to the end" % k, before + b"\xfe" * k, "refused 1 100"
        for run in (1, 2):
            yield ("%d FF after %d octets to the end" % (run, k),
                   before + b"\xfe" * k + b"\xff" * run, "refused 1 100")
        for octets, fault in IN_DATA:
            data = b"\xfe" * k + octets + b"\xfe" * (POSITIONS - k)
            yield "%s in scan data at %d" % (octets.hex(), k), before + data + end, (
                "done 3" if fault is None else "refused 11 %d" % (len(before) + k + fault))
        zeros = bytearray(POSITIONS)
        zeros[k] = 1 + k
        yield "zeros but at %d" % k, before + end + zeros, "refused 12 %d" % (
            len(before) + len(end) + k)


def check_pages(tally, reader, pages):
    """Pages whose answers are known: (what, page, answer)."""
    answers = reader.lines(lambda k: pages[k][0], [page for _, page, _ in pages])
    for (told, _, answer), lines in zip(pages, answers):
        tally.check(page_making.answer(lines) == answer, "%s: %s, but the reference says %s"
                    % (told, answer, page_making.answer(lines)))


def is_good_cut(page, size, lines, whole):
    """A cut page is read as the whole one up to where octets lack: it gives the
    same refusal, or Short at a place that it has; or the same records, where
    only zeros behind the end (or what trailed them) are gone."""
    short = refusal(lines)
    if short is not None:
        return short[1] <= size and (short[0] == 1 or lines == whole)
    if lines.startswith("broken") or not lines:
        return False
    trailing = refusal(whole)
    if trailing is None:
        return lines == whole and not any(page[size:])
    return trailing[0] == 12 and size <= trailing[1] and not any(page[size:trailing[1]])


def cuts(rng, page):
    """Where a page is cut: at every octet, or a large one where something can happen."""
    if len(page) <= LARGE:
        return list(range(len(page)))
    return sorted({*range(120), rng.randrange(len(page)), len(page) - 2, len(page) - 1})


def cut_pages(rng, cases):
    """(case, sizes, pages): first the whole page."""
    for case in cases:
        # too long a page is not read at all, so its cuts need not resemble it
        if case.room == page_making.ROOM and len(case.page) <= 16777215:
            sizes = [len(case.page), *cuts(rng, case.page)]
            pages = [case.page[:size] for size in sizes]
            yield case, sizes, [(page, room_for(page)) for page in pages]


def check_cuts(tally, reader, cases, rng):
    made = 0
    for case, sizes, (whole, *answers) in answered(reader, "cut at", cut_pages(rng, cases)):
        wrong = [size for size, lines in zip(sizes[1:], answers)
                 if not is_good_cut(case.page, size, lines, whole)]
        tally.check(not wrong, "%s: cut at %s" % (case.told(), wrong[:5]))
        made += len(answers)
    print("%d cut pages" % made)


def check_good(tally, reader, rng):
    """Pages that keep every rule give just the records that they were made of."""
    pages = [page_random.random_page(rng) for _ in range(GOOD)]
    answers = reader.lines(lambda k: "random page %d" % k, [page for page, _ in pages])
    for k, ((page, expected), lines) in enumerate(zip(pages, answers)):
        tally.check(lines == expected, "random page %d: %s for %s"
                    % (k, page_making.answer(lines), page_making.answer(expected)))
        tally.check(inside(page, lines), "random page %d: data outside the page" % k)


def without_data(lines):
    """A listing without where coded data stands and how long it is."""
    return [line.split()[:11] + line.split()[13:] for line in lines.splitlines()]


def check_padded(tally, reader, rng):
    """Fill before markers changes no record but where data stands and how long it is."""
    seeds = [rng.getrandbits(32) for _ in range(PADDED)]
    plain, padded = ([page_random.random_page(random.Random(seed), often=often)[0]
                      for seed in seeds] for often in (0, 1))
    answers = reader.lines(lambda k: "page %d, with fill from %d on" % (k, PADDED), plain + padded)
    for k, (before, lines) in enumerate(zip(answers, answers[PADDED:])):
        tally.check(lines[:1].isdigit() and without_data(before) == without_data(lines),
                    "page %d with fill: %s, and other records without" % (k, page_making.answer(lines)))
    more = sum(before != page for before, page in zip(plain, padded))
    print("%d pages without fill and with it, %d octets more" % (
        more, sum(map(len, padded)) - sum(map(len, plain))))
    tally.check(more > PADDED // 5, "of %d pages only %d have fill" % (PADDED, more))


def check_damaged(tally, reader, what, pages, reached):
    """Damaged pages: an answer within the page, and every number that is due is reached."""
    numbers = collections.Counter()
    answers = reader.lines(lambda k: "%s %d" % (what, k), pages)
    for k, (page, lines) in enumerate(zip(pages, answers)):
        refused = refusal(lines)
        if refused is not None:
            holds = refused[1] <= len(page)
        else:
            holds = lines[:1].isdigit() and inside(page, lines)
        tally.check(holds, "%s %d: %s" % (what, k, page_making.answer(lines)))
        numbers[refused[0] if refused else 0] += 1
    print("%d %ss: %s" % (len(pages), what, ", ".join(
        "answer %d %d times" % each for each in sorted(numbers.items()))))
    missing = reached - set(numbers)
    tally.check(not missing, "no %s has the answers %s" % (what, missing))


def main():
    seed = int(os.environ.get("SEED") or random.randrange(2 ** 32))
    print("SEED=%d" % seed)
    tally = reference_run.Tally()
    library = reference_run.build_library_driver(tally)
    # where each step of the reference is watched it takes its time: cut pages are many
    reader = Reader(tally, library, "reference_read", SANITIZED)
    plain = Reader(tally, library, "reference_read_plain", ("-O2",))
    cases = page_making.table()
    check_table(tally, reader, cases)
    check_rooms(tally, plain, cases)
    check_pages(tally, reader, [*code_pages(), *count_pages(), *position_pages()])
    check_pages(tally, reader, [*fill_pages.run_pages(), *fill_pages.string_pages()])
    check_cuts(tally, plain, cases, random.Random(seed))
    check_cuts(tally, reader, cases[::12], random.Random(seed))
    check_good(tally, reader, random.Random(seed + 1))
    check_padded(tally, reader, random.Random(seed + 3))
    rng = random.Random(seed + 2)
    check_damaged(tally, reader, "damaged page", [
        page_random.damaged(rng, page_random.random_page(rng)[0]) for _ in range(DAMAGED)],
                  set(range(13)))
    check_damaged(tally, reader, "faulty layer", [page_random.faulty_layer(rng)
                                                  for _ in range(LAYERS)], {0, 1, 2, 3, 11})
    if library is not None:
        print("%d pages read by the reference and by the library"
              % (reader.compared + plain.compared))
        reader.counts.join(plain.counts)
        reader.counts.save("test_pages_reference")
    return tally.end()


if __name__ == "__main__":
    sys.exit(main())
