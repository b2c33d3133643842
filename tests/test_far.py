"""Lengths beyond 2^32, lent to each of the calls, where the machine allows: a length that is
cut to 32 bits shows in the answer.

What is expected is worked out from how each call is put together, and asked of
the reference and of the library.
"""

import os
import sys

import band_making
import calls
import data_making
import line_making
import reference_run
import write_making
from page_making import MASK, big, start, stripe

TOP = 2 ** 32
DRIVER = ("console.c", os.path.join(reference_run.DRIVER, "far.c"))
PAGE = start() + stripe() + MASK + b"\xff\xd9\xff\xd9"
UNSEEN = (1, 2, 3)


def words(name, parts, room=0, numbers=(0, 0), shown=0):
    """A call as the driver reads it; a part is its octets, or its octets and its length."""
    parts = [part if isinstance(part, tuple) else (part, len(part)) for part in parts]
    parts += [(b"", 0)] * (3 - len(parts))
    told = [calls.NUMBERS[name], *(size for _, size in parts),
            *(len(octets) for octets, _ in parts), room, shown, *calls.told_numbers(numbers)]
    return b"".join(big(n, 8) for n in told) + b"".join(octets for octets, _ in parts)


def sheet_of(stripe):
    """The sheet of one stripe, in the words of tests/lines.md."""
    return bytes(line_making.stripes_of(stripe)[0].records(0))


def read_calls():
    sheet = data_making.sheet_of("1000x100 2 2>61+5")
    for layer, base in ((0, (10, 11, 12)), (2, (20, 21, 22))):
        sheet[28 * layer + 14:28 * layer + 17] = bytes(base)
    sheet[31] = 4
    for size in (TOP, TOP + len(PAGE), TOP + 16777215):
        yield "a page of %d octets" % size, words("read", [(PAGE, size)], 84, shown=84), (
            "18 0 0 0 0 " + "00" * 84)
    for room in (TOP, TOP + 1, TOP + 84):
        yield "a page in room %d" % room, words("read", [PAGE], room, shown=85), (
            "0 0 3 0 0 " + sheet.hex() + "00")


def write_calls():
    sheet, data = bytes(write_making.sheet_of("t7")), bytes(write_making.octets_of("all"))
    page = bytes(write_making.octets_of("start w7 end"))
    due = "0 0 %d 0 0 %s" % (len(page), page.hex())
    for size in (TOP, TOP + 1, TOP + 93):
        yield "data of %d octets" % size, words("write", [sheet, (data, size)], len(page),
                                                shown=len(page)), due
        yield "a page in room %d" % size, words("write", [sheet, data], size, shown=len(page)), due
        # the record behind the sheet is all zeros: stripe 0, layer 0
        yield "a sheet of %d octets" % size, words("write", [(sheet, size), data], 200), (
            "14 3 0 0 0 ")


def line_calls(name, unseen):
    sheet, planes = sheet_of("4x1 2 1=W 3=K"), line_making.entry(2, 0)
    samples, numbers = b"\1\0\0\1", line_making.with_unseen((0, 0), unseen)

    def line(parts, room, due):
        """The call, and what is due: a line in the words of its table, or a refusal."""
        if due[0].isdigit():
            return words(name, parts, room, numbers), due
        return words(name, parts, room, numbers, 16), (
            "0 0 16 0 0 " + line_making.line_of(due, unseen).hex())

    for size in (TOP, TOP + 3, TOP + 16):
        yield "%s in room %d" % (name, size), *line([sheet, planes, samples], size, "K W W K")
        yield "%s, unseen, in room %d" % (name, size), *line([sheet], size, ". . . .")
        yield "%s, samples of %d octets" % (name, size), *line(
            [sheet, planes, (samples, size)], 16, "K W W K")
        # the second entry names layer 0
        yield "%s, a plane list of %d octets" % (name, size), *line(
            [sheet, (planes, size), samples], 16, "15 1 0 0 0 ")
        yield "%s, a sheet of %d octets" % (name, size), *line(
            [(sheet, size), planes, samples], 16, "14 3 0 0 0 ")
    last = line_making.entry(2, TOP - 4)
    yield name + ", the last samples before 2^32", *line([sheet, last, (b"", TOP)], 16, "W W W W")
    yield name + ", an octet less", *line([sheet, last, (b"", TOP - 1)], 16, "15 0 0 0 0 ")


def band_calls():
    """Beside lengths those bands that have 2^32 octets and more themselves: in a room that is an
    octet short of them, or of as much as 32 bits of the size are, nothing is touched."""
    sheet, planes = sheet_of("4x2 2 1=W 3=K"), line_making.entry(2, 0)
    samples, numbers = b"\1\0\0\1\0\1\1\0", (0, *UNSEEN)
    seen = "0 0 32 0 0 " + band_making.band_of("K W W K / W K K W", UNSEEN).hex()
    for size in (TOP, TOP + 3, TOP + 32):
        yield "band in room %d" % size, words("band", [sheet, planes, samples], size, numbers,
                                              33), seen + "00"
        yield "band, unseen, in room %d" % size, words("band", [sheet], size, numbers, 32), (
            "0 0 32 0 0 " + band_making.band_of("2*(4*.)", UNSEEN).hex())
        yield "band, samples of %d octets" % size, words(
            "band", [sheet, planes, (samples, size)], 32, numbers, 32), seen
        yield "band, a plane list of %d octets" % size, words(
            "band", [sheet, (planes, size), samples], 32, numbers), "15 1 0 0 0 "
        yield "band, a sheet of %d octets" % size, words(
            "band", [(sheet, size), planes, samples], 32, numbers), "14 3 0 0 0 "
    for width, height in ((32768, 32768), (32768, 32769), (16385, 65535), (32768, 65535)):
        large, size = sheet_of("%dx%d 1:1x1" % (width, height)), 4 * width * height
        for room in {size - 1, size - TOP, size % TOP + 1, TOP - 1}:
            yield "band of %d octets in room %d" % (size, room), words(
                "band", [large], room, numbers), "13 0 0 0 0 "
    last = line_making.entry(2, TOP - 8)
    yield "band, the last samples before 2^32", words(
        "band", [sheet, last, (b"", TOP)], 32, numbers, 32), (
            "0 0 32 0 0 " + band_making.band_of("2*(4*W)", UNSEEN).hex())
    yield "band, an octet less", words("band", [sheet, last, (b"", TOP - 1)], 32, numbers), (
        "15 0 0 0 0 ")


def data_calls():
    start_of, length = TOP - 101, 100
    sheet = bytes(data_making.sheet_of("6x2x5 2 2>%d+%d 4:3x2 4>%d+%d"
                                       % ((start_of, length) * 2)))
    done = "0 0 %d %%d %d " % (length, start_of)
    for size in (TOP - 1, TOP, TOP + 1, TOP + start_of):
        yield "a page of %d octets" % size, words("data", [sheet, (b"", size)],
                                                  numbers=(0, 2)), done % 0
        yield "a pencil file of %d octets" % size, words("data", [sheet, b"", (b"", size)],
                                                         numbers=(0, 4)), done % 1
        yield "a page of %d octets and no pencil file" % size, words(
            "data", [sheet, (b"", size)], numbers=(0, 4)), "1 3 0 0 0 "
        yield "a sheet behind which %d octets are 0" % size, words(
            "data", [(sheet, size), b"", b""], numbers=(0, 2)), "14 5 0 0 0 "
    yield "a page that ends an octet early", words("data", [sheet, (b"", TOP - 2)],
                                                   numbers=(0, 2)), "1 1 0 0 0 "


def judge_calls():
    sheet = bytes(data_making.sheet_of("6x2x5 2"))
    yield "a good sheet", words("judge", [sheet]), "0 0 5 0 0 "
    for size in (TOP, TOP + 1, TOP + 140):
        yield "a sheet of %d octets" % size, words("judge", [(sheet, size)]), "14 5 0 0 0 "


def check(tally, told, program):
    works = [*read_calls(), *write_calls(), *line_calls("line", None),
             *line_calls("line_unseen", UNSEEN), *band_calls(), *data_calls(), *judge_calls()]
    printed, wrong, signal = reference_run.ended(program, b"".join(each[1] for each in works),
                                                 ["many"])
    lines = printed.decode("ascii", "replace").split("\n")[:-1]
    tally.check(len(lines) == len(works), "%s: %d answers to %d calls; %s %s"
                % (told, len(lines), len(works), signal, wrong[:200]))
    for (name, _, due), got in zip(works, lines):
        if got != "no memory":
            tally.check(got == due, "%s: %s: %s is due, not %s" % (told, name, due, got))
    print("%s: %d calls beyond 2^32 octets, %d of them without memory for it"
          % (told, len(works), lines.count("no memory")))


def main():
    tally = reference_run.Tally()
    check(tally, "the reference", reference_run.build(
        "reference_far", parts=reference_run.CALLS + DRIVER))
    if os.path.exists(reference_run.archive()):
        check(tally, "the library", reference_run.build(
            "library_far", parts=DRIVER + (reference_run.archive(),)))
    else:
        tally.check(False, "no %s: make it first" % reference_run.archive())
    return tally.end()


if __name__ == "__main__":
    sys.exit(main())
