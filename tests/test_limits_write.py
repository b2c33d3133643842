"""The largest pages and the smallest stack, written by the reference and by the library.

The sheets are those of the pages of tests/test_limits.py, which serve as the
data; the pages due are put together from the records. Both writers run in a
stack that is hardly more than a C program needs to begin at all.
"""

import subprocess
import sys

import reference_run
import test_limits
from page_making import MASK, start, stripe
from test_limits import END, LONGEST, SCAN, in_stack
from write_random import page_of, rows_of, sheet_of

STACK = 16          # KiB for a writer: it needs no sheet in the making
WALKS = 128         # image layers that share one picture of 16 MB
FEW_WALKS = 8       # of the reference, which walks slowly


def read_pages():
    """(name, sheet, data, page) of the pages that are read"""
    for name, page, lines in [*test_limits.layer_pages(), test_limits.full_stripes()]:
        rows = rows_of(lines)
        yield name, sheet_of(rows), page, page_of(rows, page)


def many_rows(length, walks=WALKS):
    """64 stripes, or fewer, whose image layers are all the data from 0 on."""
    for number in range(walks // 2):
        yield [number, 1, 1, 0, 0, 50, 20, 200, 1, 2, 3, 0, length, 0]
        yield [number, 2, 8, 0, 0, 9, 9, 400, 0, 0, 0, 0, 1, 0]
        yield [number, 3, 1, 0, 0, 50, 20, 200, 1, 2, 3, 0, length, 0]


def refused_works(walks):
    """(name, sheet, data, answer): what a writer looks at to the end before it refuses."""
    size = LONGEST - 65
    picture = SCAN + bytes(size - len(SCAN) - 2) + b"\xff\xd9"
    yield ("%d walks of 16 MB" % walks, sheet_of(many_rows(size, walks)), picture, "refused 18 0")
    rows = list(many_rows(size))
    rows[0][12] += 1
    yield "a walk that ends an octet early", sheet_of(rows), picture + b"\0", "refused 16 0"
    # every fourth octet is FF, and no marker follows
    open_end = SCAN + b"\xff\0\xfe\xfe" * (size // 4)
    yield ("scan data to the record's end", sheet_of(many_rows(len(open_end))), open_end,
           "refused 16 0")
    rows[0][12] -= 1
    rows[-1][5] += 1
    small = b"\xff\xd8" + picture[2:300] + b"\xff\xd9"
    rows = [row[:12] + [min(row[12], len(small)), row[13]] for row in rows]
    yield "the last record of 192", sheet_of(rows), small, "refused 16 191"


def works(walks):
    """(name, sheet, data, room, what is printed)"""
    for name, sheet, data, page in read_pages():
        yield name, sheet, data, len(page), b"done %d\n" % len(page) + page
        yield name + ", no room", sheet, data, len(page) - 1, b"refused 13 0\n"
    for name, sheet, data, answer in refused_works(walks):
        yield name, sheet, data, LONGEST, answer.encode() + b"\n"
    page = start(image=0) + stripe(x1=0, y1=0, x3=0, y3=0) + MASK + END
    sheet = sheet_of(rows_of(test_limits.listing("0 2 4 0 0 1000 100 400 0 0 0 0 5 0")))
    yield "a mask", sheet, MASK, len(page), b"done %d\n" % len(page) + page
    # each is written with a null pointer for no octets too
    yield "no sheet", b"", MASK, 70, b"refused 14 0\n"
    yield "no data", sheet, b"", 70, b"refused 1 1\n"
    yield "no room", sheet, MASK, 0, b"refused 13 0\n"
    yield "nothing at all", b"", b"", 0, b"refused 14 0\n"


def check_writer(tally, told, program, walks):
    stack = test_limits.least_stack(program) + STACK
    count = 0
    for name, sheet, data, room, due in works(walks):
        words = reference_run.words(sheet, data, room)
        try:
            got = in_stack(program, stack, words)
        except subprocess.TimeoutExpired:
            got = b"no end after %d seconds" % reference_run.SECONDS
        tally.check(got == due + b".\n", "%s: %s: %s is due, but it says %s"
                    % (told, name, due[:40], got[:40]))
        count += 1
    print("%s: %d sheets in a stack of %d KiB" % (told, count, stack))


def main():
    tally = reference_run.Tally()
    check_writer(tally, "the reference",
                 reference_run.build("reference_write_plain", parts=reference_run.parts_of("write")), FEW_WALKS)
    library = reference_run.build_library_driver(tally, "write")
    if library is not None:
        check_writer(tally, "the library", library, WALKS)
    return tally.end()


if __name__ == "__main__":
    sys.exit(main())
