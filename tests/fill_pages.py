"""Pages with runs of FF before codes in a layer, of every length and in every small form, and what
is due to each.

The answers come from patterns over the octets; the reference goes from octet to octet.
"""

import itertools
import re

from page_making import part

RUNS = 200           # more FF than a reader looks at in one step
LONGEST = 5          # of all strings of these octets
OCTETS = b"\xff\x00\x01\xd3\xd9"
END = b"\xff\xd9\xff\xd9"
DATA = re.compile(rb"(?:[^\xff]|\xff\0|\xff+[\xd0-\xd7])*")
MARKER = re.compile(rb"\xff+([^\xff])")


def made(words):
    return b"".join(map(part, words.split()))


FRAME = made("head1 soi fax frame")            # a marker is due at 90
SCAN = made("head1 soi fax frame scan")        # scan data begins at 100


def run_pages():
    """(what, page, answer): runs of FF of every length in scan data and behind the frame."""
    for run in range(1, RUNS + 1):
        before = SCAN + b"\xfe" * (5 * run % 17)
        for code, behind, answer in (
                (b"\xd9", END, "done 3"), (b"\xd3", b"\xff\xd9" + END, "done 3"),
                (b"\0", b"\xff\xd9" + END, "done 3" if run == 1 else "refused 11 %d" % len(before)),
                (b"\x02", b"\xff\xd9" + END, "refused 11 %d" % len(before)),
                (b"", b"", "refused 1 100")):
            yield ("%d FF in scan data before %s" % (run, code.hex() or "the page's end"),
                   before + b"\xff" * run + code + behind, answer)
        for code, behind, answer in (
                (b"\xda", b"\0\2\xff\xd9" + END, "done 3"), (b"\0", SCAN[90:], "refused 11 90"),
                (b"\xd3", SCAN[90:], "refused 11 90"), (b"", b"", "refused 1 90")):
            yield ("%d FF behind the frame before %s" % (run, code.hex() or "the page's end"),
                   FRAME + b"\xff" * run + code + behind, answer)


def due_behind(page, at):
    """What is due to a page whose last layer ends before `at`."""
    for field in (at, at + 2):
        if page[field:field + 2] != b"\xff\xd9":
            return "refused %d %d" % (2 if len(page) >= field + 2 else 1, field)
    rest = page[at + 4:].lstrip(b"\0")
    return "refused 12 %d" % (len(page) - len(rest)) if rest else "done 3"


def due(page, at, data=None):
    """What is due to a page whose layer has its frame, and goes on with the marker at `at` or the
    scan data at `data`. The codes that come are 00, 01, D0 to D7, D9, and DA with all its header."""
    scans = data is not None
    while True:
        at = at if data is None else DATA.match(page, data).end()
        found = MARKER.match(page, at)
        if not found and data is not None:
            return "refused 1 %d" % data
        if not found:
            cut = len(page) - at < 2 or page[at] == 0xFF
            return "refused %d %d" % (1 if cut else 11, at)
        code, behind = found[1], found.end()
        if code == b"\x01":
            at, data = behind, None
        elif code == b"\xda":
            scans, data = True, behind + int.from_bytes(page[behind:behind + 2], "big")
        elif code == b"\xd9" and scans:
            return due_behind(page, behind)
        else:
            return "refused 11 %d" % at


def string_pages():
    """(what, page, answer): all strings of some octets, as scan data and behind the frame, with
    the rest of a page behind them and without."""
    for size in range(LONGEST + 1):
        for string in map(bytes, itertools.product(OCTETS, repeat=size)):
            for rest in (b"\xff\xd9" + END, b""):
                page = SCAN + string + rest
                yield "scan data %s, %d" % (string.hex(), len(rest)), page, due(page, None, 100)
            for rest in (SCAN[90:] + b"\x12\xff\xd9" + END, b""):
                page = FRAME + string + rest
                yield "%s behind the frame, %d" % (string.hex(), len(rest)), page, due(page, 90)
