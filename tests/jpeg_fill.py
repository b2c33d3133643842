"""Fill before the markers of a JPEG layer: "any marker may optionally be preceded by any number of
fill bytes, which are bytes assigned code X'FF'" (T.81, B.1.1.2), and the picture stays the same.

    python3 tests/jpeg_fill.py COUNTS IN OUT

puts FF octets before every marker of the layer IN but its first, restart markers in scan data too,
and writes the layer to OUT. COUNTS tells how many: `3` before each, `1,2,7` by turns, 0 is none.
What is no JPEG layer is refused in one line with its place (status 1), bad words too (status 2);
OUT takes its place when it is whole, so that what stood there before is lost only then.
"""

import itertools
import os
import re
import sys
import tempfile

STAND_ALONE, RESTARTS, END, SCAN = 0x01, range(0xD0, 0xD8), 0xD9, 0xDA
NO_MARKERS = (0x00, *range(0x02, 0xC0), *RESTARTS, 0xD8)     # outside a scan, behind the first
MOST = 16777215                                              # octets that a page can have
RUN = re.compile(rb"\xff*")


class NoLayer(ValueError):
    """What is wrong with octets that are no JPEG layer, and where."""


def behind_run(layer, at):
    """The place of the code behind a run of FF."""
    behind = RUN.match(layer, at).end()
    if behind == at < len(layer):
        raise NoLayer("no marker at octet %d" % at)
    if behind == len(layer):
        raise NoLayer("the layer ends where a marker is due, at octet %d" % at)
    return behind


def behind_segment(layer, at):
    """The octet behind a segment whose length stands at `at`: what its body holds is no marker."""
    length = int.from_bytes(layer[at:at + 2], "big")
    if len(layer) - at < max(length, 2):
        raise NoLayer("the segment does not end, its length is at octet %d" % at)
    if length < 2:
        raise NoLayer("a length below 2 at octet %d" % at)
    return at + length


def next_in_scan(layer, at):
    """The next marker in scan data, or the one that ends it; FF 00 is data (T.81, B.1.1.5)."""
    while True:
        place = layer.find(b"\xff", at)
        if place < 0:
            raise NoLayer("scan data with no marker behind it, from octet %d" % at)
        code = behind_run(layer, place)
        if layer[code] != 0:
            return place
        if code > place + 1:
            raise NoLayer("fill before 00 at octet %d" % place)
        at = code + 1


def markers(layer):
    """(place of the first FF, code) of each marker behind the first."""
    if layer[:2] != b"\xff\xd8":
        raise NoLayer("the layer does not begin with FF D8")
    at, code, in_scan = 2, None, False
    while code != END:
        place = next_in_scan(layer, at) if in_scan else at
        at = behind_run(layer, place)
        code = layer[at]
        at += 1
        if not (in_scan and code in RESTARTS):
            if code in NO_MARKERS:
                raise NoLayer("no marker of a layer at octet %d" % place)
            in_scan = code == SCAN
            if code not in (STAND_ALONE, END):
                at = behind_segment(layer, at)
        yield place, code
    if at != len(layer):
        raise NoLayer("octets behind the layer's end, from octet %d" % at)


def padded(layer, counts):
    """The layer with so many FF before each marker but the first, the counts by turns."""
    places = [place for place, _ in markers(layer)]
    runs = list(itertools.islice(itertools.cycle(counts), len(places)))
    if len(layer) + sum(runs) > MOST:
        raise NoLayer("with its fill the layer has %d octets, a page has at most %d"
                      % (len(layer) + sum(runs), MOST))
    parts, begin = [], 0
    for place, run in zip(places, runs):
        parts += [layer[begin:place], b"\xff" * run]
        begin = place
    return b"".join(parts) + layer[begin:]


# The program

def counts_of(words):
    """The numbers of COUNTS, or None."""
    if not re.fullmatch(r"[0-9]{1,8}(,[0-9]{1,8})*", words):
        return None
    return [int(word) for word in words.split(",")]


def read(path):
    with open(path, "rb") as file:
        octets = file.read(MOST + 1)
    if len(octets) > MOST:
        raise NoLayer("more than the %d octets that a page can have" % MOST)
    return octets


def write_whole(path, octets):
    """A file beside the path takes its place when it is whole; through a link, that of its file."""
    path = os.path.realpath(path)
    if os.path.exists(path):
        if not os.path.isfile(path):
            raise OSError("this is no plain file")
        mode = os.stat(path).st_mode & 0o777
    else:
        mask = os.umask(0)
        os.umask(mask)
        mode = 0o666 & ~mask
    handle, made = tempfile.mkstemp(prefix=".jpeg_fill-", dir=os.path.dirname(path))
    try:
        with os.fdopen(handle, "wb") as file:
            os.fchmod(file.fileno(), mode)
            file.write(octets)
        os.replace(made, path)
    except BaseException:
        os.remove(made)
        raise


def main(words):
    counts = counts_of(words[0]) if len(words) == 3 else None
    if counts is None:
        print("jpeg_fill.py COUNTS IN OUT: counts such as 3 or 1,2,7, a JPEG layer, and the file "
              "that the layer with fill is written to", file=sys.stderr)
        return 2
    path = words[1]
    try:
        layer = padded(read(path), counts)
        path = words[2]
        write_whole(path, layer)
    except (NoLayer, OSError) as wrong:
        print("jpeg_fill.py: %s: %s" % (path, getattr(wrong, "strerror", None) or wrong),
              file=sys.stderr)
        return 1
    return 0


if __name__ == "__main__":
    sys.exit(main(sys.argv[1:]))
