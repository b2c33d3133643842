"""Sheets, made from the words of tests/sheets.md.

The tables there say how each sheet is made; this module reads those words, so
that a sheet cannot drift from its line.
"""

import os
import re
import struct

RECORD = 28
MAIN = 400

# name: (octet of the record, size), as in the paper's table "The sheet"
FIELDS = {
    "stripe": (0, 2),
    "layer": (2, 1),
    "coder": (3, 1),
    "x": (4, 2),
    "y": (6, 2),
    "width": (8, 2),
    "height": (10, 2),
    "resolution": (12, 2),
    "start": (18, 4),
    "length": (22, 4),
    "grey": (17, 1),
}
FIELDS.update({"octet%d" % k: (k, 1) for k in range(RECORD)})
LAYOUT = struct.Struct(">HBBHHHHHBBBBIIxx")

WHITE = (255, 128, 96)
BLACK = (0, 128, 96)


def record(stripe, layer, coder, x, y, width, height, resolution, colour, start, length, grey=0):
    """The 28 octets of a record, its fields as the listing has them."""
    return bytearray(LAYOUT.pack(stripe, layer, coder, x, y, width, height, resolution,
                                 *colour, grey, start, length))


def put(sheet, number, field, value):
    """Sets a field of a record, most significant octet first."""
    at, size = FIELDS[field]
    at += number * RECORD
    assert at + size <= len(sheet), "no record %d" % number
    sheet[at:at + size] = value.to_bytes(size, "big")


def get(sheet, number, field):
    at, size = FIELDS[field]
    at += number * RECORD
    return int.from_bytes(sheet[at:at + size], "big")


def coded_record(stripe, layer):
    colour = (0, 0, 0) if layer % 2 == 0 else (10, 20, 30)
    if layer == 2:
        return record(stripe, layer, 1, 0, 0, 1000, 100, MAIN, colour, 1000, 10)
    return record(stripe, layer, 1, 16, 8, 50, 20, 200, colour, 1000, 10)


def plain_record(stripe, layer):
    if layer == 2:
        return record(stripe, layer, 4, 0, 0, 1000, 100, MAIN, (0, 0, 0), 1000, 10)
    colour = (0, 0, 0) if layer % 2 == 0 else WHITE
    return record(stripe, layer, 0, 0, 0, 0, 0, MAIN, colour, 0, 0)


def example():
    """The sheet of the paper's listing; its layer 2 as the paper prints it."""
    mask = bytes.fromhex(
        "00 00 02 04 00 00 00 00 00 04 00 02 00 C8"
        "00 00 00 00 00 00 00 3C 00 00 00 05 00 00")
    return (record(0, 1, 0, 0, 0, 0, 0, 200, WHITE, 0, 0) + mask
            + record(0, 3, 0, 0, 0, 0, 0, 200, BLACK, 0, 0))


def base_sheet(words):
    """`nothing`, `example`, `coded(S,N)` or `plain(S,N)`."""
    if words == "nothing":
        return bytearray()
    if words == "example":
        return bytearray(example())
    kind, stripes, layers = re.fullmatch(r"(coded|plain)\((\d+),(\d+)\)", words).groups()
    one = coded_record if kind == "coded" else plain_record
    sheet = bytearray()
    for stripe in range(int(stripes)):
        for layer in range(1, int(layers) + 1):
            sheet += one(stripe, layer)
    return sheet


def uncode(sheet, number):
    for field in ("coder", "start", "length"):
        put(sheet, number, field, 0)
    if get(sheet, number, "layer") != 2:
        for field in ("x", "y", "width", "height"):
            put(sheet, number, field, 0)
        put(sheet, number, "resolution", MAIN)


def changed(sheet, words):
    """The sheet after one change, told in the words of the table."""
    setting = re.fullmatch(r"(\d+)\.(\w+)=(\d+)", words)
    if setting:
        put(sheet, int(setting[1]), setting[2], int(setting[3]))
        return sheet
    verb, *numbers = words.split()
    numbers = [int(n) for n in numbers]
    if verb == "order":
        return bytearray().join(sheet[n * RECORD:(n + 1) * RECORD] for n in numbers)
    if verb == "more":
        return sheet + bytes([numbers[1]]) * numbers[0]
    at = numbers[0]
    if verb == "cut":
        return sheet[:at]
    here, behind = at * RECORD, (at + 1) * RECORD
    assert behind <= len(sheet), words
    if verb == "drop":
        return sheet[:here] + sheet[behind:]
    if verb == "double":
        return sheet[:behind] + sheet[here:]
    if verb == "uncode":
        uncode(sheet, at)
        return sheet
    raise ValueError(words)


class Case:
    """A line of the table: its number, name, sheet and answer."""

    def __init__(self, line):
        cells = [cell.strip() for cell in line.strip().strip("|").split("|")]
        self.number, self.name, self.rule, base, changes, self.answer = cells
        self.sheet = base_sheet(base)
        for words in filter(None, (w.strip() for w in changes.split(";"))):
            self.sheet = changed(self.sheet, words)
        self.sheet = bytes(self.sheet)

    def line(self):
        """The line that a program over the table prints for this case."""
        return "%s %s: %s" % (self.number, self.name, self.answer)


def table(path=None):
    path = path or os.path.join(os.path.dirname(os.path.abspath(__file__)), "sheets.md")
    with open(path, encoding="utf-8") as lines:
        return [Case(line) for line in lines if re.match(r"\| \d+ \|", line)]
