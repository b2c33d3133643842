"""Sheets and data for writing, made from the words of tests/writes.md; the pages due;
and random ones.

The tables there say how each is made; this module reads those words, so that a
case cannot drift from its line. The pages due are put together by
tests/page_making.py, not by any writer.
"""

import os
import re

import page_making
import sheet_making
from page_making import BACK, FORE, MASK, back, fore

ROOM = 20000
DATA = MASK + BACK + FORE
ABSENT = {0: dict(x1=0, y1=0, x3=0, y3=0), 1: dict(x3=0, y3=0), 4: dict(x1=0, y1=0), 5: {}}
PIECES = {2: MASK, 1: BACK, 4: FORE}  # in the order of the page
GREYS = {2: MASK, 1: back(c=1), 4: fore(c=1)}


def written(kind, pieces=PIECES):
    """`w1` to `w7`, or `g1` to `g7`: the stripe of a type, absent layers' offsets 0."""
    data = b"".join(octets for bit, octets in pieces.items() if kind & bit)
    return lambda **settings: page_making.stripe(
        **{"type": kind, **ABSENT[kind & 5], **settings}) + data


def bare(type=2, **settings):
    return page_making.stripe(**{"type": type, **ABSENT[type & 5], **settings})


def long(octets):
    return bare(mask=octets) + b"\x5a" * octets


PARTS = {**page_making.PARTS, "all": lambda: DATA, "bare": bare, "long": long,
         "greys": lambda: b"".join(GREYS.values())}
PARTS.update({"w%d" % kind: written(kind) for kind in (1, 2, 3, 4, 6, 7)})
PARTS.update({"g%d" % kind: written(kind, GREYS) for kind in (1, 3, 4, 6, 7)})


def octets_of(words):
    return bytearray().join(page_making.part(word, PARTS) for word in words.split())


def image_record(stripe, layer, coded, main):
    """Layer 1 or 3, or one above."""
    if not coded:
        colour = {1: (10, 11, 12), 3: (20, 21, 22)}.get(layer, (30, 31, 32))
        return sheet_making.record(stripe, layer, 0, 0, 0, 0, 0, main, colour, 0, 0)
    if layer == 1:
        return sheet_making.record(stripe, 1, 1, 16, 8, 50, 20, 200, (10, 11, 12), 5, 44)
    return sheet_making.record(stripe, 3, 1, 32, 4, 30, 10, 100, (20, 21, 22), 49, 44)


def stripe_records(stripe, kind, coder=4, main=400, width=1000, height=100, n=3, **fields):
    """`t0` to `t7`; `fields` are settings of a layer's record, such as length1."""
    records = bytearray()
    for layer in range(1, n + 1):
        coded = layer <= 3 and kind >> (layer - 1) & 1 == 1
        if layer == 2:
            data = (0, 5) if coded else (0, 0)
            records += sheet_making.record(stripe, 2, coder if coded else 0, 0, 0, width, height,
                                           main, (0, 0, 0), *data)
        elif layer % 2 == 0:
            records += sheet_making.record(stripe, layer, 0, 0, 0, 0, 0, main, (0, 0, 0), 0, 0)
        else:
            records += image_record(stripe, layer, coded, main)
    for name, value in fields.items():
        sheet_making.put(records, int(name[-1]) - 1, name[:-1], value)
    return records


def sheet_of(words):
    """The records of the column `sheet`; stripes are counted along the row."""
    sheet, stripe = bytearray(), 0
    for word in words.split():
        if word == "nothing":
            continue
        times, kind, settings = re.fullmatch(r"(?:(\d+)\*)?t(\d)(?:\(([^()]*)\))?", word).groups()
        pairs = (setting.split("=") for setting in filter(None, (settings or "").split(",")))
        named = {key: int(value) for key, value in pairs}
        for _ in range(int(times or 1)):
            sheet += stripe_records(stripe, int(kind), **named)
            stripe += 1
    return sheet


def put_octets(octets, words):
    """`AT=HEX`"""
    at, _, new = words.partition("=")
    at, new = int(at), bytes.fromhex(new)
    assert at + len(new) <= len(octets), words
    octets[at:at + len(new)] = new


def page_due(words):
    """The column `page`: words of a page, then changes of its octets."""
    words, *changes = words.split(";")
    page = octets_of(words)
    for change in changes:
        put_octets(page, change.strip())
    return bytes(page)


class Case:
    """A line of the table: its number, name, sheet, data, room, answer and page."""

    def __init__(self, cells):
        self.number, self.name, self.rule, sheet, data, changes, self.answer, page = cells
        self.sheet, self.data, self.room = sheet_of(sheet), octets_of(data), ROOM
        for change in filter(None, (words.strip() for words in changes.split(";"))):
            self.change(change)
        self.sheet, self.data = bytes(self.sheet), bytes(self.data)
        self.page = page_due(page)

    def change(self, words):
        verb, _, rest = words.partition(" ")
        if verb == "room":
            self.room = int(rest)
        elif verb == "data" and rest.startswith("cut "):
            assert int(rest[4:]) <= len(self.data), words
            del self.data[int(rest[4:]):]
        elif verb == "data":
            put_octets(self.data, rest)
        else:
            self.sheet = sheet_making.changed(self.sheet, words)

    def is_told(self):
        """The page has the octets that the answer counts; a refusal has none."""
        return self.answer == "done %d" % len(self.page) or (
            self.answer.startswith("refused ") and not self.page)

    def told(self):
        return "write %s, %s: %s" % (self.number, self.name, self.answer)


def table(path=None):
    path = path or os.path.join(os.path.dirname(os.path.abspath(__file__)), "writes.md")
    return [Case(cells) for cells in page_making.rows(path)
            if len(cells) == 8 and cells[0].isdigit()]
