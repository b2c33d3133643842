"""Sheets, pages and pencil files, made from the words of tests/data.md.

The tables there say how each is made; this module reads those words, so that a
case cannot drift from its line. The part due is cut here, not by any library.
"""

import os
import re

import line_making
import page_making
import sheet_making

PLACED = re.compile(r"(\d+)>(\d+)\+(\d+)")
TURNS = bytes(k % 251 for k in range(251))


def octets_of(size, pencil):
    """A page's or a pencil file's octets: no two of them alike at one place."""
    turn = bytes(255 - k for k in TURNS) if pencil else TURNS
    return (turn * (size // 251 + 1))[:size]


class Stripe(line_making.Stripe):
    """A stripe whose words may say where coded data stands."""

    def word(self, word):
        placed = PLACED.fullmatch(word)
        if placed is None:
            super().word(word)
            return
        layer, start, length = map(int, placed.groups())
        assert self.layers[layer]["length"], word
        self.layers[layer].update(start=start, length=length)


def sheet_of(words):
    stripes = line_making.stripes_of(words, Stripe)
    return bytearray().join(stripe.records(k) for k, stripe in enumerate(stripes))


class Case:
    """A line of the table: its number, name, what is lent, the call and the answer."""

    def __init__(self, cells):
        self.number, self.name, self.rule, sheet, lent, call, changes, self.answer = cells
        self.sheet = sheet_of(sheet)
        for words in filter(None, (w.strip() for w in changes.split(";"))):
            self.sheet = sheet_making.changed(self.sheet, words)
        self.lent = [0 if word == "null" else int(word) for word in lent.split()]
        self.stripe, self.layer = map(int, call.split())

    def call(self):
        """(sheet, page, pencil, stripe, layer)"""
        page, pencil = (octets_of(size, k == 1) for k, size in enumerate(self.lent))
        return bytes(self.sheet), page, pencil, self.stripe, self.layer

    def due(self):
        """The answer, and the octets of the part."""
        words = self.answer.split()
        if words[0] == "refused":
            return self.answer, b""
        count, source, start = map(int, words[1:])
        return self.answer, octets_of(self.lent[source], source == 1)[start:start + count]

    def told(self):
        return "data %s, %s: %s" % (self.number, self.name, self.answer)


def table(path=None):
    path = path or os.path.join(os.path.dirname(os.path.abspath(__file__)), "data.md")
    return [Case(cells) for cells in page_making.rows(path)
            if len(cells) == 8 and cells[0].isdigit()]
