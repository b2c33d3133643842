"""Pages, made from the words of tests/pages.md.

The tables there say how each page is made; this module reads those words, so
that a page cannot drift from its line.
"""

import os
import re

ROOM = 64 * 3 * 28
WORD = re.compile(r"(?:(\d+)\*)?([a-z]+\d?)(?:\(([^()\s]*)\))?")


def big(value, size):
    """A number, most significant octet first."""
    return value.to_bytes(size, "big")


def sized(octets, length, size):
    """A body's octets, then zeros: `size` of them, or as many as the length counts."""
    size = max(0, length - 2) if size is None else size
    return octets[:size] + bytes(max(0, size - len(octets)))


def start(length=16, n=0, version=0, mode=1, mask=4, image=1, main=400, width=1000):
    return (b"\xff\xd8\xff\xed" + big(length, 2) + b"MRC" + bytes([n, version, mode, mask, image])
            + big(main, 2) + big(width, 4) + b"\xff\xd9")


def optional(n=3, length=6, body=None):
    size = max(0, length - 6) if body is None else body
    return b"\xff\xed" + big(length, 2) + b"MRC" + bytes([n]) + b"\x5a" * size


def stripe(length=37, n=1, type=2, x1=16, y1=8, x3=32, y3=4, height=100, mask=None,
           colours=bytes([10, 11, 12, 20, 21, 22])):
    if mask is None:
        mask = 5 if type & 2 else 0
    return (b"\xff\xed" + big(length, 2) + b"MRC" + bytes([n, type]) + colours
            + big(x1, 4) + big(y1, 4) + big(x3, 4) + big(y3, 4) + big(height, 4) + big(mask, 4))


def fax(r=200, length=12, body=None, version=b"\x07\xca"):
    return b"\xff\xe1" + big(length, 2) + sized(b"G3FAX\0" + version + big(r, 2), length, body)


def frame(code=0xC0, length=11, h=20, w=50, c=3, body=None):
    return (bytes([0xFF, code]) + big(length, 2)
            + sized(b"\x08" + big(h, 2) + big(w, 2) + bytes([c]) + b"\x01\x11\0", length, body))


def segment(code=0xDB, length=4, body=None):
    size = max(0, length - 2) if body is None else body
    return bytes([0xFF, code]) + big(length, 2) + b"\x5a" * size


def scan(length=8, c=1, body=None):
    return b"\xff\xda" + big(length, 2) + sized(bytes([c]) + b"\x01\0\0\x3f\0", length, body)


def picture(r, h, w):
    """`back` or `fore`"""
    return lambda c=3: (b"\xff\xd8" + fax(r) + frame(h=h, w=w, c=c) + scan()
                        + b"\x12\x34\x56\xff\xd9")


back, fore = picture(200, 20, 50), picture(100, 10, 30)
BACK, FORE = back(), fore()


def whole_stripe(kind, data):
    """`s1` to `s7`: settings go to the stripe, the coded layers stay."""
    return lambda **settings: stripe(**{"type": kind, **settings}) + data


MASK = b"\x5a" * 5
PARTS = {
    "nothing": lambda: b"",
    "start": start,
    "optional": optional,
    "stripe": stripe,
    "mask": lambda octets=5: b"\x5a" * octets,
    "zeros": bytes,
    "ff": lambda octets=1: b"\xff" * octets,
    "end": lambda: b"\xff\xd9\xff\xd9",
    "soi": lambda: b"\xff\xd8",
    "eoi": lambda: b"\xff\xd9",
    "fax": fax,
    "frame": frame,
    "segment": segment,
    "scan": scan,
    "back": back,
    "fore": fore,
    "s1": whole_stripe(1, BACK),
    "s2": whole_stripe(2, MASK),
    "s3": whole_stripe(3, MASK + BACK),
    "s4": whole_stripe(4, FORE),
    "s6": whole_stripe(6, MASK + FORE),
    "s7": whole_stripe(7, MASK + BACK + FORE),
    "head1": lambda: start() + stripe(type=1),
}


def number(words):
    """Decimal, or hexadecimal behind an x."""
    return int(words[1:], 16) if words.startswith("x") else int(words)


def part(word, parts=PARTS):
    """The octets of one word of the column `page`."""
    if re.fullmatch(r"(?:[0-9A-F]{2})+", word):
        return bytes.fromhex(word)
    times, name, settings = WORD.fullmatch(word).groups()
    plain, named = [], {}
    for setting in filter(None, (settings or "").split(",")):
        key, equals, value = setting.rpartition("=")
        if equals:
            named[key] = number(value)
        else:
            plain.append(number(value))
    return parts[name](*plain, **named) * int(times or 1)


class Case:
    """A line of the table: its number, name, page, room and answer."""

    def __init__(self, cells):
        self.number, self.name, self.rule, words, changes, self.answer = cells
        self.page = bytearray().join(part(word) for word in words.split())
        self.room = ROOM
        self.records = None
        for change in filter(None, (words.strip() for words in changes.split(";"))):
            self.change(change)
        self.page = bytes(self.page)

    def change(self, words):
        at, equals, octets = words.partition("=")
        if equals:
            octets = bytes.fromhex(octets)
            at = int(at)
            assert at + len(octets) <= len(self.page), words
            self.page[at:at + len(octets)] = octets
            return
        verb, value = words.split()
        if verb == "cut":
            assert int(value) <= len(self.page), words
            del self.page[int(value):]
        elif verb == "room":
            self.room = int(value)
        else:
            raise ValueError(words)

    def lines(self):
        """What a reader prints, where the table tells all of it; else None."""
        if self.answer.startswith("refused"):
            return self.answer + "\n"
        return self.records

    def told(self):
        return "page %s, %s: %s" % (self.number, self.name, self.answer)


def rows(path):
    """The cells of each row, without the heads and rules of the tables."""
    with open(path, encoding="utf-8") as lines:
        for line in lines:
            if line.startswith("|") and not line.startswith("|--"):
                yield [cell.strip() for cell in line.strip().strip("|").split("|")]


def table(path=None):
    """The cases of the table, with the records that the last table gives."""
    path = path or os.path.join(os.path.dirname(os.path.abspath(__file__)), "pages.md")
    cases = [Case(cells) for cells in rows(path) if len(cells) == 6 and cells[0].isdigit()]
    named = {case.name: case for case in cases}
    for cells in rows(path):
        if len(cells) == 3 and re.match(r"\d+ \d+ ", cells[2]):
            lines = [line.strip() for line in cells[2].split(";")]
            named[cells[0]].records = "".join(line + "\n" for line in lines)
    return cases


def answer(lines):
    """The answer behind a reader's lines, in the words of the table."""
    if not lines:
        return "nothing was printed"
    if not lines[0].isdigit():
        return lines.strip() if lines.count("\n") == 1 else "several lines"
    return "done %d" % lines.count("\n")
