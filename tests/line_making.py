"""Sheets, plane lists and samples, made from the words of tests/lines.md; and the lines due.

The tables there say how each is made; this module reads those words, so that a
case cannot drift from its line. The octets of a line are put together here, not
by any composer.
"""

import os
import re

import page_making
import sheet_making

ROOM = 200
MAIN = 400
GREY = (128, 128, 96)       # what unseen pixels have where a call is told no other colour
NAMED = {"W": (255, 128, 96), "K": (0, 128, 96), "O": (0, 0, 0), "G": GREY}
HIGH = {"h": 128, "f": 255}
# unseen colours of every line: the one of old, so that its octets are those of old; and one of
# three octets that differ, which no word of the table has
ALWAYS = [(0, 0, 0), (1, 2, 3)]
START, LENGTH = 1000, 10
STRIPE = re.compile(r"(\d+)x(\d+)(?:x(\d+))?(?:@(\d+))?")
CODED = re.compile(r"(\d+):(\d+)x(\d+)(?:\+(\d+)\+(\d+))?(?:@(\d+))?")


def base_colour(layer):
    return (200 + layer, 220 + layer, (240 + layer) % 256)


def letter_number(letter):
    number = ord(letter) - ord("a") + 1
    assert 1 <= number <= 26, letter
    return number


def grey(lightness):
    """The colour of a grey layer's sample."""
    return bytes((lightness, 128, 96))


def lightness(letter):
    """The octet of a grey layer's sample: of a letter its number, of a named grey its first."""
    if letter in NAMED:
        octets = bytes(NAMED[letter])
        assert octets == grey(octets[0]), letter
        return octets[0]
    return letter_number(letter)


def colour(word):
    """The three octets of a colour's word."""
    if word in NAMED:
        return bytes(NAMED[word])
    if re.fullmatch(r"B\d+", word):
        return bytes(base_colour(int(word[1:])))
    if word.startswith("#"):
        return bytes.fromhex(word[1:])
    if re.fullmatch(r"g[a-z]", word):
        return grey(letter_number(word[1]))
    number = letter_number(word)
    return bytes((number, 50 + number, 100 + number))


# Sheets

class Stripe:
    """A stripe in the making: its layers by number, fields by name."""

    def __init__(self, width, height, layers, main):
        self.width, self.height, self.main = width, height, main
        self.layers = {layer: dict(coder=0, x=0, y=0, width=0, height=0, resolution=main,
                                   colour=base_colour(layer) if layer % 2 else (0, 0, 0),
                                   start=0, length=0, grey=0) for layer in range(1, layers + 1)}
        self.layers[2].update(width=width, height=height)

    def code(self, layer, **fields):
        self.layers[layer].update(coder=1, start=START, length=LENGTH, **fields)

    def word(self, word):
        coded, one_octet = CODED.fullmatch(word), re.fullmatch(r"(\d+)g", word)
        if one_octet:
            self.layers[int(one_octet[1])]["grey"] = 1
        elif word == "2":
            self.code(2)
        elif word == "all":
            for layer in self.layers:
                self.code(layer, width=self.width, height=self.height)
        elif coded:
            layer, width, height, x, y, resolution = (int(n or 0) for n in coded.groups())
            assert layer != 2, word
            self.code(layer, width=width, height=height, x=x, y=y,
                      resolution=resolution or self.main)
        else:
            layer, name = word.split("=")
            self.layers[int(layer)]["colour"] = colour(name)

    def records(self, number):
        return bytearray().join(sheet_making.record(number, layer, **fields)
                                for layer, fields in self.layers.items())


def stripes_of(words, kind=Stripe):
    """The stripes of the column `sheet`."""
    words = re.sub(r"(\d+)\*\(([^()]*)\)", lambda m: " ".join([m[2]] * int(m[1])), words)
    stripes = []
    for word in words.split():
        begins = STRIPE.fullmatch(word)
        if begins:
            width, height, layers, main = begins.groups()
            stripes.append(kind(int(width), int(height), int(layers or 3), int(main or MAIN)))
        elif word != "nothing":
            stripes[-1].word(word)
    return stripes


# Samples

def sample_octets(layer, is_grey, words):
    """The samples behind `L=`, and how many they are."""
    samples = []
    for letter, times in re.findall(r"(.)(?:\^(\d+))?", words.replace("/", "")):
        if is_grey:
            octets = bytes([lightness(letter)])
        elif layer % 2 == 1:
            octets = colour(letter)
        else:
            octets = bytes([HIGH[letter] if letter in HIGH else int(letter)])
        samples += [octets] * int(times or 1)
    return b"".join(samples), len(samples)


def entry(layer, start):
    return bytes([layer]) + start.to_bytes(4, "big")


def read_of(words, stripe):
    """(plane list, samples) of the column `read`; `stripe` is the one called for."""
    planes, samples = bytearray(), bytearray()
    for word in words.split():
        if word == "nothing":
            continue
        if word.startswith("_"):
            samples += b"\xee" * int(word[1:])
        elif word.startswith("+"):
            planes += bytes.fromhex(word[1:])
        elif "@" in word:
            planes += entry(*map(int, word.split("@")))
        else:
            layer, _, written = word.partition("=")
            fields = {} if stripe is None else stripe.layers[int(layer)]
            octets, count = sample_octets(int(layer), fields.get("grey", 0), written)
            assert not fields or count == fields["width"] * fields["height"], word
            planes += entry(int(layer), len(samples))
            samples += octets
    return planes, samples


# Lines

def unseen_pixel(unseen):
    """The octets of an unseen pixel: the colour that the call is told, or None for grey."""
    return bytes(GREY if unseen is None else unseen) + b"\0"


def line_of(words, unseen=None):
    """The octets of the column `line`."""
    octets = bytearray()
    for word in words.split():
        times, _, name = word.rpartition("*")
        octets += (unseen_pixel(unseen) if name == "." else colour(name) + b"\1") * int(times or 1)
    return bytes(octets)


def with_unseen(case, unseen):
    """A case of a call that is told the unseen colour, or of its sibling where it is None."""
    return case if unseen is None else (*case, *unseen)


class Case:
    """A line of the table: its number, name, what is lent, the call, the answer and the line."""

    room = ROOM

    def __init__(self, cells):
        self.number, self.name, self.rule, sheet, read, call, changes, self.answer = cells[:8]
        self.pixels = cells[8]
        stripes = stripes_of(sheet)
        self.stripe, self.line = map(int, call.split())
        self.named = stripes[self.stripe] if self.stripe < len(stripes) else None
        self.sheet = bytearray().join(stripe.records(k) for k, stripe in enumerate(stripes))
        self.planes, self.samples = read_of(read, self.named)
        for change in filter(None, (words.strip() for words in changes.split(";"))):
            self.change(change)

    def change(self, words):
        verb, _, rest = words.partition(" ")
        if verb == "room":
            self.room = int(rest)
        elif verb == "samples":
            assert int(rest) <= len(self.samples), words
            del self.samples[int(rest):]
        else:
            self.sheet = sheet_making.changed(self.sheet, words)

    def work(self, unseen=None):
        """(sheet, planes, samples, room, stripe, line), and the unseen colour where one is told"""
        return with_unseen((bytes(self.sheet), bytes(self.planes), bytes(self.samples), self.room,
                            self.stripe, self.line), unseen)

    def due(self, unseen=None):
        """(answer, line)"""
        return self.answer, line_of(self.pixels, unseen)

    def unseens(self):
        """The unseen colours that the line is tried with, None for grey untold; among them that of
        its first seen pixel, if it has one."""
        line = self.due()[1]
        seen = [tuple(line[at:at + 3]) for at in range(0, len(line), 4) if line[at + 3]]
        return list(dict.fromkeys([None, *ALWAYS, *seen[:1]]))

    def asked(self, unseen):
        """(what, case, (answer, line))"""
        what = self.told() + ("" if unseen is None else ", unseen %d %d %d" % unseen)
        return what, self.work(unseen), self.due(unseen)

    def is_told(self):
        """The line has the octets that the answer counts; a refusal has none."""
        octets = len(self.due()[1])
        return self.answer == "done %d" % octets or (
            self.answer.startswith("refused ") and not octets)

    def told(self):
        return "line %s, %s: %s" % (self.number, self.name, self.answer)


def table(name="lines.md", kind=Case):
    path = os.path.join(os.path.dirname(os.path.abspath(__file__)), name)
    return [kind(cells) for cells in page_making.rows(path)
            if len(cells) == 9 and cells[0].isdigit()]
