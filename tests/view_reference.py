"""What the viewer must show, worked out apart from it: by the paper's own words, not by its code.

A pixel is seen exactly if all possible contents of the unread layers give it the same colour. That
is what is done here: the contents of the samples under the pixel are tried. The colour on the
screen comes from the definitions: T.42's default range under D50, Bradford, IEC 61966-2-1.
"""

import functools
import itertools
import struct
import zlib

UNKNOWN, UNKNOWN_GREY = "unknown", "unknown grey"
GREYS = tuple((lightness, 128, 96) for lightness in range(256))
UNSEEN = None
MAGENTA, GREEN = (255, 0, 255), (0, 255, 0)
SQUARE = 16


class Layer:
    """A layer's record, the samples that its coder was given, and whether it is read.

    `rows` holds 0 or 1 for a mask, three codes for an image; None if nothing is coded. A grey layer
    has greys only, three codes each here too.
    """

    def __init__(self, number, base=(0, 0, 0), resolution=0):
        self.number, self.base, self.resolution = number, base, resolution
        self.coder = self.x = self.y = self.width = self.height = 0
        self.rows, self.data, self.unread, self.grey, self.progressive = None, b"", False, False, False

    def is_mask(self):
        return self.number % 2 == 0

    def is_coded(self):
        return self.rows is not None

    def outside(self):
        return 0 if self.is_mask() else self.base


def contents_of_row(layer, main, width, y, layer_3_is_coded):
    """What a layer holds at each pixel of a line: a sample, UNKNOWN, or UNKNOWN_GREY."""
    if not layer.is_coded():
        alone = 1 if layer.number == 2 and layer_3_is_coded else layer.outside()
        return [alone] * width
    k = main // layer.resolution
    inside_y = 0 <= y - layer.y < layer.height * k
    row, outside = [], layer.outside()
    for x in range(width):
        if not (inside_y and 0 <= x - layer.x < layer.width * k):
            row.append(outside)
        elif layer.unread:
            row.append(UNKNOWN_GREY if layer.grey else UNKNOWN)
        else:
            row.append(layer.rows[(y - layer.y) // k][(x - layer.x) // k])
    return row


def possible(number, content):
    """The contents that a place may have. Three colours that occur nowhere else stand for all the
    colours of an unread image: if they cannot tell, no others can. An unread grey one has any grey."""
    if content == UNKNOWN_GREY:
        return GREYS
    if content != UNKNOWN:
        return (content,)
    return (0, 1) if number % 2 == 0 else tuple(("free", number, n) for n in range(3))


@functools.lru_cache(maxsize=1 << 18)
def pixel(contents):
    """The colour of a pixel under which the layers 1, 2 .. have these contents, or UNSEEN."""
    masks = range(2, len(contents), 2)
    colours = set()
    for values in itertools.product(*(possible(n, contents[n - 1]) for n in masks)):
        taken = 1
        for number, value in zip(masks, values):
            if value == 1:
                taken = number + 1
        colours.update(possible(taken, contents[taken - 1]))
    return colours.pop() if len(colours) == 1 else UNSEEN


def stripe_picture(layers, main, width, height):
    """The lines of a stripe, whose layers are 1, 2 .. in order."""
    lines = []
    for y in range(height):
        rows = [contents_of_row(layer, main, width, y, layers[2].is_coded()) for layer in layers]
        lines.append([pixel(contents) for contents in zip(*rows)])
    return lines


# The screen's colour

def product(matrix, vector):
    return [sum(a * b for a, b in zip(row, vector)) for row in matrix]


def inverse(m):
    """Of a three by three matrix, by its adjugate."""
    def minor(i, j):
        a, b = [r for r in range(3) if r != i]
        c, d = [r for r in range(3) if r != j]
        return (-1) ** (i + j) * (m[a][c] * m[b][d] - m[a][d] * m[b][c])
    determinant = sum(m[0][j] * minor(0, j) for j in range(3))
    return [[minor(j, i) / determinant for j in range(3)] for i in range(3)]


def from_chromaticity(x, y):
    return [x / y, 1.0, (1 - x - y) / y]


D50 = [0.96422, 1.0, 0.82521]                 # T.42's white
D65 = from_chromaticity(0.3127, 0.3290)       # IEC 61966-2-1 gives white and primaries so
PRIMARIES = [from_chromaticity(*xy) for xy in ((0.64, 0.33), (0.30, 0.60), (0.15, 0.06))]
BRADFORD = [[0.8951, 0.2664, -0.1614], [-0.7502, 1.7135, 0.0367], [0.0389, -0.0685, 1.0296]]


def rgb_from_xyz():
    """Light of the primaries, each scaled so that all three together are D65."""
    columns = [[PRIMARIES[j][i] for j in range(3)] for i in range(3)]
    scale = product(inverse(columns), D65)
    return inverse([[columns[i][j] * scale[j] for j in range(3)] for i in range(3)])


TO_RGB = rgb_from_xyz()
CONES_AS = inverse(BRADFORD)
ADAPTING = [to / of for to, of in zip(product(BRADFORD, D65), product(BRADFORD, D50))]


def cube(t):
    """CIE 15: the inverse of the cube root with its straight part near black."""
    return t ** 3 if t > 6 / 29 else 3 * (6 / 29) ** 2 * (t - 4 / 29)


def companded(light):
    if light <= 0.0031308:
        return 12.92 * light
    return 1.055 * light ** (1 / 2.4) - 0.055


@functools.lru_cache(maxsize=1 << 18)
def screen_exactly(codes):
    """sRGB from 0 to 255, clipped but not rounded."""
    lightness = codes[0] * 100 / 255
    a, b = (codes[1] - 128) * 170 / 255, (codes[2] - 96) * 200 / 255
    fy = (lightness + 16) / 116
    light = [white * cube(t) for white, t in zip(D50, (fy + a / 500, fy, fy - b / 200))]
    cones = [of * by for of, by in zip(product(BRADFORD, light), ADAPTING)]
    rgb = product(TO_RGB, product(CONES_AS, cones))
    return tuple(255 * companded(min(max(part, 0.0), 1.0)) for part in rgb)


def rounded(parts):
    return tuple(int(part + 0.5) for part in parts)


@functools.lru_cache(maxsize=1 << 18)
def screen(codes, kept=(MAGENTA, GREEN)):
    """The three octets; never one of the colours that stand for unseen."""
    rgb = rounded(screen_exactly(codes))
    if rgb not in kept:
        return rgb
    return tuple(max(part - 1, 0) for part in rgb) if any(rgb) else (1, 1, 1)


# The way there, of what `--unseen` asks for

TO_XYZ = inverse(TO_RGB)


def light_of(value):
    """IEC 61966-2-1: of a part from 0 to 1."""
    return value / 12.92 if value <= 0.04045 else ((value + 0.055) / 1.055) ** 2.4


def root(t):
    return t ** (1 / 3) if t > (6 / 29) ** 3 else t / (3 * (6 / 29) ** 2) + 4 / 29


def codes_exactly(rgb):
    """The codes of sRGB octets, within their range but not rounded."""
    cones = product(BRADFORD, product(TO_XYZ, [light_of(part / 255) for part in rgb]))
    light = product(CONES_AS, [of / by for of, by in zip(cones, ADAPTING)])
    fx, fy, fz = (root(part / white) for part, white in zip(light, D50))
    exact = ((116 * fy - 16) * 255 / 100, 128 + 500 * (fx - fy) * 255 / 170,
             96 + 200 * (fy - fz) * 255 / 200)
    return tuple(min(max(part, 0.0), 255.0) for part in exact)


# What unseen pixels are drawn as

class Squares:
    """Green squares on magenta; the manual leaves open where they stand, the viewer has them so."""

    kept, told, digits = (MAGENTA, GREEN), "green squares on magenta", None

    def at(self, x, y):
        return GREEN if x // SQUARE % 2 == 1 and y // SQUARE % 2 == 1 else MAGENTA


class Plain:
    """The colour that `--unseen` asks for, as near as codes come to it."""

    def __init__(self, asked):
        self.asked = "%02X%02X%02X" % asked
        self.codes = rounded(codes_exactly(asked))
        self.kept = (rounded(screen_exactly(self.codes)),)
        self.digits = "#%02X%02X%02X" % self.kept[0]
        self.told = self.digits + " (--unseen)"

    def at(self, _x, _y):
        return self.kept[0]


def is_certain(asked):
    """Whether `--unseen` of this colour is drawn in one colour only, however many digits the constants
    have: those of the viewer's move codes by 0.012, and the screen's colour by 0.33 where it is dark."""
    def is_far(part, by):
        return abs(part % 1 - 0.5) > by
    codes = codes_exactly(asked)
    return all(is_far(part, 0.03) for part in codes) and all(
        is_far(part, 0.4 if part < 64 else 0.08) for part in screen_exactly(rounded(codes)))


# How a shown picture is told from the due one

class Difference:
    """Counts what the shown pixels are against the due ones."""

    def __init__(self, unseen):
        self.drawn = unseen
        self.pixels = self.unseen = self.wrong = self.shown_unseen = 0
        self.steps, self.first = set(), ""

    def add(self, x, y, due, shown):
        self.pixels += 1
        if shown in self.drawn.kept:
            self.shown_unseen += 1
        if due is UNSEEN:
            self.unseen += 1
            right = shown == self.drawn.at(x, y)
        else:
            right = shown == screen(due, self.drawn.kept) or self.is_a_step(due, shown)
        if not right:
            self.wrong += 1
            self.first = self.first or "at %d %d %s is due, and %s is shown" % (
                x, y, due and (due, screen(due, self.drawn.kept)), shown)

    def add_right(self, line):
        """A line shown to the octet; no seen colour of the reference is one of those kept."""
        unseen = line.count(UNSEEN)
        self.pixels += len(line)
        self.unseen += unseen
        self.shown_unseen += unseen

    def is_a_step(self, due, shown):
        """Rounding near a half, where digits of the constants may tell, most for light near 0 (of all
        codes none by 0.95); or one of the colours kept free, for which the manual does not say what
        is darkened, or of black lightened."""
        exact, kept = screen_exactly(due), self.drawn.kept
        rgb = rounded(exact)
        if rgb in kept:
            way = 1 if any(rgb) else -1
            return shown != rgb and all(0 <= way * (r - s) <= 1 for r, s in zip(rgb, shown))
        near = all(abs(part - s) < 0.95 for part, s in zip(exact, shown))
        if near:
            self.steps.add(due)
        return near and shown not in kept


def compared(lines, picture, unseen=Squares()):
    """The difference of lines of colours and a PNG, in which unseen is drawn so."""
    difference = Difference(unseen)
    for y, line in enumerate(lines):
        plain = b"".join(bytes(unseen.at(x, y) if due is UNSEEN else screen(due, unseen.kept))
                         for x, due in enumerate(line))
        if picture.samples == 3 and picture.rows[y] == plain:
            difference.add_right(line)
            continue
        for x, due in enumerate(line):
            difference.add(x, y, due, picture.pixel(x, y))
    return difference


# A PNG, read by its own standard

class Png:
    """A picture of eight bits a sample, its texts, and its dots a metre."""

    def __init__(self, octets):
        if octets[:8] != b"\x89PNG\r\n\x1a\n":
            raise ValueError("not a PNG")
        self.texts, self.dots, self.names = {}, None, []
        self.palette, coded = None, []
        for name, body in chunks(octets):
            self.names.append(name)
            if name == b"IHDR":
                self.width, self.height, *self.kind = struct.unpack(">IIBBBBB", body)
            elif name == b"PLTE":
                self.palette = [tuple(body[k:k + 3]) for k in range(0, len(body), 3)]
            elif name == b"IDAT":
                coded.append(body)
            elif name == b"tEXt":
                key, _, text = body.partition(b"\0")
                self.texts[key.decode("latin-1")] = text.decode("latin-1")
            elif name == b"pHYs":
                self.dots = struct.unpack(">IIB", body)
        if self.names[0] != b"IHDR" or self.names[-1] != b"IEND":
            raise ValueError("the PNG does not begin and end as it must")
        self.rows = self.unfiltered(b"".join(coded))

    def unfiltered(self, coded):
        bits, kind = self.kind[:2]
        if bits != 8 or kind not in (0, 2, 3) or any(self.kind[2:]):
            raise ValueError("a PNG of another kind: %s" % self.kind)
        self.samples = 3 if kind == 2 else 1
        plain, size = zlib.decompress(coded), self.width * self.samples
        if len(plain) != self.height * (size + 1):
            raise ValueError("a PNG of another size")
        rows, above = [], bytes(size)
        for at in range(0, len(plain), size + 1):
            above = unfilter(plain[at], plain[at + 1:at + 1 + size], above, self.samples)
            rows.append(above)
        return rows

    def pixel(self, x, y):
        row = self.rows[y]
        if self.palette:
            return self.palette[row[x]]
        return tuple(row[3 * x:3 * x + 3]) if self.samples == 3 else (row[x],) * 3


def chunks(octets):
    at = 8
    while at < len(octets):
        size, name = struct.unpack(">I4s", octets[at:at + 8])
        body = octets[at + 8:at + 8 + size]
        told = octets[at + 8 + size:at + 12 + size]
        if len(told) != 4 or zlib.crc32(name + body) != struct.unpack(">I", told)[0]:
            raise ValueError("the PNG's chunk at %d is damaged" % at)
        yield name, body
        at += 12 + size


def unfilter(kind, line, above, step):
    """A row of octets from its difference to those before and above."""
    if kind == 0:
        return line
    if kind == 2:
        return line_added(line, above)
    row = bytearray()
    for at, value in enumerate(line):
        before = row[at - step] if at >= step else 0
        corner = above[at - step] if at >= step else 0
        if kind == 1:
            value += before
        elif kind == 3:
            value += (before + above[at]) // 2
        elif kind == 4:
            value += nearest(before, above[at], corner)
        else:
            raise ValueError("no such filter")
        row.append(value & 255)
    return bytes(row)


def line_added(line, above):
    """Octet by octet: all those at even places in one sum, then all those at odd ones."""
    if not any(line):
        return above
    a, b = int.from_bytes(line, "big"), int.from_bytes(above, "big")
    even = int.from_bytes((b"\0\xff" * len(line))[:len(line)], "big")
    odd = int.from_bytes((b"\xff\0" * len(line))[:len(line)], "big")
    top = 1 << 8 * len(line)
    added = ((a & even) + (b & even) & even) | ((a & odd) + (b & odd) & odd)
    return (added % top).to_bytes(len(line), "big")


def nearest(before, above, corner):
    """Paeth: of the three the one nearest to before + above - corner, ties in this order."""
    guess = before + above - corner
    return min((before, above, corner), key=lambda value: abs(guess - value))
