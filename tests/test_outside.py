"""Pages whose masks and JPEG layers come from other people's coders.

What is expected is worked out from how each page is put together: the widths,
heights and resolutions that the coders were given, and the sizes of what they
wrote (tests/outside/README.md). Each JPEG layer comes with fill before its
markers too. Cut pages are compared between the reference and the library; SEED
makes a run again.
"""

import copy
import os
import random
import re
import sys

import page_making
import reference_run

FOLDER = os.path.join(reference_run.ROOT, "tests", "outside")
CUTS = 200
END = b"\xff\xd9\xff\xd9"


class Layer:
    """A stored layer and its line of the table."""

    def __init__(self, cells):
        self.name, coder, width, height, resolution, components, size, has, _ = cells
        self.coder, self.width, self.height, self.size = map(int, (coder, width, height, size))
        self.resolution, self.components = int(resolution or 0), int(components or 0)
        self.has = [bytes.fromhex(octets) for octets in has.split()]
        with open(os.path.join(FOLDER, self.name), "rb") as file:
            self.octets = file.read()

    def is_told(self):
        """The file is what its line says."""
        ends = self.octets[:2] + self.octets[-2:]
        return (len(self.octets) == self.size and all(has in self.octets for has in self.has)
                and (self.resolution == 0 or ends == b"\xff\xd8\xff\xd9"))


def stored():
    rows = page_making.rows(os.path.join(FOLDER, "README.md"))
    return {cells[0]: Layer(cells) for cells in rows if len(cells) == 9 and cells[1].isdigit()}


def filled(octets, fill):
    """A picture of exactly one FF a marker, with fill before each but the first: before restart
    markers too."""
    pieces, at = [octets[:2]], 2
    while at < len(octets):
        code, length = octets[at + 1], int.from_bytes(octets[at + 2:at + 4], "big")
        behind = at + 2 + (0 if code == 0xD9 else length)
        pieces.append(fill + octets[at:behind])
        at = behind
        if code == 0xDA:
            at = re.compile(rb"(?:[^\xff]|\xff[\0\xd0-\xd7])*").match(octets, behind).end()
            pieces.append(re.sub(rb"\xff(?=[\xd0-\xd7])", fill + b"\xff", octets[behind:at]))
    return b"".join(pieces)


def with_fill(layers, count):
    """The JPEG layers that the paper takes, each with so many octets of fill before its markers."""
    for name, layer in layers.items():
        if layer.resolution not in (0, 12343):
            layer = copy.copy(layer)
            layer.octets = filled(layer.octets, b"\xff" * count)
            layer.size = len(layer.octets)
            yield "%s with %d FF more" % (name, count), layer


class Page:
    """A page put together from stored layers, and the lines due."""

    def __init__(self, layers, main, mask, width=208):
        self.layers, self.main, self.mask, self.width = layers, main, mask, width
        self.octets = page_making.start(mask=mask, main=main, width=width)
        self.lines = ""
        self.stripes = 0

    def put(self, name):
        """Puts a layer, if there is one; answers its coder, start and length."""
        if name is None:
            return 0, 0, 0
        layer = self.layers[name]
        begin = len(self.octets)
        self.octets += layer.octets
        return layer.coder, begin, layer.size

    def image_line(self, number, name, offset, colour, coded):
        box, grey = (0, 0, 0, 0, self.main), 0
        if name is not None:
            layer = self.layers[name]
            box = (*offset, layer.width, layer.height, layer.resolution)
            grey = int(layer.components == 1)
        return [self.stripes, number, coded[0], *box, *colour, *coded[1:], grey]

    def stripe(self, mask=None, back=None, fore=None, height=60, at=((3, 5), (65535, 7))):
        """Adds a stripe of the layers named; `at` has the offsets of both image layers."""
        kind = (back is not None) + 2 * (mask is not None) + 4 * (fore is not None)
        self.octets += page_making.stripe(
            type=kind, x1=at[0][0], y1=at[0][1], x3=at[1][0], y3=at[1][1], height=height,
            mask=self.layers[mask].size if mask else 0, colours=bytes([255, 128, 96, 0, 128, 96]))
        coded = [self.put(mask), self.put(back), self.put(fore)]
        records = [self.image_line(1, back, at[0], (255, 128, 96), coded[1]),
                   [self.stripes, 2, coded[0][0], 0, 0, self.width, height, self.main, 0, 0, 0,
                    *coded[0][1:], 0],
                   self.image_line(3, fore, at[1], (0, 128, 96), coded[2])]
        self.lines += "".join(" ".join(map(str, record)) + "\n" for record in records)
        self.stripes += 1
        return self

    def end(self, zeros=0):
        self.octets += END + bytes(zeros)
        return self.octets, self.lines


def good_pages(layers):
    """(name, (page, lines))"""
    def page(main, mask, **settings):
        return Page(layers, main, mask, **settings)
    for coder, mask in ((1, "mask.mh"), (2, "mask.mr"), (4, "mask.mmr"), (8, "mask.t85")):
        yield "only " + mask, page(200, coder).stripe(mask).end()
        yield "all layers with " + mask, page(400, coder).stripe(
            mask, "baseline.jpg", "progressive.jpg").end(zeros=coder)
    for name, layer in layers.items():
        if layer.resolution not in (0, 12343):
            yield "background " + name, page(1200, 0).stripe(back=name).end()
            yield "foreground " + name, page(1200, 4).stripe(fore=name).end(zeros=1000)
    for count in (1, 2, 63):
        more = dict(with_fill(layers, count))
        for name, other in zip(more, reversed(more)):
            yield name, Page(more, 1200, 0).stripe(back=name).stripe(fore=other).end()
    yield "six stripes of the six types", (
        page(600, 4).stripe(back="cjpeg.jpg").stripe("mask.mmr", height=59)
        .stripe("mask.mmr", "arithmetic.jpg").stripe(fore="half.jpg", at=((2 ** 32 - 1, 0), (0, 1)))
        .stripe("mask.mmr", fore="grey.jpg", height=1)
        .stripe("mask.mmr", "rewritten.jpg", "dense.jpg").end())
    many = page(400, 8, width=32768)
    for name in ("restart.jpg", "dense.jpg", "half.jpg", "grey.jpg") * 16:
        many.stripe("mask.t85", name, "progressive.jpg", height=1000)
    yield "64 stripes", many.end(zeros=3)


def refused_pages(layers):
    """(name, (page, lines)): what outside coders write and the paper refuses."""
    octets, _ = Page(layers, 1200, 1).stripe("mask.mh", "jpgicc.jpg").end()
    slip = octets.index(b"G3FAX\0") + 8
    yield "jpgicc's resolution 12343", (octets, "refused 7 %d\n" % slip)
    octets, _ = Page(layers, 400, 1).stripe("mask.mh", "baseline.jpg", "cjpeg.jpg").end()
    slip = octets.rindex(b"G3FAX\0") + 8
    yield "300 under 400", (octets, "refused 7 %d\n" % slip)
    octets, _ = Page(layers, 400, 1).stripe(back="baseline.jpg").end()
    yield "another FF D9", (octets + b"\xff\xd9", "refused 12 %d\n" % len(octets))
    yield "one FF D9 lost", (octets[:-2], "refused 1 %d\n" % (len(octets) - 2))
    # a file that never was a layer: its frame comes, and no resolution did
    bare = layers["baseline.jpg"].octets.replace(b"G3FAX\0", b"G4FAX\0")
    page = page_making.start() + page_making.stripe(type=1) + bare + END
    yield "no resolution", (page, "refused 11 %d\n" % page.index(b"\xff\xc0"))


def check_cuts(tally, readers, pages, rng):
    """A cut page is Short, and the library says just where the reference does."""
    for name, (page, _) in pages:
        sizes = [rng.randrange(len(page.rstrip(b"\0"))) for _ in range(CUTS)]
        cuts = [(page[:size], page_making.ROOM) for size in sizes]
        reference, *others = [reference_run.read_many(reader, cuts) for reader in readers.values()]
        wrong = [size for size, lines in zip(sizes, reference)
                 if not lines.startswith("refused 1 ") or int(lines.split()[2]) > size]
        tally.check(not wrong, "%s: not Short where cut at %s" % (name, wrong[:5]))
        for answers in others:
            wrong = [size for k, size in enumerate(sizes) if answers[k] != reference[k]]
            tally.check(not wrong, "%s: the library is not the reference where cut at %s"
                        % (name, wrong[:5]))


def main():
    seed = int(os.environ.get("SEED") or random.randrange(2 ** 32))
    print("SEED=%d" % seed)
    tally = reference_run.Tally()
    layers = stored()
    for layer in layers.values():
        tally.check(layer.is_told(), "%s is not what its line tells" % layer.name)
    readers = {"reference": reference_run.build("reference_read_plain",
                                                parts=reference_run.parts_of("read"))}
    library = reference_run.build_library_driver(tally)
    if library is not None:
        readers["library"] = library
    good, refused = list(good_pages(layers)), list(refused_pages(layers))
    tally.check(any(page.endswith(b"\xff\xd9" + END) for _, (page, _) in good),
                "no page ends with a layer's FF D9 before its own two")
    for told, reader in readers.items():
        answers = reference_run.read_many(
            reader, [(page, page_making.ROOM) for _, (page, _) in good + refused])
        for (name, (_, lines)), got in zip(good + refused, answers):
            tally.check(got == lines, "%s: %s\nis due, but the %s says\n%s"
                        % (name, lines[:500], told, got[:500]))
    check_cuts(tally, readers, good, random.Random(seed))
    return tally.end()


if __name__ == "__main__":
    sys.exit(main())
