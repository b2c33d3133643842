"""Pages at random, and damaged ones.

Octets that mean something to a reader come more often than by chance, in bodies
and scan data too, where they mean nothing.
"""

import random
import re

from page_making import big, fax, start, stripe
from sheet_random import LISTED, heights
from sheet_random import number as number_between

END = b"\xff\xd9\xff\xd9"
MARKS = [0xFF, 0xFF, 0xFF, 0x00, 0x01, 0xC0, 0xC4, 0xD0, 0xD8, 0xD9, 0xD9, 0xDA, 0xE1, 0xED]
FRAMES = [code for code in range(0xC0, 0xD0) if code not in (0xC4, 0xC8, 0xCC)]
SKIPPED = [0xC4, 0xC8, 0xCC] + list(range(0xDB, 0xFF))
OCTETS = list(range(256)) + 8 * MARKS       # three of ten are marks
STOCK = bytes(random.Random(1).choices(OCTETS, k=1 << 17))


def random_octets(rng, size):
    """Octets one by one; many at once are a part of a stock, since most readers pass over them."""
    if size <= 40:
        return bytes(rng.choices(OCTETS, k=size))
    at = rng.randrange(len(STOCK) - size)
    return STOCK[at:at + size]


def random_size(rng):
    """How long a body is: mostly short, now and then long enough for two octets of length."""
    return rng.choice([0, 1, 2, 4, rng.randrange(40), rng.randrange(40), rng.choice([300, 2000])])


def random_segment(rng):
    """A segment of a picture that a walk skips, wherever it stands."""
    kind = rng.random()
    if kind < 0.2:
        return b"\xff\x01"
    if kind < 0.3:  # tagged, but too short or of another code
        return rng.choice([fax(999, length=rng.randrange(8, 12)), b"\xff\xe0" + fax(999)[2:]])
    octets = random_octets(rng, random_size(rng))
    return bytes([0xFF, rng.choice(SKIPPED)]) + big(len(octets) + 2, 2) + octets


def random_segments(rng):
    return [random_segment(rng) for _ in range(rng.choice([0, 0, 1, 1, 2, 3]))]


def later_fax(rng):
    """Behind the first tagged segment no other is judged."""
    return [fax(rng.choice([0, 999, 100]))] if rng.random() < 0.2 else []


def random_scan(rng):
    header = random_octets(rng, rng.choice([0, 6, 6, 10, rng.randrange(20)]))
    data = [rng.choice([b"\xff\x00", bytes([0xFF, rng.randrange(0xD0, 0xD8)]),
                        bytes([rng.randrange(0xFF)]), b"\xd9"])
            for _ in range(rng.choice([0, 1, 5, rng.randrange(60)]))]
    return [b"\xff\xda" + big(len(header) + 2, 2) + header, *data]


def padded(rng, pieces):
    """The pieces of a layer behind its FF D8, with fill before some that begin with a marker: a
    restart marker too, but not FF 00."""
    octets = b""
    for piece in pieces:
        if piece[0] == 0xFF and piece[1:2] != b"\0" and rng.random() < 0.4:
            octets += b"\xff" * rng.choice([1, 1, 1, 1, 2, 2, 3, 4, rng.randrange(70)])
            if rng.random() < 0.02:
                octets += b"\xff" * rng.choice([255, 256, 257, rng.randrange(600)])
        octets += piece
    return octets


def random_pieces(rng, main):
    """The pieces of a JPEG layer behind its FF D8, and its width, height, resolution and whether
    it is grey, 1 or 0."""
    resolution = rng.choice([r for r in LISTED if main % r == 0])
    width, height = number_between(rng, 1, 65535), number_between(rng, 1, 65535)
    grey = rng.choice([0, 1])
    rest = bytes([1 if grey else 3]) + random_octets(rng, rng.choice([0, 3, 9, rng.randrange(30)]))
    pieces = [*random_segments(rng),
              fax(resolution, length=12 + rng.choice([0, 0, 1, rng.randrange(30)]),
                  version=random_octets(rng, 2)),
              *random_segments(rng), *later_fax(rng),
              bytes([0xFF, rng.choice(FRAMES)]) + big(7 + len(rest), 2)
              + bytes([rng.randrange(256)]) + big(height, 2) + big(width, 2) + rest]
    for _ in range(rng.choice([1, 1, 2, 3])):
        pieces += [*random_segments(rng), *later_fax(rng), *random_scan(rng)]
    return [*pieces, *random_segments(rng), b"\xff\xd9"], width, height, resolution, grey


def random_picture(rng, main, often=0.5):
    """A JPEG layer, and its width, height, resolution and whether it is grey. `often` is how often
    a layer has fill, and changes nothing else in it."""
    pieces, *picture = random_pieces(rng, main)
    of_fill = random.Random(rng.getrandbits(32))
    octets = padded(of_fill, pieces) if of_fill.random() < often else b"".join(pieces)
    return b"\xff\xd8" + octets, *picture


def faulty_piece(rng, piece):
    """A piece with a small number where a segment has its length, a frame its height, width or
    components, or a tagged segment its resolution."""
    at = rng.choice([at for at in (2, 2, 5, 7, 9, 12) if at + 2 <= len(piece)])
    if at == 9:
        return piece[:at] + bytes([rng.choice([0, 1, 2, 3, 4, 255])]) + piece[at + 1:]
    return piece[:at] + rng.choice([b"\0\0", b"\0\1", b"\0\7"]) + piece[at + 2:]


def faulty_picture(rng, main):
    """The same, but with a piece too few, too many, in another's place, changed or cut, or one that
    is a fault outside a scan; some are good all the same."""
    pieces, *picture = random_pieces(rng, main)
    markers = [k for k, piece in enumerate(pieces) if len(piece) > 2 or piece == b"\xff\xd9"]
    at, other = (rng.choice([rng.choice(markers), rng.randrange(len(pieces))]) for _ in range(2))
    kind = rng.randrange(8)
    if kind == 0:
        del pieces[at]
    elif kind == 1:
        pieces.insert(at, pieces[other])
    elif kind == 2:
        pieces[at], pieces[other] = pieces[other], pieces[at]
    elif kind == 3:
        pieces[at:] = [rng.choice([pieces[at][:-1], b"\xff", b"\xff\xff", b"\xfe"]) or b"\xff"]
    elif kind in (4, 5) and len(pieces[at]) > 3:
        pieces[at] = faulty_piece(rng, pieces[at])
    else:
        pieces.insert(at, rng.choice([b"\xff\0", b"\xff\xff\0", b"\xff\x02", b"\xff\xd3",
                                      b"\xff\xd8", b"\xff\xff", b"\0"]))
    return rng.choice([b"\xff\xd8"] * 9 + [b"\xff\xff\xd8"]) + padded(rng, pieces), *picture


def faulty_layer(rng):
    """A page of one stripe and one image layer, which may be faulty."""
    main, kind = rng.choice(LISTED), rng.choice([1, 4])
    page = start(main=main) + stripe(type=kind) + faulty_picture(rng, main)[0]
    return page if rng.random() < 0.2 else page + rng.choice([b"", b"\xff"]) + END


class PageInTheMaking:
    """A page's octets and the listing that reading it must give."""

    def __init__(self, rng, often):
        self.rng, self.often = rng, often
        self.coders = rng.choice([(m, i) for m in (0, 1, 2, 4, 8) for i in (0, 1) if m or i])
        self.main = rng.choice(LISTED)
        self.width = number_between(rng, 1, 32768)
        self.octets = start(mask=self.coders[0], image=self.coders[1], main=self.main,
                            width=self.width)
        self.lines = ""

    def add_record(self, stripe_number, layer, coder, box, resolution, colour, data, grey):
        fields = [stripe_number, layer, coder, *box, resolution, *colour, *data, grey]
        self.lines += " ".join(map(str, fields)) + "\n"

    def types(self):
        return [t for t in (1, 2, 3, 4, 6, 7)
                if (self.coders[0] or not t & 2) and (self.coders[1] or not t & 5)]

    def add_image(self, kind, bit, offset):
        """Puts an image layer; answers coder, box, resolution, data and octet 17 of its record."""
        if not kind & bit:
            return 0, (0, 0, 0, 0), self.main, (0, 0), 0
        octets, width, height, resolution, grey = random_picture(self.rng, self.main, self.often)
        data = (len(self.octets), len(octets))
        self.octets += octets
        return 1, (*offset, width, height), resolution, data, grey

    def add_stripe(self, stripe_number, height):
        rng = self.rng
        kind = rng.choice(self.types())
        colours = rng.randbytes(6)
        offsets = []
        for bit in (1, 4):  # "an absent layer's are read, dropped and not judged"
            most = 65535 if kind & bit else 2 ** 32 - 1
            offsets.append((number_between(rng, 0, most), number_between(rng, 0, most)))
        mask = random_octets(rng, rng.choice([1, 5, 300, rng.randint(1, 60)]) if kind & 2 else 0)
        self.octets += stripe(type=kind, colours=colours, x1=offsets[0][0], y1=offsets[0][1],
                              x3=offsets[1][0], y3=offsets[1][1], height=height, mask=len(mask))
        mask_data = (len(self.octets), len(mask)) if mask else (0, 0)
        self.octets += mask
        layers = [self.add_image(kind, 1, offsets[0]), self.add_image(kind, 4, offsets[1])]
        layers.insert(1, (self.coders[0] if mask else 0, (0, 0, self.width, height), self.main,
                          mask_data, 0))
        for layer, (coder, box, resolution, data, grey) in enumerate(layers, 1):
            colour = {1: colours[:3], 2: (0, 0, 0), 3: colours[3:]}[layer]
            self.add_record(stripe_number, layer, coder, box, resolution, colour, data, grey)


def random_page(rng, stripes=None, often=0.5):
    """A page that keeps every rule, and the lines that a reader of it prints. `often` is how often
    a layer has fill, and changes nothing else in the page."""
    page = PageInTheMaking(rng, often)
    for _ in range(rng.choice([0, 0, 1, 2, 3])):
        octets = random_octets(rng, random_size(rng))
        page.octets += (b"\xff\xed" + big(len(octets) + 6, 2) + b"MRC"
                        + bytes([rng.randint(3, 0xFE)]) + octets)
    if stripes is None:
        stripes = rng.choice([1, 1, 1, 2, 2, 3, 5]) if rng.random() < 0.98 else 64
    for stripe_number, height in enumerate(heights(rng, stripes)):
        page.add_stripe(stripe_number, height)
    page.octets += END + bytes(rng.choice([0, 0, 1, 2, rng.randrange(200)]))
    return page.octets, page.lines


# Damage.  Each takes a page and gives another; some leave it good.

def change_octet(rng, page):
    if page:
        at = rng.randrange(len(page))
        page[at] = rng.choice([rng.randrange(256), rng.choice(MARKS), (page[at] + 1) % 256])
    return page


def change_code(rng, page):
    """Another code behind an FF, where markers are."""
    places = [at + 1 for at in range(len(page) - 1) if page[at] == 0xFF]
    if places:
        page[rng.choice(places)] = rng.choice([rng.randrange(256), rng.choice(MARKS)])
    return page


def change_length(rng, page):
    """Another number in the two octets behind what looks like a marker."""
    places = [at + 2 for at in range(len(page) - 3) if page[at] == 0xFF and page[at + 1] >= 0xC0]
    if places:
        at = rng.choice(places)
        old = int.from_bytes(page[at:at + 2], "big")
        new = rng.choice([0, 1, 2, 5, 6, 7, 8, 12, 16, 37, old + 1, old - 1, rng.randrange(65536)])
        page[at:at + 2] = big(new % 65536, 2)
    return page


def change_components(rng, page):
    """Another count of components, in what looks like a frame."""
    places = [found.start() for found in re.finditer(rb"\xff[\xc0-\xcf].{8}", page, re.S)]
    if places:
        page[rng.choice(places) + 9] = rng.choice([0, 1, 1, 2, 3, 3, 4, 255])
    return page


def change_field(rng, page):
    """An octet of the fields behind an ident, often the first, near an edge of a rule."""
    idents = [found.start() for found in re.finditer(b"MRC", page)]
    if idents:
        at = rng.choice([idents[0], rng.choice(idents)])
        at += rng.choice([rng.randrange(3, 14), rng.randrange(35)])
        if at < len(page):
            page[at] = rng.choice([0, 1, 2, 3, 4, 5, 6, 7, 8, 16, 128, 255, rng.randrange(256)])
    return page


def pad(rng, page):
    """More FF before one: fill before a marker, or FF FF 00; a page's own markers have none."""
    places = [at for at in range(len(page)) if page[at] == 0xFF]
    if places:
        at = rng.choice(places)
        page[at:at] = b"\xff" * rng.choice([1, 1, 2, 3, rng.randrange(70)])
    return page


def pad_zero(rng, page):
    """Two FF or more before 00, where FF 00 or a restart marker stood."""
    places = [found.start() for found in re.finditer(rb"\xff[\0\xd0-\xd7]", page)]
    if places:
        at = rng.choice(places)
        page[at:at + 2] = b"\xff" * rng.choice([2, 2, 3, rng.randrange(2, 70)]) + b"\0"
    return page


def end_in_run(rng, page):
    """The page ends with some FF, where one stood."""
    places = [at for at in range(len(page)) if page[at] == 0xFF]
    return page[:rng.choice(places)] + b"\xff" * rng.choice([1, 2, 3, 65]) if places else page


def some_range(rng, page):
    first = rng.randint(0, len(page))
    return first, min(len(page), first + rng.choice([1, 2, 4, rng.randint(0, 60), len(page)]))


def drop(rng, page):
    first, behind = some_range(rng, page)
    return page[:first] + page[behind:]


def double(rng, page):
    first, behind = some_range(rng, page)
    return page[:behind] + page[first:]


def swap(rng, page):
    """Two ranges that stand one behind the other change places."""
    first, middle = some_range(rng, page)
    behind = min(len(page), middle + rng.randint(0, 60))
    return page[:first] + page[middle:behind] + page[first:middle] + page[behind:]


def insert(rng, page):
    at = rng.randint(0, len(page))
    return page[:at] + rng.choice([b"\xff", b"\xff\xd9", random_segment(rng)]) + page[at:]


def extend(rng, page):
    return page + rng.choice([b"\0" * rng.randint(1, 50), b"\1", b"\xff\xd9", page,
                              random_octets(rng, rng.randint(1, 20))])


CHANGES = [change_octet, change_octet, change_code, change_code, change_length, change_length,
           change_field, change_field, change_field, change_field, drop, drop, double, swap, insert,
           extend, pad, pad, pad_zero, end_in_run, change_components, change_components]


def damaged(rng, page):
    """The page after one to three changes."""
    page = bytearray(page)
    for _ in range(rng.choice([1, 1, 1, 2, 3])):
        page = bytearray(rng.choice(CHANGES)(rng, page))
    return bytes(page)
