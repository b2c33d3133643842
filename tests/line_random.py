"""Lines at random: sheets, plane lists and samples, and what a composer has to say to them.

The line due is worked out here from the top layer down: the layers that some
choice of the unread bits can show are collected, and a pixel is seen where they
have one known colour. The reference tries contents from the lowest layer up.
"""

from line_making import GREY, Stripe, entry, unseen_pixel, with_unseen
from sheet_random import CHOICES, LISTED

WIDEST = 40
WIDER = 600          # now and then
HIGHER = [256, 300, 32768, 65535]
SIZES = [3, 3, 5, 5, 7, 9, 11, 13, 15, 15]
# few colours, so that sides agree often, those of grey layers too; some differ in one octet only;
# that of unseen pixels is one as any other
COLOURS = [bytes(c) for c in ((255, 128, 96), (0, 128, 96), (0, 0, 0), (0, 128, 97), (0, 129, 96),
                              GREY)]
ONES = [1, 1, 1, 2, 128, 255]
HALF_ONES = ONES + [0] * len(ONES)


def some_unseen(rng, seen=()):
    """An unseen colour: that of old, the grey, one that pixels of the line have, or any."""
    told = [(0, 0, 0), GREY, (255, 255, 255), tuple(rng.randrange(256) for _ in range(3)),
            tuple(rng.choices([0, 1, 127, 128, 255], k=3))]
    return rng.choice(told + [tuple(rng.choice(seen or COLOURS)) for _ in told])


def maybe_unseen(rng, seen=()):
    """The unseen colour of one call in two; the other is not told any."""
    return rng.choice([None, some_unseen(rng, seen)])


# Sheets

def extent(rng, size, k):
    """An offset in main pixels and a number of samples, often over an edge of the page."""
    offset = rng.choice([0, 0, 1, rng.randint(0, size), rng.randint(0, size),
                         rng.randint(0, size), size - 1, size, size + 1, 65535])
    whole = -(-size // k)
    return offset, rng.choice([1, 2, rng.randint(1, whole), whole, whole, whole + 1])


def code_layer(rng, stripe, layer):
    if layer == 2:
        stripe.code(2)
        return
    stripe.layers[layer]["grey"] = rng.choice([0, 1]) if layer % 2 else 0
    if rng.random() < 0.25 and stripe.height not in HIGHER:
        stripe.code(layer, width=stripe.width, height=stripe.height)
        return
    resolution = rng.choice([r for r in LISTED if stripe.main % r == 0])
    k = stripe.main // resolution
    x, width = extent(rng, stripe.width, k)
    y, height = extent(rng, stripe.height, k)
    if stripe.height in HIGHER:
        y, height = stripe.height - rng.randint(1, 20), rng.randint(1, 5)
    elif rng.random() < 0.7:
        y, height = rng.choice([0, 0, y]), max(height, -(-stripe.height // k))
    stripe.code(layer, width=width, height=height, x=x, y=y, resolution=resolution)


def random_stripe(rng, width, main, colours, height=None):
    stripe = Stripe(width, height or rng.choice([1, 1, 2, 3, 4, 5]), rng.choice(SIZES), main)
    choice, often = rng.choice(CHOICES), rng.choice([0.3, 0.7, 1])
    for layer, fields in stripe.layers.items():
        if layer % 2 == 1:
            fields["colour"] = rng.choice(colours)
        if layer in choice or (layer > 3 and rng.random() < often):
            code_layer(rng, stripe, layer)
    return stripe


# Samples

def mask_octets(rng, count, width):
    kind = rng.randrange(5)
    if kind == 0:
        return bytes([rng.choice([0, rng.choice(ONES)])]) * count
    if kind < 3:
        return bytes(rng.choices(HALF_ONES, k=count))
    octets = bytearray()
    while len(octets) < count:
        octets += bytes([rng.choice([0, 1])]) * rng.randint(1, width)
    return bytes(octets[:count])


def layer_octets(rng, stripe, layer, colours):
    fields = stripe.layers[layer]
    count = fields["width"] * fields["height"]
    if layer % 2 == 0:
        return mask_octets(rng, count, fields["width"])
    if fields["grey"]:
        colours = [octets[:1] for octets in colours]
    if rng.random() < 0.3:
        return rng.choice(colours) * count
    return b"".join(rng.choices(colours, k=count))


def sample_size(stripe, layer):
    return 3 if layer % 2 == 1 and not stripe.layers[layer]["grey"] else 1


def layer_size(stripe, layer):
    fields = stripe.layers[layer]
    return fields["width"] * fields["height"] * sample_size(stripe, layer)


class Work:
    """A call: its stripes, the entries of its plane list, samples, stripe, line and room; and the
    unseen colour, where it is told one."""

    unseen = None

    def __init__(self, rng):
        main, self.colours = rng.choice(LISTED), rng.sample(COLOURS, rng.choice([1, 2, 2, 3, 6]))
        self.stripes = self.some_stripes(rng, main)
        self.sheet = b"".join(bytes(stripe.records(k)) for k, stripe in enumerate(self.stripes))
        self.number = rng.randrange(len(self.stripes))
        height = self.named().height
        self.line = height - 1 - rng.randrange(min(height, 20))
        self.room = 4 * self.named().width + rng.choice([0, 0, 1, 3, 20])
        self.planes, self.samples = {}, bytearray()
        share = rng.choice([0, 0.3, 0.5, 0.8, 0.8, 1])
        read = [layer for layer in self.coded() if rng.random() < share]
        for layer in rng.sample(read, len(read)):
            self.read(rng, layer)

    def some_stripes(self, rng, main):
        width = rng.choice([1, 2, rng.randint(1, WIDEST), WIDEST])
        if rng.random() < 0.03:
            width = rng.randint(WIDEST, WIDER)
        if rng.random() < 0.04:
            return [random_stripe(rng, rng.choice([1, 2, 3]), main, self.colours,
                                  rng.choice(HIGHER))]
        return [random_stripe(rng, width, main, self.colours)
                for _ in range(rng.choice([1, 1, 1, 2, 3]))]

    def some_octets(self, rng, layer):
        """The samples of a layer that is read."""
        return layer_octets(rng, self.named(), layer, self.colours)

    def named(self):
        return self.stripes[self.number]

    def coded(self):
        return [layer for layer, fields in self.named().layers.items() if fields["length"]]

    def unread(self):
        return [layer for layer in self.coded() if layer not in self.planes]

    def read(self, rng, layer):
        """One more layer is read; the samples of the others stay."""
        self.samples += b"\1" * rng.choice([0, 0, 0, 1, 2, 5])
        size, fit = layer_size(self.named(), layer), len(self.samples)
        if fit >= size and rng.random() < 0.1:
            self.planes[layer] = rng.randint(0, fit - size)
            return
        self.planes[layer] = fit
        self.samples += self.some_octets(rng, layer)

    def plane_octets(self):
        return b"".join(entry(*pair) for pair in sorted(self.planes.items()))

    def call(self, **changes):
        """What the driver is given: sheet, planes, samples, room, stripe and line, some of it
        changed; and the unseen colour."""
        own = {"sheet": self.sheet, "planes": self.plane_octets(), "samples": bytes(self.samples),
               "room": self.room, "stripe": self.number, "line": self.line}
        assert set(changes) <= set(own)
        return with_unseen(tuple({**own, **changes}.values()), self.unseen)

    def due(self):
        """The answer and the line to the call as it is."""
        line = b"".join(unseen_pixel(self.unseen) if colour is None else colour + b"\1"
                        for colour in self.colours_shown())
        return "done %d" % len(line), line

    def colours_shown(self):
        """The colour of each pixel, None where it is unseen."""
        stripe = self.named()
        return [self.colour_shown(stripe, x) for x in range(stripe.width)]

    def value(self, stripe, layer, x):
        """A mask's bit, an image layer's colour, or None where it is not known."""
        fields, mask = stripe.layers[layer], layer % 2 == 0
        k = stripe.main // fields["resolution"]
        column, row = (x - fields["x"]) // k, (self.line - fields["y"]) // k
        if not fields["length"] and layer == 2:
            return int(stripe.layers[3]["length"] != 0)
        if not (0 <= column < fields["width"] and 0 <= row < fields["height"]):
            return 0 if mask else bytes(fields["colour"])
        if layer not in self.planes:
            return None
        number, size = row * fields["width"] + column, sample_size(stripe, layer)
        at = self.planes[layer] + number * size
        octets = bytes(self.samples[at:at + size])
        if fields["grey"]:
            return octets + b"\x80\x60"
        return int(octets != b"\0") if mask else octets

    def colour_shown(self, stripe, x):
        """From the top: below a mask that is known to be 1 nothing shows."""
        shown = set()
        for mask in range(len(stripe.layers) - 1, 0, -2):
            bit = self.value(stripe, mask, x)
            if bit != 0:
                shown.add(self.value(stripe, mask + 1, x))
            if bit == 1:
                break
        else:
            shown.add(self.value(stripe, 1, x))
        return shown.pop() if len(shown) == 1 else None


# Damage of a plane list: each gives other entries (layer, start) and samples; some stay good

def change_layer(rng, work, entries, samples):
    at = rng.randrange(len(entries))
    layers = [0, 16, 255, *range(1, 18), entries[at][0] - 1, entries[at][0] + 1]
    entries[at] = (max(0, rng.choice(layers)), entries[at][1])
    return entries, samples


def change_start(rng, work, entries, samples):
    """Just at the buffer's end, an octet past it, or anywhere."""
    at = rng.randrange(len(entries))
    layer = entries[at][0]
    size = layer_size(work.named(), layer) if layer in work.named().layers else 1
    start = rng.choice([len(samples) - size, len(samples) - size + 1, len(samples) - size + 1,
                        len(samples), 2 ** 32 - size, 2 ** 32 - 1, rng.randrange(2 ** 32)])
    entries[at] = (layer, max(0, start) % 2 ** 32)
    return entries, samples


def swap(rng, work, entries, samples):
    a, b = rng.randrange(len(entries)), rng.randrange(len(entries))
    entries[a], entries[b] = entries[b], entries[a]
    return entries, samples


def double(rng, work, entries, samples):
    at = rng.randrange(len(entries))
    return entries[:at + 1] + entries[at:], samples


def cut_samples(rng, work, entries, samples):
    return entries, samples[:rng.choice([0, len(samples) - 1, len(samples) - 1,
                                         rng.randint(0, len(samples))])]


def add_any(rng, work, entries, samples):
    """Any layer of the stripe in its order, coded or not."""
    layer = rng.randint(1, len(work.named().layers))
    return sorted(entries + [(layer, 0)]), samples


DAMAGES = [change_layer, change_layer, change_start, change_start, swap, double, cut_samples,
           add_any]


def damaged_planes(rng, work):
    """(plane list octets, samples) after some damage."""
    entries, samples = sorted(work.planes.items()), bytes(work.samples)
    for _ in range(rng.choice([0, 1, 1, 1, 2])):
        if entries:
            entries, samples = rng.choice(DAMAGES)(rng, work, entries, samples)
    octets = b"".join(entry(*pair) for pair in entries)
    if rng.random() < 0.3 or not entries:
        octets += bytes(rng.choice([0, 1, 2, 255]) for _ in range(rng.randint(1, 6)))
    return octets, samples


def plane_fault(work, octets, samples):
    """The entry at fault of a plane list, or None."""
    before = 0
    for k in range(len(octets) // 5):
        layer, start = octets[5 * k], int.from_bytes(octets[5 * k + 1:5 * k + 5], "big")
        if layer not in work.coded() or layer <= before:
            return k
        if start + layer_size(work.named(), layer) > len(samples):
            return k
        before = layer
    return len(octets) // 5 if len(octets) % 5 else None
