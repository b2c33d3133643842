"""Bands at random: stripes that are several blocks of 64 pixels wide as well as small ones, masks
in runs and rows of one value, layers that share samples.

The band due is worked out line by line and from the top layer down (tests/line_random.py); the
reference paints it from the lowest layer up.
"""

import line_random
from line_making import unseen_pixel
from line_random import HALF_ONES, ONES, layer_size, random_stripe, some_unseen

# the widest and the highest of one band in some: most are small, and have more of everything
SIZES = [(3, 4), (12, 9), (12, 9), (40, 12), (40, 12), (130, 9), (400, 16)]
SHARED = 0.25        # of layers that are read out of samples that are there


def mask_row(rng, width):
    kind = rng.randrange(5)
    if kind < 2:
        return bytes([rng.choice([0, rng.choice(ONES)])]) * width
    if kind == 2:
        return bytes(rng.choices(HALF_ONES, k=width))
    row, longest = bytearray(), rng.choice([3, 20, 70, 140])
    while len(row) < width:
        row += bytes([rng.choice([0, rng.choice(ONES)])]) * rng.randint(1, longest)
    return bytes(row[:width])


class Work(line_random.Work):
    """A call for a band."""

    def __init__(self, rng, sizes=None):
        self.widest, self.highest = rng.choice(sizes or SIZES)
        super().__init__(rng)
        self.unseen = some_unseen(rng, self.colours)
        self.room = self.size() + rng.choice([0, 0, 1, 3, 20])

    def some_stripes(self, rng, main):
        width = rng.choice([self.widest, rng.randint(1, self.widest)])
        return [random_stripe(rng, width, main, self.colours, rng.randint(1, self.highest))
                for _ in range(rng.choice([1, 1, 1, 2, 3]))]

    def some_octets(self, rng, layer):
        fields = self.named().layers[layer]
        if layer % 2 == 1 or rng.random() < 0.2:
            return super().some_octets(rng, layer)
        return b"".join(mask_row(rng, fields["width"]) for _ in range(fields["height"]))

    def read(self, rng, layer):
        """Often out of samples of other layers, and then often up to the last of them."""
        fit = len(self.samples) - layer_size(self.named(), layer)
        if fit >= 0 and rng.random() < SHARED:
            self.planes[layer] = rng.choice([fit, rng.randint(0, fit)])
        else:
            super().read(rng, layer)

    def size(self):
        return 4 * self.named().width * self.named().height

    def call(self, **changes):
        """What the driver is given: sheet, planes, samples, room, stripe and unseen colour."""
        case = super().call(**changes)
        return case[:5] + case[6:]

    def due(self):
        """The answer and the band to the call as it is."""
        band = bytearray()
        for line in range(self.named().height):
            self.line = line
            for colour in self.colours_shown():
                band += unseen_pixel(self.unseen) if colour is None else colour + b"\1"
        return "done %d" % len(band), bytes(band)
