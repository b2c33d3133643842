"""Calls for coded data at random, and what has to be said to them.

The answer due is read from the records as they were made, by their place in the
sheet; the reference searches the sheet for the layer.
"""

import sheet_random
from page_random import random_octets
from sheet_making import get, put

WIDE = [0, 1, 2, 63, 64, 255, 256, 257, 65535, 65536, 2 ** 31, 2 ** 32 - 1]


def place(rng, sheet, k, sizes):
    """Gives a coded record data in its source, often at its exact end, now and then past it."""
    size = sizes[get(sheet, k, "layer") > 3]
    length = rng.choice([1, rng.randint(1, size + 1), size or 1])
    start = max(0, rng.choice([0, size - length, size - length, size - length + 1,
                               rng.randint(0, size)]))
    put(sheet, k, "start", start)
    put(sheet, k, "length", length)


class Work:
    """A sheet that keeps the rules, a page, a pencil file, and one of its layers."""

    def __init__(self, rng):
        self.sheet = bytearray(sheet_random.good_sheet(rng, stripes=rng.choice([1, 1, 1, 2, 3])))
        self.records = sheet_random.whole_records(self.sheet)
        self.page, self.pencil = (random_octets(rng, rng.choice([0, 1, rng.randint(0, 60), 300]))
                                  for _ in range(2))
        sizes = (len(self.page), len(self.pencil))
        for k in range(self.records):
            if get(self.sheet, k, "length") and rng.random() < 0.9:
                place(rng, self.sheet, k, sizes)
        self.sheet = bytes(self.sheet)
        self.record = rng.randrange(self.records)

    def call(self, **changes):
        """What the driver is given, some of it changed."""
        own = {"sheet": self.sheet, "page": self.page, "pencil": self.pencil,
               "stripe": get(self.sheet, self.record, "stripe"),
               "layer": get(self.sheet, self.record, "layer")}
        assert set(changes) <= set(own)
        return tuple({**own, **changes}.values())

    def due(self):
        """The answer and the part to the call as it is."""
        start, length = (get(self.sheet, self.record, field) for field in ("start", "length"))
        if length == 0:
            return "done 0 0 0", b""
        source = int(get(self.sheet, self.record, "layer") > 3)
        octets = (self.page, self.pencil)[source]
        if start + length > len(octets):
            return "refused 1 %d" % self.record, b""
        return "done %d %d %d" % (length, source, start), octets[start:start + length]

    def beside(self, rng):
        """A stripe and a layer that the sheet has not both of."""
        have = {(get(self.sheet, k, "stripe"), get(self.sheet, k, "layer"))
                for k in range(self.records)}
        while True:
            stripe, layer = rng.choice(sorted(have))
            if rng.random() < 0.5:
                stripe = rng.choice([stripe, stripe + 1, *WIDE])
            else:
                layer = rng.choice([0, layer + 1, layer + 2, layer + 256, layer + 65536, *WIDE])
            if (stripe, layer) not in have:
                return stripe, layer


def damaged_call(rng, work):
    """The same call with a damaged sheet, cut sources, or another stripe or layer."""
    changes = {}
    if rng.random() < 0.6:
        changes["sheet"] = bytes(sheet_random.damaged(rng, bytearray(work.sheet)))
    if rng.random() < 0.3:
        changes["page"] = work.page[:rng.randint(0, len(work.page))]
    if rng.random() < 0.3:
        changes["pencil"] = work.pencil[:rng.randint(0, len(work.pencil))]
    if rng.random() < 0.2:
        changes["stripe"] = rng.choice([0, 1, 2, rng.choice(WIDE)])
    if rng.random() < 0.2:
        changes["layer"] = rng.choice([*range(17), rng.choice(WIDE)])
    return work.call(**changes)
