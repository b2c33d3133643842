"""The widest and the largest bands, the largest layers, and the smallest stack, by the reference
and by the library.

What is expected is worked out from how each call is put together, or is the reference's answer.
Both painters run in a stack that is hardly more than a C program needs to begin at all. Layers of
65,535 by 65,535 samples stand in memory that is never touched but for a few pages; a band of more
than 2^32 octets stands in memory that many of its lines share, and is painted by the library alone,
for the reference takes its time over each pixel.
"""

import os
import random
import sys

import band_random
import calls
import reference_run
import test_limits
from band_making import as_band
from line_making import Stripe, entry
from line_random import sample_size
from page_making import big
from test_limits_line import COLOURS, LARGEST, RESOLUTIONS, TOP, WIDEST, far_stripe, printed

STACK = 16           # KiB for a painter
UNSEEN = (1, 2, 3)
MORE = os.environ.get("SPIREROOK_TRIALS", "1") not in ("", "1")
HEIGHTS = [32769, 65535] if MORE else [32769]      # of bands over 2^32 octets
LARGE_DRIVER = reference_run.in_driver("band_far.c")
ROW_STEP = 4096      # rows between those of far layers that have samples of their own


# Wide bands of many layers

class Wide(band_random.Work):
    """Stripes of fifteen layers on the widest page, all of them coded."""

    def __init__(self, rng, read, height):
        self.colours, self.planes, self.samples = COLOURS, {}, bytearray()
        self.stripes = [self.stripe(rng, 1), self.stripe(rng, height)]
        self.sheet = b"".join(bytes(stripe.records(k)) for k, stripe in enumerate(self.stripes))
        self.number, self.line, self.unseen = 1, 0, UNSEEN
        self.room = self.size()
        for layer in read:
            self.read(rng, layer)

    @staticmethod
    def stripe(rng, height):
        stripe = Stripe(WIDEST, height, 15, 1200)
        stripe.code(2)
        for layer, fields in stripe.layers.items():
            if layer != 2:
                resolution = RESOLUTIONS[layer % 6]
                stripe.code(layer, x=rng.randrange(50), y=rng.randrange(2), height=1,
                            resolution=resolution, width=WIDEST * resolution // 1200)
            if layer % 2 == 1:
                fields.update(colour=COLOURS[layer % 4 // 2], grey=int(layer % 4 == 3))
        return stripe


def wide_calls(rng):
    """(name, call) of bands 32,768 pixels wide, and of refusals beside one of them"""
    for name, read in (("all read", range(1, 16)), ("nothing read", []),
                       ("images read", range(1, 16, 2)),
                       ("some read", [1, 3, 5, 7, 10, 11, 12, 13, 14, 15])):
        work = Wide(rng, read, 3)
        yield "the widest band, " + name, work.call()
    yield "the widest band, an octet less", work.call(room=work.room - 1)
    yield "a stripe behind the last", work.call(stripe=2)
    yield "200,010 entries", work.call(planes=work.plane_octets() + entry(16, 0) * 200000)
    yield "nothing at all", as_band((b"", b"", b"", 0, 0, 0), 0, UNSEEN)


def check_wide(tally, program, reference, works):
    """In a small stack the library paints what the reference paints in the same."""
    stacks = [test_limits.least_stack(each) + STACK for each in (reference, program)]
    for name, call in works:
        words = reference_run.words(*call)
        due, got = printed(reference, stacks[0], words), printed(program, stacks[1], words)
        tally.check(got == due and due.endswith(b".\n") and due[:4] in (b"done", b"refu"),
                    "%s: the reference says %s, the library %s" % (name, due[:40], got[:40]))
    print("%d wide calls in stacks of %d and %d KiB" % (len(works), *stacks))


# Layers beyond 2^32 octets

def far_octets(layer, start, grey=0, resolution=1200, lacking=0):
    """A call of line_far and what it prints: a stripe two pixels wide and as high as there is, over
    a layer of the largest size; some of its rows are told, the last among them."""
    stripe = far_stripe(2, layer, resolution, 0, 3, grey)
    fields, step = stripe.layers[layer], sample_size(stripe, layer)
    k, told, band = 1200 // resolution, {}, bytearray()
    for y in range(stripe.height):
        row = (y - 3) // k
        sample = bytes(step)
        if row % ROW_STEP == 1 or row == (stripe.height - 1 - 3) // k:
            sample = bytes([200, row % 256, row // 256][:step])
            at = start + row * LARGEST * step
            told.update({at + i: octet for i, octet in enumerate(sample)})
        if layer == 4:
            first, rest = COLOURS[int(sample != b"\0")], COLOURS[0]
        elif row < 0:
            first = rest = bytes(fields["colour"])
        else:
            first, rest = (each + b"\x80\x60" * fields["grey"] for each in (sample, bytes(step)))
        # of a scaled layer both pixels have the first sample
        band += first + b"\1" + (first if k > 1 else rest) + b"\1"
    sheet, planes = bytes(stripe.records(0)), entry(layer, start)
    told = {} if lacking else told
    numbers = (calls.NUMBERS["band"], len(sheet), len(planes),
               start + LARGEST * LARGEST * step - lacking, len(band), len(told),
               *calls.told_numbers((0, *UNSEEN)))
    words = (b"".join(big(n, 8) for n in numbers) + sheet + planes
             + b"".join(big(at, 8) + bytes([octet]) for at, octet in told.items()))
    return words, b"refused 15 0\n" if lacking else b"done %d\n" % len(band) + bytes(band)


def far_calls():
    """(name, words, what is printed)"""
    for told, layer, grey in (("layer 1", 1, 0), ("grey layer 1", 1, 1), ("layer 4", 4, 0)):
        yield told + " from 2^32 - 1", *far_octets(layer, TOP - 1, grey)
        yield told + " at 100", *far_octets(layer, 5, grey, 100)
        yield told + ", an octet less", *far_octets(layer, TOP - 1, grey, lacking=1)
        yield told + ", 2^32 octets less", *far_octets(layer, TOP - 1, grey, lacking=TOP)


def check_far(tally, told, program, works):
    stack, without = test_limits.least_stack(program) + STACK, 0
    for name, words, due in works:
        got = printed(program, stack, words)
        if got == b"no memory\n.\n":
            without += 1
        else:
            tally.check(got == due + b".\n", "%s: %s: %s is due, but it says %s"
                        % (told, name, due[:40], got[:40]))
    if without:
        print("%s: %d calls are not tried, no memory for their samples" % (told, without))


# Bands beyond 2^32 octets

def check_large(tally, program):
    for height in HEIGHTS:
        size = 4 * WIDEST * height
        got = reference_run.run(program, b"", str(height))[0]
        if got == "no memory\n":
            print("a band of %d octets is not tried: no memory" % size)
        else:
            tally.check(got == "0 0 %d lines\n" % size, "a band of %d octets: %s" % (size, got))


def main():
    tally, rng = reference_run.Tally(), random.Random(1)
    both = calls.Both(tally, calls.ALL["band"])
    works = list(far_calls())
    check_far(tally, "the reference", reference_run.build(
        "reference_line_far", parts=reference_run.CALLS + reference_run.FAR_DRIVER), works)
    if both.library is not None:
        check_wide(tally, both.library, both.reference, list(wide_calls(rng)))
        check_far(tally, "the library", reference_run.build_library_driver(
            tally, "line_far", reference_run.FAR_DRIVER), works)
        check_large(tally, reference_run.build_library_driver(tally, "band_far", LARGE_DRIVER))
    return tally.end()


if __name__ == "__main__":
    sys.exit(main())
