"""The widest lines, the largest sheets and layers, and the smallest stack, by the reference
and by the library.

What is expected is worked out from how each call is put together. Both composers
run in a stack that is hardly more than a C program needs to begin at all, so
that one whose depth grows with its work is ended by a signal. Layers of 65,535
by 65,535 samples stand in memory that is never touched but for a few pages.
"""

import random
import subprocess
import sys

import calls
import reference_run
import test_limits
from line_making import Stripe, entry, with_unseen
from line_random import Work, sample_size
from page_making import big
from test_limits import in_stack

STACK = 16          # KiB for a composer
WIDEST = 32768
LARGEST = 65535
TOP = 2 ** 32
RESOLUTIONS = [1200, 600, 400, 300, 200, 100]
COLOURS = [bytes((255, 128, 96)), bytes((0, 128, 96)), bytes((1, 2, 3))]
# the unseen colour that each call is told; seen pixels have it too
UNSEEN = {"line": None, "line_unseen": tuple(COLOURS[2])}


# Wide lines of many layers

class Wide(Work):
    """64 stripes of fifteen layers, or fewer, all coded, on the widest page; layers 3, 7, 11 and 15
    are grey."""

    def __init__(self, rng, number, read, stripes=64):
        self.colours, self.planes, self.samples = COLOURS, {}, bytearray()
        heights = [1] * 62 + [65472, 1]
        self.stripes = [self.stripe(rng, height) for height in heights[-stripes:]]
        self.sheet = b"".join(bytes(stripe.records(k)) for k, stripe in enumerate(self.stripes))
        self.number, self.line, self.room = number, 0, 4 * WIDEST
        for layer in read:
            self.read(rng, layer)
        self.shown = None

    def colours_shown(self):
        """Worked out once, for it takes its time and nothing changes."""
        self.shown = self.shown or super().colours_shown()
        return self.shown

    @staticmethod
    def stripe(rng, height):
        stripe = Stripe(WIDEST, height, 15, 1200)
        stripe.code(2)
        for layer, fields in stripe.layers.items():
            if layer != 2:
                resolution = RESOLUTIONS[layer % 6]
                stripe.code(layer, x=rng.randrange(50), height=1, resolution=resolution,
                            width=rng.choice([WIDEST * resolution // 1200, 60000]))
            if layer % 2 == 1:
                fields.update(colour=COLOURS[0], grey=int(layer % 4 == 3))
        return stripe


def largest_calls(rng):
    """(name, call, due) of lines 32,768 pixels wide and 960 records; the reference takes a second
    and more to judge these, so that only one call has them"""
    for name, number, read in (("all read", 63, range(1, 16)), ("nothing read", 31, [])):
        work = Wide(rng, number, read)
        yield "the widest line of 64 stripes, " + name, work.call(), work.due()
    late = work.sheet[:-1] + b"\1"
    yield "a fault in the last of 960 records", work.call(sheet=late), ("refused 14 959", b"")
    more = work.sheet + work.sheet[-28:]
    yield "961 records", work.call(sheet=more), ("refused 14 960", b"")


def wide_works(rng):
    """(name, Wide) of few records"""
    for name, read, stripes in [
            ("all read", range(1, 16), 1), ("nothing read", [], 1),
            ("images read", range(1, 16, 2), 1),
            ("some read", [1, 3, 5, 7, 10, 11, 12, 13, 14, 15], 2)]:
        yield "the widest line, " + name, Wide(rng, 0, read, stripes)


def wide_calls(works, beside, unseen):
    """(name, call, due) of lines 32,768 pixels wide, and refusals beside one of them"""
    for work in (beside, *(work for _, work in works)):
        work.unseen = unseen
    for name, work in works:
        yield name, work.call(), work.due()
    yield "the widest line, an octet less", beside.call(room=beside.room - 1), ("refused 13 0", b"")
    yield "line 65,472 of a stripe", beside.call(stripe=0, line=65472), ("refused 17 0", b"")
    planes = beside.plane_octets() + entry(16, 0) * 200000
    yield "200,015 entries", beside.call(planes=planes), ("refused 15 15", b"")
    yield "a megabyte of entry 0", beside.call(planes=bytes(2 ** 20)), ("refused 15 0", b"")
    # each is composed with a null pointer for no octets too
    yield "nothing at all", with_unseen((b"", b"", b"", 0, 0, 0), unseen), ("refused 14 0", b"")
    yield "no planes, samples and room", beside.call(planes=b"", samples=b"", room=0), (
        "refused 13 0", b"")


# Layers beyond 2^32 octets

def far_stripe(width, layer, resolution=1200, x=0, y=0, grey=0):
    """One stripe, the highest there is, with one layer of the largest size; mask 4 is over white,
    and what it shows is layer 5, black."""
    stripe = Stripe(width, LARGEST, 5, 1200)
    stripe.layers[1]["colour"], stripe.layers[5]["colour"] = COLOURS[0], COLOURS[1]
    if layer == 4:
        stripe.code(1, width=1, height=1, x=LARGEST)
    stripe.code(layer, width=LARGEST, height=LARGEST, resolution=resolution, x=x, y=y, grey=grey)
    return stripe


def far_octets(name, stripe, layer, line, start, lacking=0):
    """A call of line_far and what it prints. Every seventh sample of the line's row is told."""
    fields, step = stripe.layers[layer], sample_size(stripe, layer)
    k = 1200 // fields["resolution"]
    row = (line - fields["y"]) // k
    size = fields["width"] * fields["height"] * step
    told, pixels = {}, []
    for x in range(stripe.width):
        column = (x - fields["x"]) // k
        inside = 0 <= column < fields["width"] and 0 <= row < fields["height"]
        sample = bytes(step)
        if inside and column % 7 == 0:
            sample = bytes([200, column % 256, row % 256][:step])
            at = start + (row * fields["width"] + column) * step
            told.update({at + i: octet for i, octet in enumerate(sample)})
        if layer == 4:
            pixels.append(COLOURS[1] if sample != b"\0" else COLOURS[0])
        else:
            sample += b"\x80\x60" * fields["grey"]
            pixels.append(sample if inside else bytes(fields["colour"]))
    sheet, planes = bytes(stripe.records(0)), entry(layer, start)
    told = told if not lacking else {}
    numbers = (calls.NUMBERS[name], len(sheet), len(planes), start + size - lacking,
               4 * stripe.width, len(told),
               *calls.told_numbers(with_unseen((0, line), UNSEEN[name])))
    words = (b"".join(big(n, 8) for n in numbers) + sheet + planes
             + b"".join(big(at, 8) + bytes([octet]) for at, octet in told.items()))
    line_due = b"".join(pixel + b"\1" for pixel in pixels)
    return words, (b"refused 15 0\n" if lacking else b"done %d\n" % len(line_due) + line_due)


def far_calls():
    """(name, words, what is printed)"""
    for told, layer, grey in (("layer 1", 1, 0), ("grey layer 1", 1, 1), ("layer 4", 4, 0)):
        stripe = far_stripe(300, layer, grey=grey)
        # rows before and behind 2^31 and 2^32 octets, and the last
        for line in (0, 1, 10922, 10923, 21845, 21846, 32768, 32769, 43690, 65534):
            yield ("%s, line %d, from 2^32 - 1" % (told, line),
                   *far_octets("line", stripe, layer, line, TOP - 1))
        yield "%s from 0, the last line" % told, *far_octets("line", stripe, layer, 65534, 0)
        for name in UNSEEN:
            yield ("%s, %s from 5, the last line" % (name, told),
                   *far_octets(name, stripe, layer, 65534, 5))
            yield ("%s, %s, an octet less" % (name, told),
                   *far_octets(name, stripe, layer, 65534, TOP - 1, 1))
            yield ("%s, %s, 2^32 octets less" % (name, told),
                   *far_octets(name, stripe, layer, 65534, TOP - 1, TOP))
            scaled = far_stripe(300, layer, 100, 17, 5, grey)
            yield ("%s, %s at 100" % (name, told),
                   *far_octets(name, scaled, layer, 65534, TOP - 2))
            yield ("%s, %s at 100, line 4" % (name, told),
                   *far_octets(name, scaled, layer, 4, TOP - 2))
    widest = far_stripe(WIDEST, 1, 1200, 3, 0)
    yield "layer 1 across the widest page", *far_octets("line", widest, 1, 65534, TOP - 7)


# In a small stack

def printed(program, stack, words):
    try:
        return in_stack(program, stack, words)
    except subprocess.TimeoutExpired:
        return b"no end after %d seconds" % reference_run.SECONDS


def check_composer(tally, told, program, wide):
    stack = test_limits.least_stack(program) + STACK
    for name, call, (answer, line) in wide:
        got = printed(program, stack, reference_run.words(*call))
        tally.check(got == answer.encode() + b"\n" + line + b".\n",
                    "%s: %s: %s is due, but it says %s" % (told, name, answer, got[:40]))
    print("%s: %d calls in a stack of %d KiB" % (told, len(wide), stack))


def check_far(tally, told, program):
    stack, without = test_limits.least_stack(program) + STACK, 0
    for name, words, due in far_calls():
        got = printed(program, stack, words)
        if got == b"no memory\n.\n":
            without += 1
        else:
            tally.check(got == due + b".\n", "%s: %s: %s is due, but it says %s"
                        % (told, name, due[:40], got[:40]))
    if without:
        print("%s: %d calls are not tried, no memory for their samples" % (told, without))


def main():
    tally, rng = reference_run.Tally(), random.Random(1)
    works, beside = list(wide_works(rng)), Wide(rng, 1, range(1, 16), 2)
    for name, unseen in UNSEEN.items():
        wide = [*wide_calls(works, beside, unseen), *(largest_calls(rng) if unseen is None else ())]
        both = calls.Both(tally, calls.ALL[name])
        check_composer(tally, "the reference's " + name, both.reference, wide)
        if both.library is not None:
            check_composer(tally, "the library's " + name, both.library, wide)
    check_far(tally, "the reference", reference_run.build(
        "reference_line_far", parts=reference_run.CALLS + reference_run.FAR_DRIVER))
    far = reference_run.build_library_driver(tally, "line_far", reference_run.FAR_DRIVER)
    if far is not None:
        check_far(tally, "the library", far)
    return tally.end()


if __name__ == "__main__":
    sys.exit(main())
