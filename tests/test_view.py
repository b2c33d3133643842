"""The viewer's pictures, pixel for pixel, beside tests/view_reference.py.

Random pages of all types, coders, resolutions and places, with pencil sheets and unread layers, half
of them with a plain colour for unseen, and half with no memory for most bands; stored layers of outside coders; colours. SEED repeats a run,
PAGES sets how many pages it has.
"""

import concurrent.futures
import os
import random
import re
import struct
import subprocess
import sys
import zlib

import page_making
import reference_run
import test_outside
import view_making
import view_reference
from view_making import BLACK, END, WHITE, Coders, Page, Shown, three

PAGES = int(os.environ.get("PAGES") or reference_run.trials(100))
RARE = 0.01            # of the colours may differ by a step, where rounding is near a half
GREEN_CODES = [(226, 0, 215), (228, 0, 253), (235, 0, 217)]   # no codes give pure magenta


class Results:
    """What a process of this test found; sent to the first one."""

    def __init__(self):
        self.checks, self.pixels, self.unseen, self.colours, self.steps = [], 0, 0, set(), set()

    def check(self, holds, told):
        self.checks.append((bool(holds), told))

    def note(self, lines, difference):
        self.pixels += difference.pixels
        self.unseen += difference.unseen
        self.colours.update(colour for line in lines for colour in line if colour is not None)
        self.steps |= difference.steps


def due_lines(page, stripe=None):
    lines = []
    for number, (layers, height) in enumerate(zip(page.stripes, page.heights)):
        if stripe in (None, number):
            lines += view_reference.stripe_picture(layers, page.main, page.width, height)
    return lines


def words_for(coders, page, stripe=None, unseen=view_reference.Squares()):
    """Files for a page, and the words that show it."""
    names = [coders.path(name) for name in ("a.page", "a.png", "pencil.sheet", "a.pencil")]
    view_making.write(names[0], page.octets())
    words = [names[0], "-o", names[1]]
    if page.has_pencil():
        for name, octets in zip(names[2:], page.sheet_and_pencil()):
            view_making.write(name, octets)
        view_making.write_side(names[0], *names[2:])
        words += ["--pencil", *names[2:]]
    unread = ["%d:%d" % (s, layer.number) for s, layer in page.coded() if layer.unread]
    if unread:
        words += ["--unread", *unread]
    if isinstance(unseen, view_reference.Plain):
        words += ["--unseen", unseen.asked]
    return words + (["--stripe", str(stripe)] if stripe is not None else []), names[1]


def check_told(results, name, page, shown, stripe):
    """The line of each layer."""
    for number, layers in enumerate(page.stripes):
        for layer in layers if stripe in (None, number) else []:
            due = r"^\S+/a\.(page|pencil): stripe %d, layer %d: " % (number, layer.number)
            if not layer.is_coded():
                due += "not coded, (colour %d %d %d|[01]) all over$" % layer.base
            else:
                due += "%s, %d by %d at %d to the inch%s: %s" % (
                    view_making.MASK_CODERS[layer.coder] if layer.is_mask() else "JPEG",
                    layer.width, layer.height, layer.resolution, ", grey" if layer.grey else "",
                    "UNREAD: asked for by --unread; " if layer.unread else "read$")
            found = re.findall(due, shown.told, re.M)
            place = "pencil" if layer.number > 3 else "page"
            results.check(len(found) == 1 and place in re.search(due, shown.told, re.M)[0],
                          "%s: no line '%s' in\n%s" % (name, due, shown.told))


def check_page(results, coders, page, name, stripe=None, unseen=view_reference.Squares(), least=False):
    """A page is shown as the reference has it, and what is told of it is true; with the least memory
    that all its layers are read in, if that is asked for."""
    words, out = words_for(coders, page, stripe, unseen)
    words += ["--memory", str(page.least_memory())] if least else []
    if os.path.exists(out):
        os.remove(out)
    shown, lines = Shown(words, out), due_lines(page, stripe)
    results.check(shown.out is not None and not shown.wrong,
                  "%s: status %s, %s" % (name, shown.status, shown.wrong))
    if shown.out is None:
        return
    try:
        picture = view_reference.Png(shown.out)
    except (ValueError, struct.error, zlib.error) as wrong:
        results.check(False, "%s: %s" % (name, wrong))
        return
    sizes = (picture.width, picture.height)
    results.check(sizes == (page.width, len(lines)), "%s: a picture of %d by %d" % (name, *sizes))
    if sizes == (page.width, len(lines)):
        difference = view_reference.compared(lines, picture, unseen)
        results.note(lines, difference)
        results.check(difference.wrong == 0, "%s: %d pixels are wrong, the first %s"
                      % (name, difference.wrong, difference.first))
        check_counts(results, name, picture, shown, difference)
    dots = round(page.main / 0.0254)
    results.check(picture.dots == (dots, dots, 1), "%s: pHYs is %s" % (name, picture.dots))
    results.check(b"sRGB" in picture.names, "%s: not told to be sRGB" % name)
    pencil = "pencil: %s, %s" % tuple(words[4:6]) if page.has_pencil() else "no pencil given"
    results.check(shown.told.endswith("; %s\n" % pencil), "%s: told last: %s" % (
        name, shown.told.splitlines()[-1:]))
    check_told(results, name, page, shown, stripe)


def check_counts(results, name, picture, shown, difference):
    """Four ways to count the unseen, what they are told to be drawn as, and the status."""
    counts = (difference.unseen, difference.shown_unseen, (shown.unseen() or (-1,))[0],
              int(picture.texts.get("Unseen pixels", -1)))
    results.check(len(set(counts)) == 1, "%s: due, shown, reported and noted unseen pixels are %s"
                  % (name, counts))
    results.check((shown.unseen() or (0, 0))[1] == difference.pixels,
                  "%s: told as %s pixels" % (name, shown.unseen()))
    drawn = difference.drawn
    results.check(shown.drawn() == (drawn.told if difference.unseen else None),
                  "%s: told as drawn as %s, not %s" % (name, shown.drawn(), drawn.told))
    texts = {"Unseen pixels": str(difference.unseen)}
    texts.update({"Unseen colour": drawn.digits} if drawn.digits else {})
    results.check(picture.texts == texts, "%s: the PNG tells %s" % (name, picture.texts))
    due = 3 if difference.unseen else 0
    results.check(shown.status == due, "%s: status %s, not %d" % (name, shown.status, due))


def random_unseen(rng, page):
    """For half of the pages the pattern; else any colour, or one that a seen pixel may have too."""
    if rng.random() < 0.5:
        return view_reference.Squares()
    bases = [view_reference.screen(layer.base, ()) for layers in page.stripes for layer in layers]
    while True:
        asked = rng.choice([*bases, (255,) * 3, (0,) * 3, tuple(rng.randbytes(3)), tuple(rng.randbytes(3))])
        if view_reference.is_certain(asked):
            return view_reference.Plain(asked)


def check_random(seed, count):
    """One process's share of random pages."""
    rng, coders, results = random.Random(seed), Coders(), Results()
    for number in range(count):
        stripes = rng.choice((1, 64)) if number % 40 == 39 else None
        page = view_making.random_page(rng, coders, rng.random() < 0.5, stripes)
        share = rng.choice((0, 0.2, 0.5, 1))
        for _, layer in page.coded():
            layer.unread = rng.random() < share
        stripe = rng.randrange(len(page.stripes)) if rng.random() < 0.2 else None
        check_page(results, coders, page, "random page %d of %d" % (number, seed), stripe,
                   random_unseen(rng, page), rng.random() < 0.5)
    return results


# Colours

def colour_pages(rng, coders):
    """Codes of all kinds, each over a block; and the two colours that are kept for unseen."""
    layers = three(200, GREEN_CODES[0], WHITE)
    blocks = [[tuple(rng.randrange(256) for _ in range(3)) for _ in range(32)] for _ in range(31)]
    blocks.append((GREEN_CODES + [WHITE, BLACK, (255, 255, 255), (0, 0, 0)]) * 4 + [WHITE] * 4)
    rows = [[codes for codes in row for _ in range(8)] for row in blocks for _ in range(8)]
    coders.code(layers[0], 1, rows, x=1)
    yield "random codes", Page(260, 200, 4).add(layers, 256)
    for codes in GREEN_CODES:
        layers = three(200, codes, codes)
        coders.code(layers[1], 4, view_making.random_mask(rng, 50, 20))
        layers[1].unread = True
        yield "green that is seen", Page(50, 200, 4).add(layers, 20)
    for lightness in range(0, 256, 64):   # all greys, which must be grey on the screen too
        layers = three(200)
        row = [(lightness + n // 8, 128, 96) for n in range(512)]
        for words in ((), ("grey",)):
            coders.code(layers[0], 1, [row] * 8, words=words)
            yield "greys %s" % (words,), Page(512, 200, 4).add(layers, 8)


def check_colours(results, coders, rng):
    rounded = [tuple(int(part + 0.5) for part in view_reference.screen_exactly(codes))
               for codes in GREEN_CODES]
    results.check(set(rounded) == {view_reference.GREEN}, "no seen colour is due in pure green")
    results.check(view_reference.screen(WHITE) == (255,) * 3 and
                  view_reference.screen(BLACK) == (0,) * 3, "white and black are not")
    for name, page in colour_pages(rng, coders):
        check_page(results, coders, page, name)


# Outside layers

def decoded(coders, program, layer):
    """The rows of a stored JPEG by libjpeg, grey as lightness with neutral colour; and whether it is
    grey."""
    octets = coders.run([program], layer.octets)
    head, samples = re.match(rb"P(\d) (\d+) (\d+) 255\n", octets), octets
    kind, width, height = map(int, head.groups())
    samples = octets[head.end():]
    if kind == 5:
        pixels = [(value, 128, 96) for value in samples]
    else:
        pixels = [tuple(samples[k:k + 3]) for k in range(0, len(samples), 3)]
    return [pixels[y * width:(y + 1) * width] for y in range(height)], kind == 5


def stored_layer(number, stored, rows, main, grey=False):
    layer = view_reference.Layer(number, (0, 0, 0) if number == 2 else (60, 100, 90), main)
    layer.coder, layer.rows, layer.data = stored.coder, rows, stored.octets
    layer.width, layer.height = len(rows[0]), len(rows)
    layer.resolution, layer.grey = stored.resolution or main, grey
    return layer


def strokes(width, height):
    """The stored masks' formula, of tests/outside/make.py."""
    return [[int((x + 2 * y) % 23 < 3 and (x // 40 + y // 12) % 3 > 0) for x in range(width)]
            for y in range(height)]


def outside_pages(coders, program, layers):
    mask = strokes(208, 60)
    for name, stored in layers.items():
        if name.startswith("mask"):
            three_layers = three(400)
            three_layers[1] = stored_layer(2, stored, mask, 400)
            yield name, Page(208, 400, stored.coder).add(three_layers, 60)
        elif stored.resolution != 12343:
            main = 1200 if stored.resolution in (300, 600) else 400
            rows, grey = decoded(coders, program, stored)
            for number in (1, 3):
                three_layers = three(main)
                three_layers[number - 1] = stored_layer(number, stored, rows, main, grey)
                yield name, Page(300, main, 4).add(three_layers, 150)


def build_decoder(coders):
    program = coders.path("lab_samples")
    source = os.path.join(reference_run.DRIVER, "lab_samples.c")
    subprocess.run(["cc", *reference_run.WARNINGS, "-O2", "-o", program, source, "-ljpeg"],
                   check=True)
    return program


def check_outside(results, coders, program):
    """The stored layers, and some with fill before their markers: decoders pass it by, too."""
    layers = test_outside.stored()
    some = {name: layers[name] for name in ("progressive.jpg", "restart.jpg", "arithmetic.jpg")}
    layers.update(test_outside.with_fill(some, 3))
    count = 0
    for name, page in outside_pages(coders, program, layers):
        check_page(results, coders, page, name)
        count += 1
    results.check(count == 28, "%d pages of outside layers" % count)


def check_exact(results, coders, program, rng):
    """The random pages' JPEG layers decode to just their samples."""
    for words in ((), ("progressive",), ("restart",), ("dense",), ("grey",), ("progressive", "grey")):
        rows = view_making.random_image(rng, 93, 71, [WHITE])
        octets = coders.run([program], coders.jpeg(200, rows, *words))
        parts = 1 if "grey" in words else 3
        samples = b"".join(bytes(part for codes in row for part in codes[:parts]) for row in rows)
        results.check(octets.endswith(b"\n" + samples), "JPEG %s is not exact" % (words,))


# jpgicc: an outside program for Lab JPEG, with a slip in its resolution

def check_jpgicc(results, coders):
    stored = test_outside.stored()["jpgicc.jpg"].octets
    page, out = coders.path("j.page"), coders.path("j.png")
    octets = (page_making.start(main=200, width=96)
              + page_making.stripe(type=1, x1=0, y1=0, height=64, mask=0) + stored + END)
    view_making.write(page, octets)
    place = octets.index(b"G3FAX\0") + 8
    shown = Shown([page, "-o", out], out)
    results.check(shown.status == 1 and shown.out is None and shown.wrong.startswith(
        "%s: refused: BadRes (7) at octet %d" % (page, place)), "jpgicc: %s" % shown.wrong)
    at = octets.index(b"G3FAX\0") + 8
    view_making.write(page, octets[:at] + b"\0\xc8" + octets[at + 2:])
    shown = Shown([page, "-o", out], out)
    results.check(shown.status == 0 and shown.out, "jpgicc, mended: %s" % shown.wrong)
    if not shown.out:
        return
    lab, srgb = coders.path("lab.jpg"), coders.path("srgb.jpg")
    view_making.write(lab, stored)
    # jpgicc codes its answer as JPEG again: at quality 100, so that a few steps are enough
    coders.run(["jpgicc", "-q", "100", lab, srgb])
    other = coders.run(["djpeg", "-ppm", srgb])[-96 * 64 * 3:]
    picture = view_reference.Png(shown.out)
    mine = b"".join(picture.rows)
    apart = [abs(a - b) for a, b in zip(mine, other)]
    results.check(len(mine) == len(other) and sum(apart) / len(apart) < 1.5,
                  "jpgicc: %.2f steps apart by mean" % (sum(apart) / len(apart)))
    # the others are where red is near 0 or clipped, which a profile's table only comes near
    most = sorted(apart)[len(apart) * 95 // 100]
    results.check(most <= 3 and max(apart) <= 30,
                  "jpgicc: 95 of 100 within %d steps, all within %d" % (most, max(apart)))


# The reader of PNGs itself: the viewer need not use all five filters

def filtered(kind, row, above, step):
    octets = bytearray([kind])
    for at, value in enumerate(row):
        before = row[at - step] if at >= step else 0
        corner = above[at - step] if at >= step else 0
        guess = before + above[at] - corner
        told = [(abs(guess - before), 0, before), (abs(guess - above[at]), 1, above[at]),
                (abs(guess - corner), 2, corner)]
        octets.append((value - (0, before, above[at], (before + above[at]) // 2,
                                min(told)[2])[kind]) & 255)
    return octets


def check_reader(results, rng):
    rows = [bytes(rng.randrange(256) for _ in range(30)) for _ in range(20)]
    coded = b"".join(filtered(n % 5, row, rows[n - 1] if n else bytes(30), 3)
                     for n, row in enumerate(rows))

    def chunk(name, body):
        return struct.pack(">I", len(body)) + name + body + struct.pack(
            ">I", zlib.crc32(name + body))
    octets = (b"\x89PNG\r\n\x1a\n" + chunk(b"IHDR", struct.pack(">IIBBBBB", 10, 20, 8, 2, 0, 0, 0))
              + chunk(b"IDAT", zlib.compress(coded)) + chunk(b"IEND", b""))
    results.check(view_reference.Png(octets).rows == rows, "the reader of PNGs is wrong")


def check_others(seed):
    rng, coders, results = random.Random(seed), Coders(), Results()
    program = build_decoder(coders)
    check_reader(results, rng)
    check_exact(results, coders, program, rng)
    check_colours(results, coders, rng)
    check_outside(results, coders, program)
    check_jpgicc(results, coders)
    return results


def main():
    tally = reference_run.Tally()
    seed = view_making.seed_of_run()
    if not view_making.prepare(tally):
        return tally.end()
    shares = 10
    with concurrent.futures.ProcessPoolExecutor(2) as pool:
        found = [pool.submit(check_others, seed)]
        found += [pool.submit(check_random, seed + n, PAGES // shares) for n in range(shares)]
        found = [one.result() for one in found]
    for results in found:
        for holds, told in results.checks:
            tally.check(holds, told)
    colours = set().union(*(results.colours for results in found))
    steps = set().union(*(results.steps for results in found))
    unseen = sum(results.unseen for results in found)
    pixels = sum(results.pixels for results in found)
    print("%d pixels, %d of them unseen; of %d colours %d a step off by rounding"
          % (pixels, unseen, len(colours), len(steps)))
    tally.check(len(steps) <= RARE * len(colours), "%d of %d colours are a step off, such as %s"
                % (len(steps), len(colours), sorted(steps)[:5]))
    tally.check(0.02 * pixels < unseen < 0.9 * pixels, "too few or too many are unseen to tell")
    return tally.end()


if __name__ == "__main__":
    sys.exit(main())
