"""Grey layers in the viewer: the same greys coded as one component and as three show the same
picture, in every mode; samples take a third of the memory; and data or sheets that disagree about
the components are told of and never shown.

Random pages with grey layers are in tests/test_view.py. SEED repeats a run.
"""

import itertools
import os
import random
import sys

import reference_run
import sheet_making
import test_view
import view_making
from view_making import Coders, Page, Shown, random_grey, random_image, random_mask, three, write
from view_reference import Layer

WIDTH, HEIGHT, MAIN = 120, 40, 400
SIDES = {1: (57, 19), 3: (29, 9), 5: (111, 30)}      # of the image layers, at 200, 100 and 400
RESOLUTIONS = {1: 200, 3: 100, 5: 400}
OTHER = "UNREAD: its data has another number of components; where a pixel hangs on it, unseen is shown"
GREY_AT = 17
COUNT_AT = 9         # of the frame's components, from its marker on


def grey_rows(rng):
    return {number: random_image(rng, *sides, [(90, 0, 0), (255, 0, 0)], random_grey)
            for number, sides in SIDES.items()}


def page_of(coders, masks, rows, grey):
    """A stripe of five layers; those of the image layers that `grey` names have one component."""
    layers = three(MAIN, (200, 60, 90), (10, 128, 96))
    layers += [Layer(4, (0, 0, 0), MAIN), Layer(5, (90, 128, 96), MAIN)]
    for number, mask in masks.items():
        coders.code(layers[number - 1], 4, mask)
    for number, image in rows.items():
        layer = layers[number - 1]
        layer.resolution = RESOLUTIONS[number]
        coders.code(layer, 1, image, x=3 * number, y=number, words=("grey",) if number in grey else ())
    return Page(WIDTH, MAIN, 4).add(layers, HEIGHT)


def mixed_masks(rng):
    """Masks of layers 2 and 4, so that each layer shows somewhere: a fifth of each at least is 1, and
    a fifth 0."""
    masks = {}
    while len(masks) < 2:
        mask = random_mask(rng, WIDTH, HEIGHT)
        if 0.2 <= sum(map(sum, mask)) / (WIDTH * HEIGHT) <= 0.8:
            masks[2 * len(masks) + 2] = mask
    return masks


def some_page(coders, rng, grey):
    return page_of(coders, mixed_masks(rng), grey_rows(rng), grey)


def show(words, out):
    if os.path.exists(out):
        os.remove(out)
    return Shown(words, out)


# The same greys both ways

def check_pair(tally, coders, rng):
    """Grey layers beside the coloured ones of the same greys: all choices of layers that are unread,
    and the ways of drawing them."""
    masks, rows = mixed_masks(rng), grey_rows(rng)
    pages = [page_of(coders, masks, rows, grey) for grey in ((), (1, 3, 5))]
    files = []
    for k, page in enumerate(pages):
        os.makedirs(coders.path("way%d" % k), exist_ok=True)
        names = [coders.path("way%d/%s" % (k, name)) for name in ("a.page", "a.sheet", "a.pencil")]
        for name, octets in zip(names, (page.octets(), *page.sheet_and_pencil())):
            write(name, octets)
        view_making.write_side(*names)
        files.append((names[0], coders.path("way%d/a.png" % k)))
    pictures, seen = set(), 0
    for count, unread in enumerate(itertools.chain.from_iterable(
            itertools.combinations(range(1, 6), size) for size in range(6))):
        words = ["--unread", *("0:%d" % each for each in unread)] if unread else []
        words += (["--unseen", "7F7F7F"], [], ["--no-pencil"] if max(unread, default=0) < 4 else [])[count % 3]
        plain, grey = (show([page, "-o", out, *words], out) for page, out in files)
        tally.check(grey.out is not None and grey.out == plain.out, "unread %s: %s%s" % (
            unread, grey.wrong, "another picture" if grey.out else ""))
        due = plain.told.replace("way0", "way1")
        for number in SIDES:
            due = due.replace("JPEG, %d by %d at %d to the inch" % (*SIDES[number], RESOLUTIONS[number]),
                              "JPEG, %d by %d at %d to the inch, grey" % (*SIDES[number], RESOLUTIONS[number]))
        tally.check((grey.status, grey.told) == (plain.status, due), "unread %s: it tells\n%s\nnot\n%s"
                    % (unread, grey.told, due))
        pictures.add(grey.out)
        seen += grey.status == 0
    tally.check(len(pictures) > 15 and seen >= 1, "%d pictures, %d of them whole" % (len(pictures), seen))
    listed = show([files[1][0], "--list"], files[1][1]).told
    tally.check(listed.count(" to the inch, grey, ") == 3 and "to the inch, grey, 3 right and 1 down" in listed,
                "listed as %s" % listed)


# Memory

def check_memory(tally, coders, rng):
    """A grey layer needs an octet a sample: with one octet less it is unread, and coloured ones need
    three times as many."""
    for grey, octets in (((1,), 1), ((), 3)):
        layers = three(MAIN)
        coders.code(layers[0], 1, random_image(rng, 512, 300, [(90, 0, 0)], random_grey),
                    words=("grey",) if grey else ())
        page = coders.path("large.page")
        write(page, Page(512, MAIN, 4).add(layers, 300).octets())
        need = 512 * 300 * octets                    # a whole number of K, which --memory counts by
        for memory, is_read in ((need // 1024, True), (need // 1024 - 1, False)):
            shown = Shown([page, "--memory", "%dK" % memory])
            tally.check(shown.is_read(0, 1) is is_read and (is_read or "UNREAD: its %d octets of samples" % need
                        in shown.told), "%d octets a sample in %dK: %s" % (octets, memory, shown.told))


# Disagreement

def shown_without_5(coders, rng, grey):
    """A page on which layer 5 shows somewhere, with it and as if it could not be read."""
    while True:
        words, out = test_view.words_for(coders, some_page(coders, rng, grey))
        good = show(words, out)
        due = show([*words, "--unread", "0:5"], out)
        if due.out != good.out:
            return words, out, good, due


def check_pencil_data(tally, coders, rng):
    """Octet 17 of a pencil layer against its data, both ways: unread, as if it was asked for."""
    for grey in ((5,), ()):
        words, out, good, due = shown_without_5(coders, rng, grey)
        sheet, pencil = words[words.index("--pencil") + 1:][:2]
        octets = bytearray(view_making.read(sheet))
        tally.check(octets[4 * 28 + GREY_AT] == int(bool(grey)) and good.is_read(0, 5), "no good sheet: %s" % good.told)
        octets[4 * 28 + GREY_AT] ^= 1
        write(sheet, octets)
        view_making.write_side(words[0], sheet, pencil)
        shown = show(words, out)
        tally.check(shown.out == due.out != good.out and shown.status == 3 and OTHER in shown.told
                    and shown.is_read(0, 5) is False, "octet 17 is not %s: %s %s" % (grey, shown.told, shown.wrong))


def check_pencil_sheet(tally, coders, rng):
    """Octet 17 of layers 1 to 3 is the page's own; a sheet of before has 0 over one component. One that
    differs besides is another page's."""
    before = "octet 17 must be 1, since the page's layer is grey; sheets made before version 2.0.0 have 0"
    other = "layers 1 to 3 are not the page's own"
    for number, grey, width, why in ((1, (1,), None, before), (3, (3,), None, before), (3, (1,), None, other),
                                     (1, (1,), 56, other), (3, (3,), 28, other)):
        words, _ = test_view.words_for(coders, some_page(coders, rng, grey))
        sheet, pencil = words[words.index("--pencil") + 1:][:2]
        octets = bytearray(view_making.read(sheet))
        octets[28 * (number - 1) + GREY_AT] ^= 1
        if width is not None:
            sheet_making.put(octets, number - 1, "width", width)
        write(sheet, octets)
        view_making.write_side(words[0], sheet, pencil)
        shown = Shown(words)
        due = "%s: refused at record %d: %s\n" % (sheet, number - 1, why)
        tally.check((shown.status, shown.told, shown.wrong) == (1, "", due), "layer %d of a sheet, grey %s: %s%s"
                    % (number, grey, shown.told, shown.wrong))


def check_counts(tally, coders, rng):
    """A page of components other than one and three is refused at the octet that counts them."""
    octets = some_page(coders, rng, (1,)).octets()
    path = coders.path("counts.page")
    # a frame's marker with its length and precision: the mask's coded data may hold FF C0 by chance
    one, three = (b"\xff\xc0" + bytes([0, 8 + 3 * count, 8]) for count in (1, 3))
    for mark in (octets.index(one), octets.index(three)):
        at = mark + COUNT_AT
        tally.check(octets[at] in (1, 3), "no frame at %d" % mark)
        for count in (0, 2, 4, 255):
            write(path, octets[:at] + bytes([count]) + octets[at + 1:])
            due = ("%s: refused: BadLayer (11) at octet %d: the JPEG data of an image layer is not well formed\n"
                   % (path, at))
            shown = Shown([path])
            tally.check((shown.status, shown.wrong) == (1, due), "%d components: %s" % (count, shown.wrong))


def main():
    tally = reference_run.Tally()
    rng = random.Random(view_making.seed_of_run())
    if view_making.prepare(tally):
        coders = Coders()
        check_pair(tally, coders, rng)
        check_memory(tally, coders, rng)
        check_pencil_data(tally, coders, rng)
        check_pencil_sheet(tally, coders, rng)
        check_counts(tally, coders, rng)
    return tally.end()


if __name__ == "__main__":
    sys.exit(main())
