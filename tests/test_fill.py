"""Fill before JPEG markers, put there by tests/jpeg_fill.py into what real coders wrote.

Outside decoders must take each layer with fill for the same picture, and the viewer each page: the
same PNG and the same lines, whole and with layers unread, a listing that differs in starts and
lengths alone. Where T.81 or the paper has no fill, the page is refused. SEED repeats a run.
"""

import os
import random
import re
import resource
import subprocess
import sys

import jpeg_fill
import make_kit
import reference_run
import test_outside
import test_view
import view_making
from jpeg_fill import RESTARTS, padded
from view_making import Coders, Shown

PROGRAM = [sys.executable, jpeg_fill.__file__]
RANDOM_PAGES = reference_run.trials(6)
COUNTS = ([1], [2], [1, 2, 7], [0, 3], [300])
LISTED = re.compile(r"(stripe \d+, layer \d+: (\S+), .* down), (\d+) octets from octet (\d+)$",
                    re.M)
PLAN = """resolution 400
coder mmr
width 208
stripe
background i.ppm resolution 200 at 3 5
mask m.pbm
foreground i.ppm resolution 100 progressive half
stripe
background i.ppm resolution 200 progressive quality 100
height 30
"""


# The program that puts fill, against octets written by hand

PLAIN = ("FFD8 FFE1 0006FFD9FFD8 FF01 FFDA 0004FFD0 12FF00 FFD3 FF00FF00 FFFFD4 34 FFDA 0002 FFD9")
TURNS = ("FFD8 FF FFE1 0006FFD9FFD8 FFFF FF01 FFFFFF FFDA 0004FFD0 12FF00 FF FFD3 FF00FF00 "
         "FFFF FFFFD4 34 FFFFFF FFDA 0002 FF FFD9")
NO_LAYERS = (
    ("", "the layer does not begin with FF D8"),
    ("FFFFD8FFD9", "the layer does not begin with FF D8"),
    ("FFD8", "the layer ends where a marker is due, at octet 2"),
    ("FFD8FFFF", "the layer ends where a marker is due, at octet 2"),
    ("FFD812FFD9", "no marker at octet 2"),
    ("FFD8FFFF00FFD9", "no marker of a layer at octet 2"),
    ("FFD8FFD8FFD9", "no marker of a layer at octet 2"),
    ("FFD8FFD3FFD9", "no marker of a layer at octet 2"),
    ("FFD8FFE1", "the segment does not end, its length is at octet 4"),
    ("FFD8FFE10005FFD9", "the segment does not end, its length is at octet 4"),
    ("FFD8FFE10001FFD9", "a length below 2 at octet 4"),
    ("FFD8FFDA00021234", "scan data with no marker behind it, from octet 6"),
    ("FFD8FFDA000212FFFF00FFD9", "fill before 00 at octet 7"),
    ("FFD8FFD900", "octets behind the layer's end, from octet 4"),
)


def fill(folder, counts, octets, **settings):
    """(status, standard error, the file that was written) of a run of the program; the file was
    there before."""
    for name, each in (("in.jpg", octets), ("out.jpg", b"kept")):
        view_making.write(os.path.join(folder, name), each)
    done = subprocess.run([*PROGRAM, counts, "in.jpg", "out.jpg"], cwd=folder, check=False,
                          stdout=subprocess.PIPE, stderr=subprocess.PIPE, **settings)
    return done.returncode, done.stderr.decode(), view_making.read(os.path.join(folder, "out.jpg"))


def check_program(tally, folder):
    plain, turns = bytes.fromhex(PLAIN), bytes.fromhex(TURNS)
    os.makedirs(folder)
    tally.check(fill(folder, "1,2,3", plain) == (0, "", turns), "1,2,3: other octets")
    tally.check(fill(folder, "0", turns) == (0, "", turns), "0: other octets")
    for octets, due in NO_LAYERS:
        found = fill(folder, "2", bytes.fromhex(octets))
        tally.check(found == (1, "jpeg_fill.py: in.jpg: %s\n" % due, b"kept"),
                    "%s: %s" % (octets, found))
    for counts in ("", "x", "-1", "1,,2", "1,", "1.5", "100000000"):
        status, wrong, out = fill(folder, counts, plain)
        tally.check((status, out) == (2, b"kept") and wrong.startswith("jpeg_fill.py COUNTS IN OUT")
                    and wrong.count("\n") == 1, "counts '%s': %s" % (counts, wrong))
    status, wrong, out = fill(folder, "16777215", plain)
    tally.check((status, out) == (1, b"kept") and "a page has at most 16777215" in wrong,
                "more than a page has: %s" % wrong)
    found = fill(folder, "100000", plain,
                 preexec_fn=view_making.bounded(resource.RLIMIT_FSIZE, 4096))
    tally.check(found == (1, "jpeg_fill.py: out.jpg: File too large\n", b"kept"),
                "a file that cannot be written: %s" % (found,))
    tally.check(sorted(os.listdir(folder)) == ["in.jpg", "out.jpg"], "files are left over")


def check_files(tally, folder):
    """Files that are not there, or are none."""
    view_making.write(os.path.join(folder, "in.jpg"), bytes.fromhex(PLAIN))
    for given, out, due in (("none", "out.jpg", "none: No such file or directory"),
                            (".", "out.jpg", ".: Is a directory"),
                            ("/dev/zero", "out.jpg",
                             "/dev/zero: more than the 16777215 octets that a page can have"),
                            ("in.jpg", ".", ".: this is no plain file"),
                            ("in.jpg", "/dev/null", "/dev/null: this is no plain file"),
                            ("in.jpg", "none/out.jpg", "none/out.jpg: No such file or directory")):
        done = subprocess.run([*PROGRAM, "1", given, out], cwd=folder, check=False,
                              stdout=subprocess.PIPE, stderr=subprocess.PIPE)
        found = (done.returncode, done.stderr.decode())
        tally.check(found == (1, "jpeg_fill.py: %s\n" % due), "%s to %s: %s" % (given, out, found))


# Layers, by outside decoders

def coded_layers(coders, rng):
    """(name, layer): what other people's coders wrote, of all the kinds that they write."""
    stored = test_outside.stored()
    yield from ((name, stored[name].octets) for name in stored if name.endswith(".jpg"))
    rows = [[tuple(rng.randbytes(3)) for _ in range(45)] for _ in range(37)]
    for words in ((), ("progressive",), ("restart",), ("dense", "half"), ("progressive", "dense")):
        yield "lab_jpeg %s" % (words,), coders.jpeg(200, rows, *words, quality=90)
    for words in (("-restart", "1B"), ("-progressive", "-restart", "2B"),
                  ("-arithmetic", "-restart", "1B")):
        yield "jpegtran %s" % (words,), coders.run(["jpegtran", "-copy", "all", *words],
                                                   stored["half.jpg"].octets)


def decoded(words, octets):
    """(status, what it wrote, what it said) of an outside program."""
    done = subprocess.run(words, input=octets, stdout=subprocess.PIPE, stderr=subprocess.PIPE,
                          check=False)
    return done.returncode, done.stdout, done.stderr


def check_layers(tally, coders, rng):
    """libjpeg takes each run, before restart markers too, without a warning and for the same
    samples; what it writes again has no fill."""
    restarts = 0
    for name, layer in coded_layers(coders, rng):
        codes = [code for _, code in jpeg_fill.markers(layer)]
        restarts += sum(code in RESTARTS for code in codes)
        for counts in (*COUNTS, [rng.randrange(20) for _ in codes]):
            filled = padded(layer, counts)
            runs = sum(counts[k % len(counts)] for k in range(len(codes)))
            tally.check(len(filled) == len(layer) + runs
                        and [code for _, code in jpeg_fill.markers(filled)] == codes,
                        "%s, fill %s: other markers" % (name, counts))
            for words in (["djpeg", "-ppm"], ["jpegtran", "-copy", "all"]):
                plain, same = decoded(words, layer), decoded(words, filled)
                tally.check(plain == same and plain[0] == 0 and plain[1] and not plain[2],
                            "%s, fill %s: %s gives status %d, %s" % (name, counts, words[0],
                                                                     same[0], same[2]))
    tally.check(restarts > 300, "only %d restart markers" % restarts)


# Pages, by the viewer

class Folder:
    """Where a page and its picture stand."""

    def __init__(self, path):
        os.makedirs(path)
        self.page, self.out = os.path.join(path, "f.page"), os.path.join(path, "f.png")

    def show(self, octets, *words):
        view_making.write(self.page, octets)
        if os.path.exists(self.out):
            os.remove(self.out)
        drawn = [] if "--list" in words else ["-o", self.out]
        return Shown([self.page, *drawn, *words], self.out)


def filled_page(page, listing, counts):
    """The page with fill in its image layers, whose lengths no field tells; and the listing due."""
    places = sorted((int(found[4]), int(found[3]), found[1], found[2] == "JPEG")
                    for found in LISTED.finditer(listing))
    octets, behind = b"", 0
    for start, length, line, is_image in places:
        octets += page[behind:start]
        behind = start + length
        data = padded(page[start:behind], counts) if is_image else page[start:behind]
        listing = listing.replace("%s, %d octets from octet %d\n" % (line, length, start),
                                  "%s, %d octets from octet %d\n" % (line, len(data), len(octets)))
        octets += data
    return octets + page[behind:], listing


def unread_choices(listing):
    """The words that leave layers unread: none, each image layer, and all of them."""
    images = [found.expand(r"\1:\2") for found in
              re.finditer(r"stripe (\d+), layer (\d+): JPEG", listing)]
    yield ()
    for each in images[:4]:
        yield ("--unread", each)
    if len(images) > 1:
        yield ("--unread", *images)


def check_same(tally, name, plain, filled):
    tally.check(plain.status in (0, 3) and plain.out is not None and not plain.wrong,
                "%s, without fill: status %s, %s" % (name, plain.status, plain.wrong))
    told = (filled.status, filled.told, filled.wrong)
    tally.check(told == (plain.status, plain.told, plain.wrong),
                "%s, with fill: status %s\n%s%s" % (name, *told))
    tally.check(filled.out == plain.out, "%s: with fill another picture" % name)


def check_page(tally, folder, name, page, counts):
    listed = folder.show(page, "--list")
    filled, due = filled_page(page, listed.told, counts)
    tally.check(listed.status == 0 and filled != page, "%s: no fill, %s" % (name, listed.wrong))
    listed = folder.show(filled, "--list")
    tally.check((listed.status, listed.told) == (0, due), "%s: fill %s is listed as\n%s%s"
                % (name, counts, listed.told, listed.wrong))
    for words in unread_choices(due):
        plain, same = folder.show(page, *words), folder.show(filled, *words)
        check_same(tally, "%s, fill %s %s" % (name, counts, " ".join(words)), plain, same)
        if not words:
            tally.check(not re.search(": JPEG, .*: UNREAD", plain.told), "%s: a layer is unread\n%s"
                        % (name, plain.told))


def made_page(tally, path):
    """A page by spirerook-make, with JPEG layers of both kinds."""
    os.makedirs(path)
    make_kit.write(os.path.join(path, "m.pbm"), make_kit.pbm(make_kit.strokes(208, 60)))
    make_kit.write(os.path.join(path, "i.ppm"), make_kit.ppm(90, 50, make_kit.gradient(90, 50)))
    status, _, wrong = make_kit.make(path, PLAN)
    tally.check(status == 0, "spirerook-make: status %d, %s" % (status, wrong))
    return view_making.read(os.path.join(path, "p.page")) if status == 0 else None


def check_pages(tally, coders, rng):
    folder = Folder(coders.path("shown"))
    page = made_page(tally, coders.path("made"))
    for counts in (*COUNTS, [100000]) if page else ():
        check_page(tally, folder, "a page of spirerook-make", page, counts)
    kinds = 0
    for name, (page, _) in test_outside.good_pages(test_outside.stored()):
        if name.startswith(("all layers", "background", "six stripes")):   # these show each layer
            check_page(tally, folder, name, page, rng.choice(COUNTS))
            kinds += 1
    tally.check(kinds >= 14, "only %d pages of outside layers" % kinds)


def check_random(tally, coders, rng):
    """Pages of all kinds, with a pencil too: its file is no page, but its JPEG may have fill."""
    filled = 0
    for number in range(RANDOM_PAGES):
        page = view_making.random_page(rng, coders, pencil=number % 2 == 0)
        for _, layer in page.coded():
            layer.unread = rng.random() < 0.2
        words, out = test_view.words_for(coders, page)
        plain = Shown(words, out)
        for _, layer in page.coded():
            if not layer.is_mask():
                layer.data = padded(layer.data, [rng.randrange(9) for _ in range(50)])
                filled += 1
        words, out = test_view.words_for(coders, page)
        check_same(tally, "random page %d" % number, plain, Shown(words, out))
    tally.check(filled >= RANDOM_PAGES, "only %d layers with fill" % filled)


# What has no fill

def refused_pages():
    """(name, page, number and place): FF octets at a place of a page where they are no fill."""
    layer = test_outside.stored()["restart.jpg"]
    page, _ = test_outside.Page({"restart.jpg": layer}, 400, 4).stripe(back="restart.jpg").end()
    start = page.index(layer.octets)
    end = start + layer.size
    scan = page.index(b"\xff\0", page.index(b"\xff\xda", start) + 2)
    table = page.index(b"\xff\xdb", start)

    def put(at, octets):
        return page[:at] + octets + page[at:]
    yield "fill before a layer's FF D8", put(start, b"\xff"), "BadLayer (11) at octet %d" % start
    yield "FF FF 00 in scan data", put(scan, b"\xff"), "BadLayer (11) at octet %d" % scan
    yield "FF FF 00 before a table", put(table, b"\xff\xff\0"), "BadLayer (11) at octet %d" % table
    yield "FF FF FF D3 before a table", put(table, b"\xff\xff\xff\xd3"), (
        "BadLayer (11) at octet %d" % table)
    yield "fill behind a layer", put(end, b"\xff"), "BadMark (2) at octet %d" % end


def check_refused(tally, coders):
    folder = Folder(coders.path("refused"))
    for name, page, due in refused_pages():
        shown = folder.show(page)
        tally.check(shown.status == 1 and shown.out is None and shown.told == ""
                    and shown.wrong.startswith("%s: refused: %s: " % (folder.page, due))
                    and shown.wrong.count("\n") == 1,
                    "%s: not %s, but status %s, %s" % (name, due, shown.status, shown.wrong))


def main():
    tally = reference_run.Tally()
    rng = random.Random(view_making.seed_of_run())
    if not view_making.prepare(tally):
        return tally.end()
    coders = Coders()
    check_program(tally, coders.path("program"))
    check_files(tally, coders.path("program"))
    check_layers(tally, coders, rng)
    if os.path.exists(make_kit.PROGRAM):
        check_pages(tally, coders, rng)
    else:
        tally.check(False, "no build/spirerook-make: make it first")
    check_random(tally, coders, rng)
    check_refused(tally, coders)
    return tally.end()


if __name__ == "__main__":
    sys.exit(main())
