"""The viewer's profile on an A4 page at 300 to the inch, its composing beside the C that paints bands,
and a grey page beside the same page in colour.

A page of text on paper with coloured words and two passes of pencil is made by spirerook-make. The
viewer is built twice, over the library and over bench/band.c and bench/line.c in the place of
spirerook_band and spirerook_line_unseen; both show the page in turns, all of it as bands, their
pictures must be the same, and medians are told. Then text on a grey scan at the page's resolution, made
with a grey layer and with a coloured one, is shown in turns.
"""

import os
import random
import re
import statistics
import subprocess
import sys

ROOT = os.path.dirname(os.path.dirname(os.path.abspath(__file__)))
FOLDER = os.path.join(ROOT, "build", "bench_view")
WIDTH, STRIPES, HEIGHT = 2480, 4, 877
ROUNDS, LIMIT, ELSE_LIMIT = 15, 1.3, 0.1
GREY_ROUNDS, GREY_LIMIT = 9, 1.1       # of the time; memory must be less
PARTS = ("decoding", "composing", "colour", "PNG", "all else")


def run(words, octets=None, due=(0,)):
    done = subprocess.run(words, input=octets, cwd=ROOT, check=False, stdout=subprocess.PIPE, stderr=subprocess.PIPE)
    if done.returncode not in due:
        sys.exit("bench: %s ends with %d: %s" % (" ".join(words), done.returncode, done.stderr.decode("utf-8", "replace")[-400:]))
    return done.stdout


def keep(name, octets):
    with open(os.path.join(FOLDER, name), "wb") as file:
        file.write(octets)
    return name


def text(stripe):
    """A stripe of words, five times the size of a small font, as a PBM of just its size."""
    with open(os.path.join(ROOT, "README.md"), encoding="utf-8") as file:
        words = re.sub(r"[^ -~]", " ", file.read()).split()
    lines, line = [], ""
    for word in words[stripe * 150:] * 2:
        if len(line) + len(word) > 60:
            lines.append(line)
            line = ""
        line += word[:40] + " "
    small = run(["pbmtext", "-builtin", "fixed", "-nomargins"], "\n".join(lines[:13]).encode())
    large = run(["pbmpscale", "5"], small)
    # white on all sides first: what pamcut adds is black, and what it is told left of 0 counts from the right
    padded = run(["pnmpad", "-white", "-left=120", "-top=10", "-right=%d" % WIDTH, "-bottom=%d" % HEIGHT], large)
    cut = run(["pamcut", "-left=0", "-top=0", "-width=%d" % WIDTH, "-height=%d" % HEIGHT], padded)
    return run(["pamtopnm"], cut) if cut[:2] == b"P7" else cut


def paper(width, height, colour, rough):
    """Samples about a colour, as a scan has them."""
    any_of = random.Random(width * height)
    body = bytearray()
    for _ in range(width * height):
        step = any_of.randrange(-rough, rough + 1)
        body += bytes(min(255, max(0, each + step)) for each in colour)
    return b"P6 %d %d 255\n" % (width, height) + body


def strokes(width, height):
    """A pass of pencil: slanted strokes, as a PBM."""
    rows = bytearray()
    for y in range(height):
        bits = "".join("1" if (x + 2 * y) % 61 < 7 and (x // 150 + y // 40) % 3 else "0" for x in range(width))
        rows += int(bits, 2).to_bytes(width // 8, "big")
    return b"P4 %d %d\n" % (width, height) + rows


def make_page():
    os.makedirs(FOLDER, exist_ok=True)
    small = ((WIDTH + 2) // 3, (HEIGHT + 2) // 3)
    keep("paper.ppm", paper(*small, (240, 230, 210), 6))
    keep("ink.ppm", paper(*small, (60, 30, 30), 20))
    keep("pencil.ppm", paper(400, 120, (70, 70, 75), 15))
    keep("strokes.pbm", strokes(1200, 360))
    plan = "resolution 300\ncoder mmr\n"
    for stripe in range(STRIPES):
        keep("text%d.pbm" % stripe, text(stripe))
        plan += "stripe\nbackground paper.ppm resolution 100\nmask text%d.pbm\nforeground ink.ppm resolution 100\n" % stripe
        for coder in ("mh", "t85")[:stripe]:
            plan += "pencil-mask strokes.pbm coder %s at 600 200\npencil-image pencil.ppm resolution 100 at 600 200\n" % coder
    keep("page.plan", plan.encode())
    page, sheet, pencil = (os.path.join(FOLDER, "page." + kind) for kind in ("page", "sheet", "pencil"))
    run(["build/spirerook-make", os.path.join(FOLDER, "page.plan"), "-o", page, "--pencil", sheet, pencil])
    return [page, "--pencil", sheet, pencil]


def grey_scan():
    """Samples about a light grey, one for each pixel of the page, as a PGM."""
    shades = bytes(200 + value % 32 for value in range(256))
    size = (WIDTH, STRIPES * HEIGHT)
    return b"P5 %d %d 255\n" % size + random.Random(HEIGHT).randbytes(size[0] * size[1]).translate(shades)


def make_scan(kind):
    """The text on a scan, a page of one stripe; the scan's layer is of this kind: grey or coloured."""
    keep("scan.pgm", grey_scan())
    keep("text.pbm", run(["pnmcat", "-tb", *(os.path.join(FOLDER, "text%d.pbm" % stripe) for stripe in range(STRIPES))]))
    keep(kind + ".plan", b"resolution 300\nstripe\nbackground scan.pgm %s\nmask text.pbm\n" % kind.encode())
    page = os.path.join(FOLDER, kind + ".page")
    run(["build/spirerook-make", os.path.join(FOLDER, kind + ".plan"), "-o", page])
    return page


def shown(page, out):
    """Seconds of all and of decoding and composing, and the most memory that a process of it had, in KiB."""
    program = "import os, resource, subprocess, sys; subprocess.run(sys.argv[1:], check=True); " \
              "print(resource.getrusage(resource.RUSAGE_CHILDREN).ru_maxrss)"
    told = run([sys.executable, "-c", program, "build/spirerook-view", page, "--times", "-o", out]).decode()
    found = re.search(r"^([\d.]+) s: decoding ([\d.]+), composing ([\d.]+), .*$", told, re.M)
    return [*(float(each) for each in found.groups()), int(told.split()[-1])]


def tell_grey():
    """A grey page beside the same in colour."""
    pages = {kind: make_scan(kind) for kind in ("grey", "coloured")}
    outs = {kind: os.path.join(FOLDER, kind + ".png") for kind in pages}
    found = {kind: [] for kind in pages}
    for _ in range(GREY_ROUNDS):
        for kind, page in pages.items():
            found[kind].append(shown(page, outs[kind]))
    pictures = [open(out, "rb").read() for out in outs.values()]
    if pictures[0] != pictures[1]:
        sys.exit("bench: the grey page and the coloured one show different pictures")
    medians = {kind: [statistics.median(column) for column in zip(*rows)] for kind, rows in found.items()}
    whole, decoding, composing, memory = (a / b for a, b in zip(medians["grey"], medians["coloured"]))
    octets = os.path.getsize(pages["grey"]) / os.path.getsize(pages["coloured"])
    print("a grey page of %d by %d samples beside the same in colour, medians of %d runs: time %.2f, decoding %.2f, composing %.2f, "
          "memory %.2f, octets of the page %.2f" % (WIDTH, STRIPES * HEIGHT, GREY_ROUNDS, whole, decoding, composing, memory, octets))
    return whole <= GREY_LIMIT and memory < 1


def build_in_c():
    """The viewer with C where it has the library compose."""
    objects = ["build/host/%s.o" % name for name in run(["make", "-s", "view-objects"]).decode().split() if name != "view/compose"]
    strict = ["cc", "-std=c11", "-D_GNU_SOURCE", "-Wall", "-Wextra", "-Iinclude", "-Ihost"]
    run([*strict, "-O2", "-Dspirerook_line_unseen=c_line", "-Dspirerook_band=c_band", "-c", "-o", "build/bench_view/compose.o", "host/view/compose.c"])
    for call in (b"c_line", b"c_band"):
        if b" U %s\n" % call not in run(["nm", "build/bench_view/compose.o"]):
            sys.exit("bench: the viewer composes by other calls than spirerook_line_unseen and spirerook_band")
    inside = ("line", "band", "coat", "spread", "judge")
    for name in inside:
        run([*strict, "-O3", "-falign-functions=64", "-c", "-o", "build/bench_view/%s.o" % name, "bench/%s.c" % name])
    own = ["build/bench_view/%s.o" % name for name in ("compose", *inside)]
    run(["cc", "-o", "build/bench_view/view_c", *own, *objects, "build/libspirerook.a", "-ltiff", "-ljbig", "-ljpeg", "-lnettle", "-lz", "-lm"])
    return "build/bench_view/view_c"


def times(program, page, out):
    told = run([program, *page, "--times", "-o", out]).decode()
    if "composed as bands: %d of %d stripes" % (STRIPES, STRIPES) not in told:
        sys.exit("bench: not all stripes were composed as bands: %s" % told)
    line = re.search(r"^([\d.]+) s: decoding ([\d.]+), composing ([\d.]+), colour ([\d.]+), PNG ([\d.]+), all else ([\d.]+)$", told, re.M)
    return [float(each) for each in line.groups()]


def main():
    run(["bash", "tests/need", "pbmtext:netpbm"])
    run(["make", "build/spirerook-view", "build/spirerook-make"])
    page = make_page()
    programs = {"library": "build/spirerook-view", "C": build_in_c()}
    outs = {name: os.path.join(FOLDER, name + ".png") for name in programs}
    found = {name: [] for name in programs}
    for _ in range(ROUNDS):
        for name, program in programs.items():
            found[name].append(times(program, page, outs[name]))
    pictures = [open(out, "rb").read() for out in outs.values()]
    if pictures[0] != pictures[1]:
        sys.exit("bench: the two composers show different pictures")
    medians = {name: [statistics.median(column) for column in zip(*rows)] for name, rows in found.items()}
    whole, *parts = medians["library"]
    print("the viewer on an A4 page at 300 to the inch, %d by %d pixels, medians of %d runs: shares of the whole" % (WIDTH, STRIPES * HEIGHT, ROUNDS))
    for part, seconds in zip(PARTS, parts):
        print("%-12s %5.2f" % (part, seconds / whole))
    ratio = medians["library"][2] / medians["C"][2]
    print("composing through the library beside the C that paints bands: %.2f, limit %.1f" % (ratio, LIMIT))
    good = ratio <= LIMIT and parts[-1] / whole <= ELSE_LIMIT
    good = tell_grey() and good
    print("within the limits" if good else "OVER A LIMIT")
    sys.exit(not good)


if __name__ == "__main__":
    main()
