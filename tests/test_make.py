"""spirerook-make: what it codes is decoded by outside programs, its pages and sheets are read by the
reference, and each mistake has its message and status.

make_kit.py has the pictures and decoders, make_kinds.py the kinds of files, make_notes.py what is
noted, make_mistakes.py the mistakes and the damaged files.
SEED makes a run again.
"""

import hashlib
import os
import random
import resource
import subprocess
import sys
import tempfile

import make_kit
import make_mistakes
import make_notes
import reference_run
from make_kinds import GREY, kinds
from make_kit import CODERS, SHOWN, make, read, write
from page_making import ROOM

WHITE, BLACK = (255, 128, 96), (0, 128, 96)
SIZES = [(1, 1), (7, 3), (33, 130), (208, 60), (1728, 40)]


def listing(reader, page):
    """The reference's records of a page, as rows of numbers."""
    printed = reference_run.read_many(reader, [(page, ROOM)])[0]
    if "refused" in printed or not printed:
        return printed
    return [list(map(int, line.split())) for line in printed.splitlines()]


def layer_sizes(told):
    """(stripe, layer) to the octets that a run lists, behind its notes."""
    sizes = {}
    for line in make_notes.notes_of(told)[1][:-1]:
        head, rest = line.split(": ", 1)
        stripe, layer = (int(part.split()[1]) for part in head.split(", "))
        sizes[stripe, layer] = 0 if rest == "not coded" else int(rest.split(", ")[-1].split()[0])
    return sizes


def due_records(stripes, told):
    """The records due: each stripe is three rows of coder, x, y, width, height, resolution, base and
    whether it is grey; lengths are as told, and starts follow: mask, background, foreground."""
    sizes, at, records = layer_sizes(told), 22, []
    for number, rows in enumerate(stripes):
        at += 39
        starts = {}
        for layer in (2, 1, 3):
            starts[layer] = at if sizes[number, layer] else 0
            at += sizes[number, layer]
        for layer in (1, 2, 3):
            *box, base, grey = rows[layer - 1]
            records.append([number, layer, *box, *base, starts[layer], sizes[number, layer], grey])
    return records, at + 4


def uncoded(main, base):
    return (0, 0, 0, 0, 0, main, base, 0)


def mask_record(coder, width, height, main):
    return (coder, 0, 0, width, height, main, (0, 0, 0), 0)


def check_page(tally, reader, folder, what, plan, stripes, words=()):
    """A plan is made into a page of these records; answers (page, records)."""
    status, told, wrong = make(folder, plan, *words)
    if not (status == 0 and wrong == ""):
        tally.check(False, "%s: status %d, %s" % (what, status, wrong))
        return None, []
    page = read(os.path.join(folder, "p.page"))
    due, size = due_records(stripes, told)
    got = listing(reader, page)
    tally.check(got == due and len(page) == size, "%s: records\n%s\nnot\n%s" % (what, got, due))
    tally.check(told.splitlines()[-1].startswith("written: p.page, %d octets" % size),
                "%s: it tells %s" % (what, told))
    return page, got


def part_of(page, record):
    return page[record[11]:record[11] + record[12]]


def check_masks(tally, reader, folder, rng):
    """Every coder, decoded outside to the same picture."""
    for width, height in SIZES:
        for rows in (make_kit.strokes(width, height), make_kit.dots(width, height, rng)):
            write(os.path.join(folder, "m.pbm"), make_kit.pbm(rows))
            for coder, number in CODERS.items():
                what = "%s of %d by %d" % (coder, width, height)
                page, got = check_page(
                    tally, reader, folder, what,
                    "resolution 200\ncoder %s\nstripe\nmask m.pbm\n" % coder,
                    [[uncoded(200, WHITE), mask_record(number, width, height, 200),
                      uncoded(200, BLACK)]])
                if page is None:
                    continue
                back = make_kit.decoded_mask(folder, coder, part_of(page, got[1]), width, height)
                tally.check(back == make_kit.bits(rows), what + " decodes to another picture")


def check_images(tally, reader, folder):
    """JPEG within a small error; the words that change the coding are seen in it."""
    size = (96, 64)
    write(os.path.join(folder, "i.ppm"), make_kit.ppm(*size, make_kit.gradient(*size)))
    source = read(os.path.join(folder, "i.ppm"))[-3 * size[0] * size[1]:]
    for words, most, mark in (("", 4, b"\xff\xc0"), ("quality 100", 2, b"\xff\xc0"),
                              ("half", 8, b"\xff\xc0"), ("progressive", 4, b"\xff\xc2"),
                              ("quality 30 progressive half", 14, b"\xff\xc2")):
        plan = ("resolution 400\nwidth 500\nstripe\nheight 300\n"
                "foreground i.ppm %s resolution 200 at 31 7 lab 1 2 3\n" % words)
        page, got = check_page(tally, reader, folder, "JPEG " + words, plan, [
            [uncoded(400, WHITE), mask_record(0, 500, 300, 400), (1, 31, 7, *size, 200, (1, 2, 3), 0)]])
        if page is None:
            continue
        jpeg = part_of(page, got[2])
        far = make_kit.error(make_kit.decoded_image(folder, jpeg), source)
        tally.check(far <= most, "JPEG %s: an error of %.2f" % (words, far))
        frame = jpeg.find(mark)
        sampling = jpeg[frame + 11] if frame > 0 else 0
        tally.check(sampling == (0x22 if "half" in words else 0x11),
                    "JPEG %s: the frame has sampling %02x" % (words, sampling))
        tally.check(jpeg[2:16] == b"\xff\xe1\x00\x0cG3FAX\x00\x07\xca\x00\xc8",
                    "JPEG %s begins %s" % (words, jpeg[:20].hex()))


def lab_of(srgb):
    """Codes in T.42's default range, not rounded: sRGB to CIELAB under D50 (Bradford)."""
    light = [v / 255 / 12.92 if v <= 10 else ((v / 255 + 0.055) / 1.055) ** 2.4 for v in srgb]
    rows = ((0.4360747, 0.3850649, 0.1430804, 0.96422), (0.2225045, 0.7168786, 0.0606169, 1.0),
            (0.0139322, 0.0971045, 0.7141733, 0.82521))
    ratios = [sum(a * b for a, b in zip(row, light)) / row[3] for row in rows]
    x, y, z = (t ** (1 / 3) if t > 216 / 24389 else t * 841 / 108 + 4 / 29 for t in ratios)
    exact = ((116 * y - 16) * 2.55, 128 + 500 * (x - y) * 1.5, 96 + 200 * (y - z) * 1.275)
    return [min(max(value, 0), 255) for value in exact]


def block_colours(rng):
    """Colours of 64 blocks, and the blocks as a picture: at quality 100 JPEG keeps them."""
    colours = [(255, 255, 255), (0, 0, 0), (255, 0, 0), (0, 255, 0), (0, 0, 255), (10, 11, 12)]
    colours += [tuple(rng.randbytes(3)) for _ in range(58)]
    return colours, make_kit.ppm(64, 64, lambda x, y: colours[y // 8 * 8 + x // 8])


def check_colours(tally, folder, rng):
    """Blocks of one colour each come back as the nearest codes."""
    colours, picture = block_colours(rng)
    write(os.path.join(folder, "blocks.ppm"), picture)
    status, _, wrong = make(folder, "resolution 200\nwidth 64\nstripe\nheight 64\n"
                            "background blocks.ppm quality 100\n")
    tally.check(status == 0, "blocks of colours: %s" % wrong)
    got = make_kit.codes(folder, read(os.path.join(folder, "p.page"))[61:-4])
    tally.check(len(got) == 64 * 64 * 3, "blocks of colours: %d octets" % len(got))
    for k, colour in enumerate(colours if len(got) == 64 * 64 * 3 else []):
        at = (k // 8 * 8 * 64 + k % 8 * 8) * 3
        due = lab_of(colour)
        tally.check(all(abs(a - b) < 0.501 for a, b in zip(got[at:at + 3], due)),
                    "colour %s: codes %s, not %s" % (colour, list(got[at:at + 3]), due))


def check_grey(tally, reader, folder, rng):
    """Of colours the lightness alone, one component and no other, whatever words stand beside."""
    colours, picture = block_colours(rng)
    write(os.path.join(folder, "blocks.ppm"), picture)
    for words, mark in (("grey", b"\xff\xc0"), ("half grey", b"\xff\xc0"),
                        ("grey progressive", b"\xff\xc2")):
        plan = ("resolution 200\nwidth 64\nstripe\nheight 64\n"
                "background blocks.ppm quality 100 %s base 8B0000\n" % words)
        base = [round(part) for part in lab_of((0x8B, 0, 0))]
        page, got = check_page(tally, reader, folder, words, plan, [
            [(1, 0, 0, 64, 64, 200, base, 1), mask_record(0, 64, 64, 200), uncoded(200, BLACK)]])
        if page is None:
            continue
        jpeg = part_of(page, got[0])
        frame = jpeg.find(mark)
        tally.check(frame > 0 and jpeg[frame + 9:frame + 12] == b"\x01\x01\x11",
                    "%s: the frame is %s" % (words, jpeg[frame:frame + 13].hex()))
        octets = make_kit.codes(folder, jpeg)
        tally.check(len(octets) == 64 * 64, "%s: %d octets" % (words, len(octets)))
        for k, colour in enumerate(colours if len(octets) == 64 * 64 else []):
            lightness = octets[k // 8 * 8 * 64 + k % 8 * 8]
            tally.check(abs(lightness - lab_of(colour)[0]) < 0.501, "%s: colour %s has the lightness %d"
                        % (words, colour, lightness))
        told = make(folder, plan)[1]
        tally.check("stripe 0, layer 1: blocks.ppm, JPEG, 64 by 64 at 200, grey, %d octets" % len(jpeg)
                    in told.splitlines(), "%s: it tells %s" % (words, told))


def check_time(tally, folder, rng):
    """Eight million samples of some 200,000 colours take about a second of a processor."""
    rows = [rng.randbytes(12000) for _ in range(50)]
    write(os.path.join(folder, "big.ppm"), b"P6 4000 2000 255\n" + b"".join(rows) * 40)
    before = resource.getrusage(resource.RUSAGE_CHILDREN)
    status, _, wrong = make(folder, "resolution 400\nwidth 4000\nstripe\nheight 2000\n"
                            "background big.ppm quality 20 half\n")
    after = resource.getrusage(resource.RUSAGE_CHILDREN)
    spent = after.ru_utime + after.ru_stime - before.ru_utime - before.ru_stime
    tally.check(status == 0 and spent < 4, "a big image: status %d, %s, %.1f s" % (
        status, wrong, spent))
    os.remove(os.path.join(folder, "big.ppm"))


def page_of(folder, plan, picture):
    """The page of a plan's picture `pic`, or what is wrong."""
    write(os.path.join(folder, "pic"), picture)
    status, _, wrong = make(folder, plan)
    return read(os.path.join(folder, "p.page")) if status == 0 else wrong


def check_kinds(tally, folder):
    """Each kind of file gives the page of the same picture in P6, and as a mask that of a P4. Kinds
    that hold no colours are grey, and all are what the plan says where it says something."""
    image = "resolution 200\nwidth 30\nstripe\nheight 20\nbackground pic "
    for name, octets, colour in kinds():
        rows = [[int(2 * sum(colour(x, y)) < 765) for x in range(19)] for y in range(11)]
        plain, mask = make_kit.ppm(19, 11, colour), "resolution 200\nstripe\nmask pic\n"
        coloured, grey = (page_of(folder, image + word, plain) for word in ("", "grey"))
        tally.check(len(coloured) > len(grey) > 100, "%s: no two pages: %s" % (name, coloured[:200]))
        for what, plan, due in (
                ("image", image, grey if name.startswith(GREY) else coloured),
                ("grey image", image + "grey", grey), ("coloured image", image + "coloured", coloured),
                ("mask", mask, page_of(folder, mask, make_kit.pbm(rows)))):
            got = page_of(folder, plan, octets)
            tally.check(got == due and isinstance(due, bytes),
                        "%s as %s gives another page: %s" % (name, what, got[:200]))


def check_stripes(tally, reader, folder):
    """Several stripes of all choices of layers; names with blanks, from another folder."""
    sub = os.path.join(folder, "a b")
    os.makedirs(sub, exist_ok=True)
    write(os.path.join(sub, "m #1.pbm"), make_kit.pbm(make_kit.strokes(40, 9)))
    write(os.path.join(sub, "i.ppm"), make_kit.ppm(10, 6, make_kit.gradient(10, 6)))
    write(os.path.join(folder, "a b", "p.plan"), """resolution 600#main
coder mr\r
width 40  # as the masks have it
stripe
  mask "m #1.pbm"
stripe
\tforeground none base FFFFFF
background i.ppm at 65535 3 grey resolution 300
mask "m #1.pbm"
height 9
stripe
background none lab 9 8 7
mask none
foreground "%s/i.ppm" base 000000
height 65000
stripe
mask "m #1.pbm"
foreground "i.ppm" resolution 100 grey
background i.ppm base ffffff coloured
""" % os.path.abspath(sub))
    status, told, wrong = make_kit.run(folder, "a b/p.plan", "-o", "p.page")
    tally.check(status == 0 and wrong == "", "stripes: status %d, %s" % (status, wrong))
    if status != 0:
        return
    mask, back = mask_record(2, 40, 9, 600), uncoded(600, WHITE)
    stripes = [[back, mask, uncoded(600, BLACK)],
               [(1, 65535, 3, 10, 6, 300, WHITE, 1), mask, uncoded(600, WHITE)],
               [uncoded(600, (9, 8, 7)), mask_record(0, 40, 65000, 600), (1, 0, 0, 10, 6, 600, BLACK, 0)],
               [(1, 0, 0, 10, 6, 600, WHITE, 0), mask, (1, 0, 0, 10, 6, 100, BLACK, 1)]]
    due, size = due_records(stripes, told)
    page = read(os.path.join(folder, "p.page"))
    tally.check(listing(reader, page) == due and len(page) == size, "stripes: another page")
    line = "stripe 3, layer 2: m #1.pbm, MR, 40 by 9 at 600, %d octets" % layer_sizes(told)[3, 2]
    tally.check(line in told.splitlines(), "stripes: it tells %s" % told)


def pencil_plan(folder, pairs):
    """A stripe for each number of pairs; the plan, and (coder, rows) of each pencil mask."""
    plan, masks = "resolution 400\ncoder mh\nwidth 50\n", {}
    for stripe, count in enumerate(pairs):
        plan += "stripe\nmask m.pbm\n"
        for pair in range(count):
            coder = list(CODERS)[(stripe + pair) % 4]
            rows = make_kit.strokes(20 + 9 * pair + stripe, 5 + pair, 1 + stripe)
            name = "s%d_%d.pbm" % (stripe, pair)
            write(os.path.join(folder, name), make_kit.pbm(rows))
            masks[stripe, 4 + 2 * pair] = (coder, rows)
            plan += "pencil-mask %s %s at %d %d resolution 200\npencil-image %s base FFFFFF\n" % (
                name, "" if coder == "mh" else "coder " + coder, pair, stripe,
                ("none", "i.ppm resolution 100", "none grey", "i.ppm resolution 100 grey")[pair % 4])
    return plan, masks


def pencil_record(masks, place, start, length):
    """The record due of a pencil layer of pencil_plan."""
    stripe, layer = place
    if place in masks:
        coder, rows = masks[place]
        box = (CODERS[coder], layer // 2 - 2, stripe, len(rows[0]), len(rows), 200, 0, 0, 0)
    else:
        box = (1, 0, 0, 12, 9, 100, *WHITE) if length else (0, 0, 0, 0, 0, 400, *WHITE)
    grey = int(length > 0 and layer % 8 == 3)    # of layers 5, 7, 9 and on, 11 is the fourth
    return [stripe, layer, *box, start if length else 0, length, grey]


def check_pencil_records(tally, masks, sheet, page_records, sizes):
    """Layers 1 to 3 are the page's own records, the others those of the plan."""
    lister = reference_run.build("reference_list", parts=reference_run.LIST)
    rows = [list(map(int, line.split()))
            for line in reference_run.run(lister, sheet)[0].splitlines()]
    tally.check([row for row in rows if row[1] <= 3] == page_records,
                "pencil: the page's own records differ")
    at = 0
    for row in (row for row in rows if row[1] > 3):
        place = (row[0], row[1])
        due = pencil_record(masks, place, at, sizes[place])
        tally.check(row == due, "pencil: record %s, not %s" % (row, due))
        at += sizes[place]


def check_pencil(tally, folder, reader, finder):
    """Sheets of 3 to 15 layers, their data found by the reference and decoded outside."""
    write(os.path.join(folder, "m.pbm"), make_kit.pbm(make_kit.strokes(50, 8)))
    write(os.path.join(folder, "i.ppm"), make_kit.ppm(12, 9, make_kit.gradient(12, 9)))
    pairs = [1, 0, 6, 2, 3, 4, 5, 0]
    plan, masks = pencil_plan(folder, pairs)
    status, told, wrong = make(folder, plan, "--pencil", "p.sheet", "p.pencil")
    tally.check(status == 0 and wrong == "", "pencil: status %d, %s" % (status, wrong))
    if status != 0:
        return
    page, sheet, pencil = (read(os.path.join(folder, "p." + end))
                           for end in ("page", "sheet", "pencil"))
    side = b"".join(b"%s  p.%s\n" % (hashlib.sha256(octets).hexdigest().encode(), end)
                    for octets, end in ((page, b"page"), (sheet, b"sheet"), (pencil, b"pencil")))
    tally.check(read(os.path.join(folder, "p.sheet.sha256")) == side, "pencil: other digests")
    tally.check(told.splitlines()[-1] == "written: p.page, %d octets; p.sheet, %d octets; p.pencil, "
                "%d octets; p.sheet.sha256, %d octets" % (
                    len(page), len(sheet), len(pencil), len(side)), "pencil: it tells %s" % told)
    places = [(s, layer) for s, count in enumerate(pairs) for layer in range(1, 4 + 2 * count)]
    tally.check(len(sheet) == 28 * len(places), "pencil: a sheet of %d octets" % len(sheet))
    answers = reference_run.call_many(finder, [(sheet, page, pencil, *at) for at in places])
    sizes, at = layer_sizes(told), 0
    check_pencil_records(tally, masks, sheet, listing(reader, page), sizes)
    for place, (line, part) in zip(places, answers):
        source, start = ("1", at) if place[1] > 3 and sizes[place] else ("0", line.split()[-1])
        tally.check(line == "done %d %s %s" % (sizes[place], source, start),
                    "pencil: the data of %s is %s" % (place, line))
        at += sizes[place] if place[1] > 3 else 0
        if place in masks:
            coder, rows = masks[place]
            back = make_kit.decoded_mask(folder, coder, part, len(rows[0]), len(rows))
            tally.check(back == make_kit.bits(rows) and "layer %d: s%d_%d.pbm, %s, %d by %d at 200, "
                        % (place[1], place[0], place[1] // 2 - 2, SHOWN[coder], len(rows[0]),
                           len(rows)) in told, "pencil: %s is another picture" % (place,))
    tally.check(at == len(pencil), "pencil: the file has %d octets, not %d" % (len(pencil), at))


def is_built(tally):
    """The program, made anew from what stands here; the library is not made for it."""
    if not os.path.exists(os.path.join(reference_run.ROOT, "build", "libspirerook.a")):
        tally.check(False, "no build/libspirerook.a: make it first")
        return False
    clean = {key: value for key, value in os.environ.items() if not key.startswith("MAKE")}
    done = subprocess.run(["make", "--no-print-directory", "-C", reference_run.ROOT,
                           "build/spirerook-make"], env=clean, check=False,
                          stdout=subprocess.PIPE, stderr=subprocess.STDOUT)
    built = done.returncode == 0 and os.path.exists(make_kit.PROGRAM)
    tally.check(built, "make build/spirerook-make: %s" % done.stdout.decode()[-500:])
    return built


def main():
    seed = int(os.environ.get("SEED") or random.randrange(2 ** 32))
    print("SEED=%d" % seed)
    tally = reference_run.Tally()
    subprocess.run(["bash", os.path.join(reference_run.ROOT, "tests", "need"), *make_kit.NEEDS],
                   check=True)
    if is_built(tally):
        reader = reference_run.build("make_reader", parts=reference_run.parts_of("read"))
        finder = reference_run.build("make_finder", parts=reference_run.parts_of("data"))
        with tempfile.TemporaryDirectory() as folder:
            check_masks(tally, reader, folder, random.Random(seed))
            check_images(tally, reader, folder)
            check_colours(tally, folder, random.Random(seed))
            check_grey(tally, reader, folder, random.Random(seed))
            check_time(tally, folder, random.Random(seed))
            check_kinds(tally, folder)
            check_stripes(tally, reader, folder)
            check_pencil(tally, folder, reader, finder)
            make_notes.check_all(tally, folder, seed)
        make_mistakes.check_all(tally, random.Random(seed))
    return tally.end()


if __name__ == "__main__":
    sys.exit(main())
