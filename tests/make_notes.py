"""The notes of spirerook-make: base colours that codes cannot hold, and layers that pass the edge of
their stripe. What is due is worked out here from the plan, and from the records of the page made."""

import os
import random
import re

import make_kit
import view_reference
from make_kit import make, read, write

WIDTH, HEIGHT, MAIN = 40, 9, 1200
HEAD = "resolution %d\n" % MAIN
RANDOM = 60          # stripes of random colours, and of random layers
COLOURS = {"0000FF": True, "FF00FF": True, "00FF00": True, "000000": False, "FFFFFF": False,
           "ff0000": False, "8B0000": False, "505050": False}


def notes_of(told):
    """The notes, which stand before all else, and the lines behind them."""
    lines = told.splitlines()
    count = next((k for k, line in enumerate(lines) if not line.startswith("note: ")), len(lines))
    return lines[:count], lines[count:]


def check_colours(tally, folder, rng):
    """A colour is noted where it comes back by more than two steps, and the note tells as what."""
    colours = list(COLOURS) + ["%06X" % rng.randrange(2 ** 24) for _ in range(RANDOM - len(COLOURS))]
    plan = HEAD + "".join("stripe\nmask m.pbm\nbackground none base %s\nforeground none lab 60 230 0\n"
                          % colour for colour in colours)
    status, told, wrong = make(folder, plan)
    lines, behind = notes_of(told)
    tally.check((status, wrong) == (0, "") and behind[0].startswith("stripe 0, layer 1: "), "colours: %d, %s%s" % (status, told, wrong))
    noted = {}
    for line in lines:
        found = re.fullmatch(r"note: p\.plan:(\d+): base (\w{6}) is shown as ([0-9A-F]{6}): "
                             r"CIELAB codes hold no nearer colour", line)
        tally.check(found is not None, "colours: a note of another form: %s" % line)
        if found:
            noted[(int(found[1]) - 4) // 4] = found[2], found[3]
    page = read(os.path.join(folder, "p.page"))
    bases = [page[found.end() + 1:found.end() + 4] for found in re.finditer(b"MRC\1", page)]
    tally.check(len(bases) == len(colours), "colours: %d stripes" % len(bases))
    for k, (colour, base) in enumerate(zip(colours, bases)):
        given, exact = bytes.fromhex(colour), view_reference.screen_exactly(tuple(base))
        far = max(abs(a - b) for a, b in zip(given, exact))
        tally.check(colour not in COLOURS or (k in noted) == COLOURS[colour], "%s is noted: %s"
                    % (colour, noted.get(k)))
        if k not in noted:
            tally.check(far < 2 + 0.95, "%s comes out as %s, and is not noted" % (colour, exact))
            continue
        shown = bytes.fromhex(noted[k][1])
        tally.check(noted[k][0] == colour.upper() and max(
            abs(a - b) for a, b in zip(given, shown)) > 2 and max(
                abs(a - b) for a, b in zip(exact, shown)) < 0.95,
                    "%s comes out as %s, and is noted as %s" % (colour, exact, noted[k]))


def due_place(name, width, height, x, y, resolution):
    """The words due of a layer, or None where it keeps to its stripe."""
    each = MAIN // resolution
    right, below = x + width * each - WIDTH, y + height * each - HEIGHT
    if x >= WIDTH or y >= HEIGHT:
        return name + " lies outside its stripe: nothing of it is shown"
    plural = lambda count: "%d pixel%s" % (count, "s" if count > 1 else "")
    parts = []
    if right > 0:
        parts.append("reaches %s beyond the stripe's right edge" % plural(right))
    if below > 0:
        parts.append("%d below it" % below if parts else "reaches %s below the stripe" % plural(below))
    end = "it is not shown" if max(right, 0) + max(below, 0) == 1 else "they are not shown"
    return "%s %s; %s" % (name, " and ".join(parts), end) if parts else None


def places(rng):
    """(width, height, x, y, resolution): at the edges, and random ones."""
    yield from ((40, 9, 0, 0, 1200), (41, 9, 0, 0, 1200), (40, 10, 0, 0, 1200), (41, 10, 0, 0, 1200),
                (80, 21, 0, 0, 1200), (1, 1, 39, 8, 1200), (1, 1, 40, 0, 1200), (1, 1, 0, 9, 1200),
                (10, 2, 0, 1, 300), (10, 3, 0, 0, 300), (9, 2, 5, 2, 300), (1, 1, 65535, 65535, 100),
                (3, 1, 4, 0, 100), (1, 1, 39, 0, 600))
    for _ in range(RANDOM - 14):
        yield (rng.randrange(1, 60), rng.randrange(1, 14), rng.choice((0, rng.randrange(45))),
               rng.choice((0, rng.randrange(11))), rng.choice((1200, 600, 300, 400)))


def check_places(tally, folder, rng):
    plan, due = HEAD, []
    for k, (width, height, x, y, resolution) in enumerate(places(rng)):
        name = "i%d.pgm" % k
        write(os.path.join(folder, name), b"P5 %d %d 255 " % (width, height) + bytes(width * height))
        words = "%s resolution %d at %d %d" % (name, resolution, x, y)
        plan += "stripe\nmask m.pbm\n"
        plan += ("pencil-mask %s\npencil-image none\n" if k % 3 == 0 else
                 "foreground %s\nbackground none at 99 99\n" if k % 3 == 1 else
                 "background %s\nforeground none\n") % words
        told = due_place(name, width, height, x, y, resolution)
        if told:
            due.append("note: p.plan:%d: %s" % (4 * k + 4, told))
    status, told, wrong = make(folder, plan, "--pencil", "s", "f")
    lines, behind = notes_of(told)
    tally.check((status, wrong) == (0, "") and behind[0].startswith("stripe 0, layer 1: "), "places: %d, %s%s" % (status, told, wrong))
    tally.check(len(lines) == len(due), "places: %d notes, %d are due" % (len(lines), len(due)))
    for line, words in zip(lines, due):
        tally.check(line == words, "places: %s, not %s" % (line, words))


def check_both(tally, folder):
    """The two notes of one line, as the manual has them, and none where there is nothing to note."""
    write(os.path.join(folder, "paper.pgm"), b"P5 40 7 255 " + bytes(280))
    plan = "resolution 400\nwidth 40\nstripe\nheight 9\nbackground paper.pgm resolution 200 base 0000FF\n"
    status, told, wrong = make(folder, plan)
    due = ["note: p.plan:5: base 0000FF is shown as 7000BF: CIELAB codes hold no nearer colour",
           "note: p.plan:5: paper.pgm reaches 40 pixels beyond the stripe's right edge and 5 below it; "
           "they are not shown"]
    tally.check((status, told.splitlines()[:2], wrong) == (0, due, ""), "both notes: %s%s" % (told, wrong))
    status, told, wrong = make(folder, HEAD + "stripe\nmask m.pbm\n")
    tally.check((status, wrong) == (0, "") and told.startswith("stripe 0, layer 1: "),
                "a plan with nothing to note: %s%s" % (told, wrong))
    with open("/dev/full", "wb") as full:
        os.remove(os.path.join(folder, "p.page"))
        status, _, wrong = make(folder, plan, stdout=full)
    tally.check(status == 1 and wrong.splitlines()[:2] == due and os.path.exists(
        os.path.join(folder, "p.page")), "notes to a full standard output: %d, %s" % (status, wrong))


def check_all(tally, folder, seed):
    rng = random.Random(seed)
    write(os.path.join(folder, "m.pbm"), make_kit.pbm(make_kit.strokes(WIDTH, HEIGHT)))
    check_colours(tally, folder, rng)
    check_places(tally, folder, rng)
    check_both(tally, folder)
