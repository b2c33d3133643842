"""Damaged layers and pages: nothing that is not read for certain is shown, nothing breaks the viewer.

Cut layers, layers with one changed octet (the shares of docs/VIEWER.md, "Unnoticed damage"), cut
pages; and damaged pages under a viewer with sanitizers. SEED repeats a run. With SPIREROOK_CODECS
(tests/codecs_built.py) the decoders have sanitizers too, and only what these look at is tried.
"""

import collections
import concurrent.futures
import os
import random
import re
import subprocess
import sys
import tempfile

import codecs_built
import page_making
import reference_run
import test_outside
import view_making
import view_reference
from view_making import END, Shown

ROOT = reference_run.ROOT
MANUAL = os.path.join(ROOT, "docs", "VIEWER.md")
CHANGED = reference_run.trials(300)   # layers of each kind with one changed octet
CUTS = reference_run.trials(80)       # places at which pages are cut
LAYER_CUTS = reference_run.trials(60) # at which a JPEG layer is cut
DAMAGED = reference_run.trials(160)   # pages for the sanitized viewer
# points of a hundred by which a measured share may differ from the manual's: over four standard
# deviations of a share of a half, which is the worst
NEAR = 220 / CHANGED ** 0.5
STRIPES = 64
MASKS = {"MH": (1, "mask.mh"), "MR": (2, "mask.mr"), "MMR": (4, "mask.mmr"), "T.85": (8, "mask.t85")}
JPEGS = {"JPEG, one scan": "baseline.jpg", "JPEG, ten scans": "progressive.jpg",
         "JPEG, restarts": "restart.jpg"}
OUTCOMES = ("unread", "refused", "the same", "unnoticed")


class Place:
    """A folder of one process, and what is shown there."""

    def __init__(self, **settings):
        self.settings = settings
        self.kept = tempfile.TemporaryDirectory(prefix="damage.")
        self.page, self.out = self.beside("d.page"), self.beside("d.png")

    def beside(self, name):
        return os.path.join(self.kept.name, name)

    def show(self, octets, *words, **settings):
        view_making.write(self.page, octets)
        if os.path.exists(self.out):
            os.remove(self.out)
        return Shown([self.page, "-o", self.out, *words], self.out, **{**self.settings, **settings})

    def masks(self, coder, layers, width, height):
        """What becomes of masks, up to 64 of them as the stripes of one page: rows, or None."""
        page = page_making.start(mask=coder, main=200, width=width)
        for data in layers:
            page += page_making.stripe(type=2, height=height, mask=len(data)) + data
        shown = self.show(page + END)
        if shown.out is None:
            return ["refused: %s" % shown.wrong] * len(layers)
        rows = view_reference.Png(shown.out).rows
        return [rows[n * height:(n + 1) * height] if shown.is_read(n, 2) else None
                for n in range(len(layers))]

    def jpeg(self, data, layer):
        """What becomes of a JPEG layer that covers a page: rows, None, or a refusal's words."""
        page = page_making.start(main=layer.resolution, width=layer.width)
        page += page_making.stripe(type=1, x1=0, y1=0, height=layer.height) + data + END
        shown = self.show(page)
        if shown.out is None:
            return "refused: %s" % shown.wrong
        return view_reference.Png(shown.out).rows if shown.is_read(0, 1) else None


def outcome(found, whole):
    if isinstance(found, str):
        return "refused"
    return "unread" if found is None else "the same" if found == whole else "unnoticed"


def show_all(place, kind, datas):
    """The outcome of each damaged layer of a kind."""
    stored = test_outside.stored()
    if kind in MASKS:
        coder, name = MASKS[kind]
        whole = place.masks(coder, [stored[name].octets], 208, 60)[0]
        found = []
        for at in range(0, len(datas), STRIPES):
            found += place.masks(coder, datas[at:at + STRIPES], 208, 60)
    else:
        layer = stored[JPEGS[kind]]
        whole = place.jpeg(layer.octets, layer)
        found = [place.jpeg(data, layer) for data in datas]
    if not isinstance(whole, list):
        return ["not shown even when whole"] * len(datas)
    return [outcome(one, whole) for one in found]


def layer_of(kind):
    return test_outside.stored()[MASKS[kind][1] if kind in MASKS else JPEGS[kind]].octets


# (a) cut layers

def scans_of(jpeg):
    """The places of scan headers behind the first: where a cut leaves whole scans."""
    return [found.start() for found in re.finditer(rb"\xff[\xda\xc4]", jpeg)][1:]


def check_cuts_of_layers(kind, seed):
    rng, place, whole = random.Random(seed), Place(), layer_of(kind)
    sizes, close = range(1, len(whole)), b""
    if kind in JPEGS:
        sizes, close = rng.sample(range(1, len(whole) - 2), min(LAYER_CUTS, len(whole) - 3)) + scans_of(whole), b"\xff\xd9"
        sizes = sorted(set(sizes))
    found = show_all(place, kind, [whole[:size] + close for size in sizes])
    wrong = [size for size, one in zip(sizes, found) if one == "unnoticed"]
    return [(not wrong, "%s of %d octets: cut to %s it is shown as read, with another picture"
             % (kind, len(whole), wrong[:20])),
            ("unread" in found and set(found) <= set(OUTCOMES),
             "%s: no cut layer is unread, but %s" % (kind, set(found)))]


def check_other_sizes():
    """Data of a column or row more or less than the record's, or with an octet behind its end."""
    place, coders, checks = Place(), view_making.Coders(), []
    rows = [[int((x + 2 * y) % 23 < 3) for x in range(209)] for y in range(61)]
    for kind, (coder, _) in MASKS.items():
        sizes = [(207, 60), (209, 60), (208, 59), (208, 61), (208, 60)]
        # T.6 data tells no width: where no run ends at the right edge it decodes with any
        for width, height in sizes[2:] if coder == 4 else sizes:
            data = coders.mask(coder, [row[:width] for row in rows[:height]])
            found = place.masks(coder, [data], 208, 60)[0]
            checks.append(((found is None) == ((width, height) != (208, 60)),
                           "%s of %d by %d for 208 by 60" % (kind, width, height)))
    behind = place.masks(8, [layer_of("T.85") + b"\0"], 208, 60)[0]
    checks.append((behind is None, "T.85 with an octet behind it is read"))
    return checks


# (b) changed octets

def with_changed_octet(rng, octets):
    at = rng.randrange(len(octets))
    return octets[:at] + bytes([octets[at] ^ rng.randrange(1, 256)]) + octets[at + 1:]


def shares(kind, seed, count):
    rng, place, whole = random.Random(seed), Place(), layer_of(kind)
    datas = [with_changed_octet(rng, whole) for _ in range(count)]
    return collections.Counter(show_all(place, kind, datas))


def manual_shares():
    """The manual's table: the kind, and shares of a hundred in the order of OUTCOMES."""
    with open(MANUAL, encoding="utf-8") as file:
        text = file.read().partition("### Unnoticed damage")[2]
    rows = re.findall(r"^\| ([^|]+?) \|" + r" (\d+) \|" * len(OUTCOMES) + "$", text, re.M)
    return {row[0]: [int(cell) for cell in row[1:]] for row in rows}


def check_shares(tally, counted):
    told = manual_shares()
    print("| one octet changed in | %s |" % " | ".join(OUTCOMES))
    for kind, counts in counted.items():
        total = sum(counts.values())
        measured = [100 * counts[one] / total for one in OUTCOMES]
        print("| %s | %s |" % (kind, " | ".join("%d" % round(share) for share in measured)))
        due = told.get(kind)
        tally.check(due is not None and all(abs(a - b) <= NEAR for a, b in zip(measured, due)),
                    "%s: %s measured, %s in docs/VIEWER.md" % (kind, measured, due))
        tally.check(total == CHANGED, "%s: %d tried" % (kind, total))


# (c) cut pages

def whole_pages():
    """All of the stored layers that fit together, in pages of several stripes."""
    layers = test_outside.stored()
    for coder, mask in MASKS.values():
        yield (test_outside.Page(layers, 400, coder, width=208)
               .stripe(mask, "baseline.jpg", "progressive.jpg", height=60)
               .stripe(back="dense.jpg", height=40).stripe(mask, height=60)
               .stripe(mask, fore="grey.jpg", height=60).end(zeros=3)[0])


def check_cut_pages(seed):
    rng, place, checks = random.Random(seed), Place(), []
    pages = [page.rstrip(b"\0") for page in whole_pages()]
    for number in range(CUTS):
        page = pages[number % len(pages)]
        size = rng.choice((rng.randrange(len(page)), rng.randrange(120), len(page) - 1 - number % 5))
        shown = place.show(page[:size])
        due = r"%s: refused: Short \(1\) at octet (\d+)\b[^\n]*\n" % re.escape(place.page)
        told = re.fullmatch(due, shown.wrong)
        checks.append((shown.status == 1 and told and int(told[1]) <= size,
                       "cut to %d: status %s, %s" % (size, shown.status, shown.wrong)))
        left = set(os.listdir(place.kept.name))
        checks.append((left == {"d.page"} and not shown.told,
                       "cut to %d: %s are left, told: %s" % (size, left, shown.told)))
    return checks


# (d) a viewer with sanitizers

def build_sanitized(folder):
    return view_making.build_viewer(
        os.path.join(folder, "sanitized-view"), ("-g", "-O1", "-fsanitize=address,undefined",
        "-fno-sanitize-recover", *os.environ.get("CFLAGS", "").split(), *codecs_built.flags(),
        "-Wl,--wrap=setrlimit,--wrap=dup2"), reference_run.in_driver("no_limits.c"),
        codecs_built.libraries(view_making.LIBRARIES))


NO_SANDBOX = ["--no-sandbox"]    # a sanitizer asks the system for more than a decoder may
EXTREMES = [0, 1, 2, 5, 6, 0x7F, 0x80, 0xFF, 0x100, 0x7FFF, 0x8000, 0xFFFF, 0x10000, 0x7FFFFFFF,
            0x80000000, 0xFFFFFFFF]


def damaged(rng, octets):
    """Changed, put in, taken out, doubled; or a number set to an extreme, first of all in headers."""
    octets = bytearray(octets)
    for _ in range(rng.choice((1, 1, 2, 5))):
        heads = [found.start() for found in re.finditer(rb"MRC|G3FAX|\xff[\xc0-\xdf]", octets)]
        near = rng.choice(heads or [0]) + rng.randrange(-2, 40)
        at = min(max(near if rng.random() < 0.7 else rng.randrange(len(octets)), 0), len(octets) - 1)
        size = rng.choice((1, 1, 2, 4, 30))
        kind = rng.randrange(5)
        if kind == 0:
            octets[at] = rng.randrange(256)
        elif kind == 1:
            octets[at:at] = bytes(rng.randrange(256) for _ in range(size))
        elif kind == 2 and len(octets) > 40:
            del octets[at:at + size]
        elif kind == 3:
            octets[at:at] = octets[at:at + 10 * size]
        else:
            width = rng.choice((1, 2, 4))
            octets[at:at + width] = (rng.choice(EXTREMES) % 256 ** width).to_bytes(width, "big")
    return bytes(octets)


def pencil_page(rng):
    coders = view_making.Coders()
    page = view_making.random_page(rng, coders, True)
    return (page.octets(), *page.sheet_and_pencil())


def sanitizer_settings(folder, turn, **others):
    log = "log_path=%s:exitcode=99" % os.path.join(folder, "report")
    return {**os.environ, "ASAN_OPTIONS": log + ":" + reference_run.leaks(turn),
            "UBSAN_OPTIONS": log + ":print_stacktrace=1", "LSAN_OPTIONS": "exitcode=99", **others}


def reports(folder):
    """What sanitizers wrote, in this process or a decoder's."""
    names = [name for name in os.listdir(folder) if name.startswith("report")]
    return "\n".join(view_making.read(os.path.join(folder, name)).decode("utf-8", "replace")
                     or "an empty report" for name in sorted(names))


def check_planted(program):
    """Faults planted in a decoder's process are caught, so that silence means something."""
    checks = []
    for plant, due in (("address", "heap-buffer-overflow"), ("undefined", "signed integer overflow")):
        place = Place()
        settings = sanitizer_settings(place.kept.name, 1, PLANT=plant)
        shown = place.show(next(whole_pages()), *NO_SANDBOX, view=program, env=settings)
        told = reports(place.kept.name) + shown.wrong
        checks.append((due in told and "its decoder broke off" in shown.told,
                       "a planted fault (%s) is not caught: %s %s" % (plant, shown.told, told)))
    return checks


def damaged_side(rng, number, page, octets, words):
    """A side file that fits what is damaged already, or now and then one that is damaged itself;
    answers more words for the viewer."""
    view_making.write(page, octets)
    view_making.write_side(page, *words[1:3])
    if number % 5:
        return []
    view_making.write(words[1] + ".sha256", damaged(rng, view_making.read(words[1] + ".sha256")))
    return rng.choice(([], ["--no-digests"]))


class Watched(Place):
    """A folder where pages are shown by the sanitized viewer, and what it found is told and kept."""

    def __init__(self, program, seed):
        super().__init__()
        self.program, self.seed, self.shown, self.files = program, seed, 0, {}

    def show(self, octets, *words, **settings):
        self.settings = {"view": self.program, "env": sanitizer_settings(self.kept.name, self.shown)}
        shown = super().show(octets, *words, *NO_SANDBOX, **settings)
        self.shown += 1
        self.files = {"page": octets, **{name.rpartition(".")[2]: view_making.read(name)
                                         for name in words[1:3]}}
        self.found = "" if (
            shown.status in (0, 1, 3) and "runtime error" not in shown.wrong
            and shown.wrong.count("\n") <= 1 and "its decoder broke off" not in shown.told
        ) else "status %s\n%s\n%s" % (shown.status, shown.told, shown.wrong)
        self.found += reports(self.kept.name)
        if self.found:
            codecs_built.keep("%d-%d" % (self.seed, self.shown), self.files, self.found)
        for name in os.listdir(self.kept.name):
            if name.startswith("report"):
                os.remove(os.path.join(self.kept.name, name))
        return shown

    def check(self):
        return not self.found, "damaged page %d of %d: %s" % (self.shown, self.seed, self.found[:5000])


def check_sanitized(program, seed, count):
    """Damaged pages; and pencils, damaged over a good page, since else they are never decoded."""
    rng, place, checks = random.Random(seed), Watched(program, seed), []
    pages = list(whole_pages())
    for number in range(count):
        if number % 25 == 0:
            own, sheet, pencil = pencil_page(rng)
        if number % 25 < 10:
            words = ["--pencil", place.beside("p.sheet"), place.beside("p.pencil")]
            view_making.write(words[1], damaged(rng, sheet) if number % 4 == 1 else sheet)
            view_making.write(words[2], damaged(rng, pencil) if number % 3 else pencil)
            page = damaged(rng, own) if number % 9 == 8 else own
            place.show(page, *words, *damaged_side(rng, number, place.page, page, words))
        else:
            place.show(damaged(rng, rng.choice(pages)))
        checks.append(place.check())
    return checks


def check_decoders(program, kind, seed, count):
    """Damaged layers of a kind, masks 64 to a page: nearly all go through their decoder."""
    rng, place, whole = random.Random(seed), Watched(program, seed), layer_of(kind)
    checks, each = [], STRIPES if kind in MASKS else 1
    checks.append((show_all(place, kind, [whole]) == ["the same"], "%s, whole, is not read" % kind))
    for _ in range(0, count, each):
        layers = [damaged(rng, whole) for _ in range(each)]
        if kind in MASKS:
            place.masks(MASKS[kind][0], layers, 208, 60)
        else:
            place.jpeg(layers[0], test_outside.stored()[JPEGS[kind]])
        checks.append(place.check())
    return checks


def main():
    tally = reference_run.Tally()
    seed = view_making.seed_of_run()
    if not view_making.prepare(tally):
        return tally.end()
    kinds, counted = list(MASKS) + list(JPEGS), {}
    codecs_built.check(tally, ("tiff", "jbig", "jpeg"))
    with tempfile.TemporaryDirectory() as folder, concurrent.futures.ProcessPoolExecutor(2) as pool:
        program = build_sanitized(folder)
        found = [pool.submit(check_sanitized, program, seed + n, DAMAGED // 4) for n in range(4)]
        found.append(pool.submit(check_planted, program))
        if codecs_built.FOLDER:
            found += [pool.submit(check_decoders, program, kind, seed, DAMAGED) for kind in kinds]
        else:
            counted = {kind: pool.submit(shares, kind, seed, CHANGED) for kind in kinds}
            found += [pool.submit(check_cut_pages, seed), pool.submit(check_other_sizes)]
            found += [pool.submit(check_cuts_of_layers, kind, seed) for kind in kinds]
        for one in found:
            for holds, told in one.result():
                tally.check(holds, told)
        if counted:
            check_shares(tally, {kind: one.result() for kind, one in counted.items()})
    return tally.end()


if __name__ == "__main__":
    sys.exit(main())
