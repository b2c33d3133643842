"""Stripes composed as bands and line by line: the same picture, octet for octet, and each way just
where docs/VIEWER.md has it.

--times tells how many stripes were bands; a viewer whose calls of the library are counted tells that
it is so. SEED repeats a run.
"""

import os
import random
import re
import resource
import shutil
import subprocess
import sys

import page_making
import reference_run
import test_view
import test_view_unseen
import view_crafted
import view_making
from view_making import END, Coders, Page, Shown, bounded, random_grey, random_image, random_mask, three, write
from view_reference import Layer, Plain, Squares

PAGES = reference_run.trials(12)
MIB = 1 << 20
TIMES = re.compile(r"^[\d.]+ s: decoding .*\ncomposed as bands: .*\n", re.M)


def show(words, out, memory=None, view=view_making.VIEW, **settings):
    """A run whose picture is not one that stood there before."""
    if os.path.exists(out):
        os.remove(out)
    more = ["--times"] if memory is None else ["--times", "--memory", str(memory)]
    return Shown([*words, *more], out, view, **settings)


def untimed(shown):
    """All that a run tells but for its times."""
    return shown.status, TIMES.sub("", shown.told), shown.wrong, shown.out


def same(tally, name, one, other):
    """Both show the page, alike."""
    tally.check(one.out is not None and untimed(one) == untimed(other), "%s: %s%s beside\n%s%s, %s picture" % (
        name, one.told, one.wrong, other.told, other.wrong, "the same" if one.out == other.out else "another"))


# Both ways

def check_edge(tally, words, out, page, stripe, name):
    """A stripe alone, in memory for just its samples and its band, and in an octet less; none where the
    layers or the pencil file need more than that."""
    edge = page.samples(stripe) + page.band(stripe)
    if edge - 1 < page.least_memory():
        return 0
    words = [*words, "--stripe", str(stripe)]
    bands, lines = (show(words, out, memory) for memory in (edge, edge - 1))
    tally.check((bands.bands(), lines.bands()) == ((1, 1), (0, 1)), "%s, stripe %d: %s and %s are bands in %d octets and one less"
                % (name, stripe, bands.bands(), lines.bands(), edge))
    same(tally, "%s, stripe %d" % (name, stripe), bands, lines)
    return 1


def check_page(tally, coders, page, name, unseen=Squares()):
    """A page with memory for all bands, and with just enough for its samples."""
    words, out = test_view.words_for(coders, page, unseen=unseen)
    stripes, least = len(page.stripes), page.least_memory()
    bands, lines = show(words, out), show(words, out, least)
    due = sum(page.samples(k) + page.band(k) <= least for k in range(stripes))
    tally.check(bands.bands() == (stripes, stripes), "%s: bands are %s" % (name, bands.told))
    tally.check(lines.bands() == (due, stripes), "%s: bands are %s in %d octets, not %d" % (name, lines.bands(), least, due))
    same(tally, name, bands, lines)
    return sum(check_edge(tally, words, out, page, k, name) for k in range(min(stripes, 6)))


def check_random(tally, coders, rng):
    """Pages of all kinds, with pencil layers and grey ones, some of them unread."""
    edges = 0
    for number in range(PAGES):
        page = view_making.random_page(rng, coders, number % 4 != 0, 64 if number == PAGES - 1 else None)
        share = rng.choice((0, 0.3, 0.6))
        for _, layer in page.coded():
            layer.unread = rng.random() < share
        edges += check_page(tally, coders, page, "random page %d" % number, test_view.random_unseen(rng, page))
    tally.check(edges >= PAGES // 2, "only %d stripes were shown at the edge" % edges)


def check_pencil(tally, coders, rng):
    """Grey and coloured layers under pencil whose mask or image is unread: samples that are not read are
    not counted."""
    for unread in ((), (4,), (5,), (1, 4, 5), (2,), (1, 2, 3, 4, 5)):
        page = Page(150, 400, 4)
        for _ in range(3):
            layers = three(400) + [Layer(4, (0, 0, 0), 400), Layer(5, (60, 128, 96), 400)]
            for number in (2, 4):
                coders.code(layers[number - 1], 4, random_mask(rng, 150, 70))
            for number, words in ((1, ("grey",)), (3, ()), (5, ("grey",))):
                layers[number - 1].resolution = 100
                coders.code(layers[number - 1], 1, random_image(rng, 38, 18, [(90, 0, 0)], random_grey), words=words)
            for number in unread:
                layers[number - 1].unread = True
            page.add(layers, 70)
        for unseen in (Squares(), Plain((255,) * 3)):
            tally.check(check_page(tally, coders, page, "unread %s" % (unread,), unseen) == 3, "no edges: unread %s" % (unread,))


def check_high(tally, coders, rng):
    """The highest stripe there is, and one line; lines across the end of a band are compared too, since
    two stripes are alike."""
    few = [[rng.randrange(2) for _ in range(24)] for _ in range(97)]
    for width, height in ((24, 65535), (24, 1)):
        rows = [few[y % 97][:width] for y in range(height)]
        page = Page(width, 400, 4)
        layers = three(400)
        coders.code(layers[1], 4, rows)
        page.add(layers, height)
        tally.check(check_page(tally, coders, page, "%d lines" % height) == 1, "no edge: %d lines" % height)
    page = Page(24, 400, 4)
    for height in (1, 40, 40, 1, 1, 40):
        layers = three(400, (200, 128, 96), (200, 128, 96) if height == 1 else (10, 128, 96))
        coders.code(layers[1], 4, [few[0]] * height)
        page.add(layers, height)
    check_page(tally, coders, page, "stripes that are alike")


def check_damaged(tally, coders, rng):
    """A layer that its decoder refuses is not counted, and is told of alike; a page that is refused is
    refused as ever."""
    layers = three(400)
    coders.code(layers[1], 4, [[int((x + y) % 3 == 0) for x in range(200)] for y in range(50)])
    coders.code(layers[0], 1, random_image(rng, 200, 50, [(9, 9, 9)]))
    page = Page(200, 400, 4).add(layers, 50)
    octets = page.octets()
    place, end = page.places[0, 1], page.places[0, 1] + len(layers[0].data)
    name, out = coders.path("damaged.page"), coders.path("damaged.png")
    write(name, octets[:end - 40] + b"\xff\xd9" + octets[end:])
    layers[0].unread = True
    edge = page.samples(0) + page.band(0)
    shown = [show([name, "-o", out], out, memory) for memory in (None, edge, edge - 1)]
    for each, count in zip(shown, (1, 1, 0)):
        tally.check(each.status == 3 and each.is_read(0, 1) is False and each.is_read(0, 2) and each.bands() == (count, 1),
                    "damaged: %s %s" % (each.told, each.wrong))
        same(tally, "damaged", shown[0], each)
    write(name, octets[:place - 1])
    for memory in (None, 1):
        each = show([name, "-o", out], out, memory)
        tally.check(each.status == 1 and each.out is None and not each.told and each.wrong.startswith(name + ": refused: ")
                    and each.wrong.count("\n") == 1, "cut: status %s, %s%s" % (each.status, each.told, each.wrong))


# The calls

COUNTED = r"""
#include <stdio.h>
#include <stdlib.h>
#include <string.h>

#include <spirerook.h>

#define LENT const uint8_t *sheet, size_t sheet_len, const uint8_t *planes, size_t planes_len, const uint8_t *samples, size_t samples_len, uint32_t stripe
#define HANDED sheet, sheet_len, planes, planes_len, samples, samples_len, stripe
#define REST uint8_t u0, uint8_t u1, uint8_t u2, uint8_t *out, size_t out_len

spirerook_answer __real_spirerook_band(LENT, REST);
spirerook_answer __real_spirerook_line_unseen(LENT, uint32_t line, REST);

static long bands, lines;

static void tell(void)
{
    FILE *file = fopen(getenv("CALLS"), "w");
    fprintf(file, "%ld bands, %ld lines", bands, lines);
    fclose(file);
}

/* Whether the call is refused, the one that REFUSE counts from the first. */
static int is_refused(void)
{
    if (bands + lines == 1) {
        atexit(tell);
    }
    return bands + lines == atol(getenv("REFUSE"));
}

spirerook_answer __wrap_spirerook_band(LENT, REST)
{
    bands++;
    return is_refused() ? (spirerook_answer){.number = SPIREROOK_BAD_PLANE, .place = 3}
                        : __real_spirerook_band(HANDED, u0, u1, u2, out, out_len);
}

spirerook_answer __wrap_spirerook_line_unseen(LENT, uint32_t line, REST)
{
    lines++;
    return is_refused() ? (spirerook_answer){.number = SPIREROOK_BAD_PLANE, .place = 3}
                        : __real_spirerook_line_unseen(HANDED, line, u0, u1, u2, out, out_len);
}
"""


def check_calls(tally, coders, rng):
    """A band is one call and no line is composed besides; where the library refuses either, that is
    told, and the picture that stood there stays."""
    source, calls = coders.path("counted.c"), coders.path("calls")
    write(source, COUNTED.encode())
    wraps = ["-O1", "-Wl,--wrap=spirerook_band", "-Wl,--wrap=spirerook_line_unseen"]
    view = view_making.build_viewer(coders.path("counted/view"), wraps, [source])
    page = Page(90, 400, 4)
    for height in (20, 33):
        layers = three(400)
        page.add([layers[0], coders.code(layers[1], 4, random_mask(rng, 90, height)), layers[2]], height)
    words, out = test_view.words_for(coders, page)
    least, edge = page.least_memory(), page.samples(0) + page.band(0)
    for memory, refuse, due, told in (
            (None, 0, "2 bands, 0 lines", None), (least, 0, "0 bands, 53 lines", None), (edge, 0, "1 bands, 33 lines", None),
            (None, 1, "1 bands, 0 lines", "stripe 0"), (None, 2, "2 bands, 0 lines", "stripe 1"),
            (least, 21, "0 bands, 21 lines", "stripe 1, line 0"), (edge, 3, "1 bands, 2 lines", "stripe 1, line 1")):
        write(out, b"an old picture")
        more = [] if memory is None else ["--memory", str(memory)]
        shown = Shown([*words, *more], out, view, env=dict(os.environ, CALLS=calls, REFUSE=str(refuse)))
        counted = view_making.read(calls).decode()
        tally.check(counted == due, "%s in %s octets, not %s: %s" % (counted, memory, due, shown.wrong))
        first = "%s: %s: refused: BadPlane (15) at 3\n" % (words[0], told)
        tally.check(shown.status == 0 and shown.out != b"an old picture" and not shown.wrong if told is None
                    else shown.status == 1 and shown.out == b"an old picture" and shown.wrong.startswith(first),
                    "refused at call %d: status %s, %s" % (refuse, shown.status, shown.wrong))


# What the system gives

def large_page(coders, name, stripes, width, height):
    """Stripes of a white mask alone, no two of them alike."""
    mask, page = view_crafted.white_mmr(height), page_making.start(mask=4, width=width)
    for stripe in range(stripes):
        page += page_making.stripe(type=2, height=height, mask=len(mask), colours=bytes([200 - stripe, 128, 96] * 2)) + mask
    write(coders.path(name), page + END)
    return coders.path(name)


def check_address_space(tally, coders, _):
    """Whatever the system gives: what is shown without a band is shown where one was allowed, also in
    just the least that a band is taken in, which is looked for."""
    page, out, found = large_page(coders, "space.page", 2, 2000, 1000), coders.path("space.png"), set()
    low, high = 8 * MIB, 100 * MIB
    while high - low > 4096:
        middle = (low + high) // 2
        bound = bounded(resource.RLIMIT_AS, middle)
        free, lines = (show([page, "-o", out], out, memory, preexec_fn=bound) for memory in (None, 2000 * 1000))
        tally.check(untimed(free) == untimed(lines), "with %d octets: %s%s beside %s%s" % (
            middle, free.told, free.wrong, lines.told, lines.wrong))
        found.add((lines.status, free.bands()))
        low, high = (low, middle) if lines.status == 0 and free.bands() != (0, 2) else (middle, high)
    tally.check({(0, (0, 2)), (0, (2, 2))} <= found, "found: %s" % found)


def check_late(tally, coders, _):
    """Time is up after so many looks at it: the lines of a band that are not drawn by then are unseen, as
    those that are not composed."""
    page, shim, found = test_view_unseen.blocks_page(coders, 60, 10), test_view_unseen.build_late(coders), set()
    words, out = test_view.words_for(coders, page)
    edge = page.samples(0) + page.band(0)
    for looks in range(1, 10):
        late = dict(os.environ, LD_PRELOAD=shim, LOOKS=str(looks))
        bands, lines = (show(words, out, memory, env=late) for memory in (edge, edge - 1))
        same(tally, "late after %d looks" % looks, bands, lines)
        tally.check(lines.bands() == (0, 1), "late after %d looks: bands are %s" % (looks, lines.bands()))
        found.add((bands.bands()[0], *re.findall(r": lines (\d+) to 79 were not composed within ", bands.told)))
    tally.check({(0, "0"), (1, "16"), (1, "64"), (1,)} <= found, "late, found: %s" % found)


def check_peak(tally, coders, _):
    """One band at a time, and none beside the samples of the next stripe."""
    page, out = large_page(coders, "peak.page", 4, 8000, 1000), coders.path("peak.png")
    most = {}
    for kind, memory in (("bands", 5 * 8000 * 1000), ("lines", 8000 * 1000)):
        status, told, _, used = view_making.used_by([page, "-o", out, "--times", "--memory", str(memory)])
        most[kind] = used.ru_maxrss * 1024
        tally.check(status == 0 and "bands: %d of 4 " % (4 if kind == "bands" else 0) in told, told)
    band = most["bands"] - most["lines"]
    tally.check(band < 1.1 * 4 * 8000 * 1000, "a band of 32000000 octets takes %d" % band)


SYSTEM = r"""
#include <stdlib.h>
#include <sys/resource.h>
#include <sys/syscall.h>
#include <unistd.h>

/* A machine of so much memory, on which all but so much of 45 seconds is over after the first look. */

long sysconf(int name)
{
    long page = 4096;
    return name == _SC_PHYS_PAGES ? atol(getenv("PAGES")) : name == _SC_PAGESIZE ? page : -1;
}

int getrusage(int whose, struct rusage *used)
{
    static long looks;
    int done = (int)syscall(SYS_getrusage, whose, used);
    looks += whose == RUSAGE_SELF;
    used->ru_utime.tv_sec += looks > 1 && whose == RUSAGE_SELF ? 45 - atol(getenv("LEFT")) : 0;
    return done;
}
"""


def check_system(tally, coders, _):
    """A band takes a quarter of the machine's memory at most, and is begun only if it ends in time."""
    shim = coders.path("system.so")
    subprocess.run(["cc", "-O1", "-shared", "-fPIC", "-x", "c", "-", "-o", shim], input=SYSTEM.encode(), check=True)
    page, out = large_page(coders, "system.page", 1, 16384, 2000), coders.path("system.png")
    quarter = 16384 * 2000 // 1024               # pages of 4096 octets
    plain = show([page, "-o", out], out)
    for pages, left, count in ((4 * quarter, 45, 1), (4 * quarter - 1, 45, 0), (1 << 40, 3, 1), (1 << 40, 1, 0), (0, 45, 1)):
        shown = show([page, "-o", out], out, env=dict(os.environ, LD_PRELOAD=shim, PAGES=str(pages), LEFT=str(left)))
        tally.check(shown.bands() == (count, 1), "%d pages, %d seconds: %s%s" % (pages, left, shown.told, shown.wrong))
        same(tally, "%d pages, %d seconds" % (pages, left), plain, shown)


def main():
    tally = reference_run.Tally()
    seed = view_making.seed_of_run()
    if not view_making.prepare(tally):
        return tally.end()
    for check in (check_random, check_pencil, check_high, check_damaged, check_calls, check_late,
                  check_address_space, check_peak, check_system):
        coders = Coders()
        check(tally, coders, random.Random(seed))
        shutil.rmtree(coders.folder, ignore_errors=True)
    return tally.end()


if __name__ == "__main__":
    sys.exit(main())
