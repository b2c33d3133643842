"""Unseen pixels in a plain colour, `--unseen`: which colour that is, and that no seen pixel has it.

Random pages with such a colour are in tests/test_view.py, the option's words in
tests/test_view_words.py. SEED repeats a run.
"""

import itertools
import os
import random
import re
import subprocess
import sys

import reference_run
import test_view
import view_making
import view_reference
from test_view import GREEN_CODES, check_page
from view_making import BLACK, WHITE, Coders, Page, Shown, three
from view_reference import UNSEEN, Layer, Plain, Squares

GREY = (128, 128, 96)        # what the library gives unseen pixels when it is not asked for another
STRONG = [(255, 0, 0), (0, 255, 0), (0, 0, 255), (0, 255, 255), (255, 0, 255), (255, 255, 0), (1, 0, 0),
          (0, 1, 0), (0, 0, 1), (254, 255, 255)]


def show(words, out, **settings):
    """A run whose picture is not one that stood there before."""
    if os.path.exists(out):
        os.remove(out)
    return Shown(words, out, **settings)


# The colour

def unread_page(coders, width=8, height=2):
    """A page of which nothing is seen."""
    layers = three(200)
    coders.code(layers[1], 4, [[0] * width] * height)
    layers[1].unread = True
    return Page(width, 200, 4).add(layers, height)


def may_be(asked, drawn):
    """Whether the nearest codes of a colour give the other on a screen, where rounding is near a half
    too: there the digits of constants tell."""
    codes = [{int(part + 0.47), int(part + 0.53)} for part in view_reference.codes_exactly(asked)]
    return any(max(abs(a - b) for a, b in zip(view_reference.screen_exactly(each), drawn)) < 0.95
               for each in itertools.product(*codes))


def check_conversion(results, coders, rng):
    """Told is the nearest that codes give, and that is drawn; the way in which it is written is no
    matter."""
    words, out = test_view.words_for(coders, unread_page(coders))
    colours = STRONG + [(value,) * 3 for value in range(0, 256, 15)]
    colours += [tuple(rng.randbytes(3)) for _ in range(reference_run.trials(100))]
    for asked in colours:
        digits = "%02X%02X%02X" % asked
        shown = show([*words, "--unseen", rng.choice((digits, "#" + digits, digits.lower()))], out)
        told = re.fullmatch(r"#([0-9A-F]{6}) \(--unseen\)", shown.drawn() or "")
        if not told or not shown.out:
            results.check(False, "%s: %s %s" % (digits, shown.wrong, shown.told))
            continue
        drawn, due = tuple(bytes.fromhex(told[1])), Plain(asked)
        results.check(due.kept[0] == drawn if view_reference.is_certain(asked) else may_be(asked, drawn),
                      "%s is drawn as %s, not %s" % (digits, shown.drawn(), due.told))
        picture = view_reference.Png(shown.out)
        results.check(set(picture.rows) == {bytes(drawn) * picture.width}
                      and picture.texts == {"Unseen pixels": "16", "Unseen colour": "#" + told[1]},
                      "%s: told as %s, and drawn as %s" % (digits, told[1], picture.rows[0][:3].hex()))
    certain = sum(map(view_reference.is_certain, colours))
    results.check(certain > 20, "only %d of %d colours are certain" % (certain, len(colours)))


# Seen pixels of the same colour

BLOCKS = [WHITE, BLACK, GREY, (0, 0, 0), (255, 255, 255), (150, 128, 96), (60, 170, 120), *GREEN_CODES]


def blocks_page(coders, left, top):
    """Blocks of codes in lines that are all alike, and unseen ones among them under a pencil mask that
    is unread."""
    layers = three(200)
    coders.code(layers[0], 1, [[codes for codes in BLOCKS for _ in range(16)]] * 80)
    layers += [Layer(4, (0, 0, 0), 200), Layer(5, (90, 200, 180), 200)]
    coders.code(layers[3], 4, [[0] * 90] * 40, left, top)
    layers[3].unread = True
    return Page(16 * len(BLOCKS), 200, 4).add(layers, 80)


def check_kept(results, coders):
    """Unseen in the colour of each block, met first as seen and first as unseen; in all other blocks
    the colours are what they are without, those of the pattern too."""
    colours = [view_reference.screen(codes, ()) for codes in BLOCKS]
    asked = {colour for colour in colours if view_reference.is_certain(colour)}
    results.check({(255,) * 3, (0,) * 3} < asked and len(asked) > 3, "only %s are tried" % asked)
    for left, top in ((0, 0), (7, 0), (70, 21), (0, 40)):
        page = blocks_page(coders, left, top)
        for unseen in (Squares(), *map(Plain, sorted(asked))):
            check_page(results, coders, page, "unseen as %s, %d right and %d down" % (unseen.told, left, top),
                       unseen=unseen)


def check_same_codes(results, coders):
    """All is seen in the very codes that unseen has, or nothing is seen at all."""
    for asked in ((255,) * 3, (0,) * 3, (127,) * 3, view_reference.screen(GREY)):
        unseen = Plain(asked)
        layers = three(200, unseen.codes, unseen.codes)
        coders.code(layers[1], 4, [[0] * 40] * 40)
        layers[1].unread = True           # whatever it holds, the colour is the same
        check_page(results, coders, Page(40, 200, 4).add(layers, 40), "all seen in " + unseen.told, unseen=unseen)
        check_page(results, coders, unread_page(coders, 40, 40), "all unseen in " + unseen.told, unseen=unseen)


# Lines that are not composed

LATE = r"""
#include <stdlib.h>
#include <sys/resource.h>
#include <sys/syscall.h>
#include <unistd.h>

/* What was taken of the processor: a day more, once it was asked for so often. */
int getrusage(int whose, struct rusage *used)
{
    static long looks;
    int done = (int)syscall(SYS_getrusage, whose, used);
    looks += whose == RUSAGE_SELF;
    used->ru_utime.tv_sec += looks > atol(getenv("LOOKS")) ? 86400 : 0;
    return done;
}
"""


def build_late(coders):
    shim = coders.path("late.so")
    subprocess.run(["cc", "-O1", "-shared", "-fPIC", "-x", "c", "-", "-o", shim],
                   input=LATE.encode(), check=True)
    return shim


def check_uncomposed(results, coders):
    """Time is up after so many looks at it: lines before are as ever, those from there on unseen."""
    page, shim, firsts = blocks_page(coders, 60, 10), build_late(coders), set()
    due = test_view.due_lines(page)
    for unseen in (Squares(), Plain((255,) * 3), Plain((127,) * 3)):
        words, out = test_view.words_for(coders, page, unseen=unseen)
        for looks in range(1, 10):
            name = "unseen as %s, late after %d looks" % (unseen.told, looks)
            shown = show(words, out, env=dict(os.environ, LD_PRELOAD=shim, LOOKS=str(looks)))
            told = re.search(r"^\S+: lines (\d+) to 79 were not composed within ", shown.told, re.M)
            first = int(told[1]) if told else len(due)
            if not shown.out:
                results.check(False, "%s: status %s, %s" % (name, shown.status, shown.wrong))
                continue
            firsts.add(first)
            lines = due[:first] + [[UNSEEN] * page.width] * (len(due) - first)
            picture = view_reference.Png(shown.out)
            difference = view_reference.compared(lines, picture, unseen)
            results.check(difference.wrong == 0, "%s: %s" % (name, difference.first))
            test_view.check_counts(results, name, picture, shown, difference)
    results.check(len(firsts) > 4 and {0, len(due)} < firsts, "lines are left out from %s on" % sorted(firsts))


def main():
    tally = reference_run.Tally()
    seed = view_making.seed_of_run()
    if not view_making.prepare(tally):
        return tally.end()
    coders, results = Coders(), test_view.Results()
    check_conversion(results, coders, random.Random(seed))
    check_kept(results, coders)
    check_same_codes(results, coders)
    check_uncomposed(results, coders)
    for holds, told in results.checks:
        tally.check(holds, told)
    return tally.end()


if __name__ == "__main__":
    sys.exit(main())
