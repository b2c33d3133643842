"""What holds between grey layers and coloured ones, of the reference and of the library, each by
itself (request 2026-07): a grey plane gives the line, or the band, that its expanded plane, of
(v, 128, 96) for each octet v, gives on the sheet with octet 17 cleared, and both are refused alike;
a sheet with octet 17 turned over is judged and handed out as before, and written no more.

SEED makes a run again; LIBRARY names another archive than build/libspirerook.a.
"""

import copy
import os
import random
import sys

import band_random
import calls
import counts
import line_random
import page_random
import reference_run
import sheet_making
import write_random
from band_making import as_band
from line_making import Stripe, entry, grey, with_unseen

SCENES = reference_run.trials(350)
PAGES = reference_run.trials(120)
KINDS = [line_random.Work, line_random.Work, band_random.Work]      # of scenes
BY_PARTS = {6: "line", 9: "line_unseen", 8: "band"}     # the call of a case, by its parts
# of a record; another width or height asks for other samples, which differ in size
FIELDS = [field for field in sheet_making.FIELDS
          if field not in ("width", "height", "grey", "octet17")
          and not (field.startswith("octet") and 8 <= int(field[5:]) < 12)]


# A scene, in grey and in colour

def packed(work, clear, order):
    """The scene with its planes one behind the other in this order; where it is to be clear, octet
    17 is 0 in all records, and a plane that was grey has three octets a sample."""
    other = copy.copy(work)
    other.stripes = copy.deepcopy(work.stripes)
    for fields in (each for stripe in other.stripes for each in stripe.layers.values()):
        fields["grey"] *= not clear
    other.sheet = b"".join(bytes(stripe.records(k)) for k, stripe in enumerate(other.stripes))
    other.planes, other.samples = {}, bytearray()
    for layer in order:
        at = work.planes[layer]
        octets = work.samples[at:at + line_random.layer_size(work.named(), layer)]
        if clear and work.named().layers[layer]["grey"]:
            octets = b"".join(map(grey, octets))
        other.planes[layer] = len(other.samples)
        other.samples += octets
    return other


def scene(rng):
    """Two works that show the same, the first with a grey layer in the stripe called for."""
    kind = rng.choice(KINDS)
    work = kind(rng)
    while not any(fields["grey"] for fields in work.named().layers.values()):
        work = kind(rng)
    if kind is line_random.Work:
        work.unseen = line_random.maybe_unseen(rng)
    order = rng.sample(sorted(work.planes), len(work.planes))
    return packed(work, False, order), packed(work, True, order)


def damage(rng, work):
    """A change that both of a scene take, or that is refused of both at the same place: what
    differs from the call of one of them."""
    stripe = work.named()
    never = [0, 16, *work.planes, *(layer for layer in stripe.layers if layer not in work.coded())]
    changes = [{"room": 4 * stripe.width - 1}, {"room": 0}, {"stripe": len(work.stripes)},
               {"line": stripe.height}, {"last": 1}, {"more": b"\1"},
               {"more": entry(rng.choice(never), 0)}]
    at, field = rng.randrange(len(work.sheet) // sheet_making.RECORD), rng.choice(FIELDS)
    value = rng.choice([0, 1, 3, 100, 300, rng.randrange(2 ** 32)])
    return rng.choice([*changes, *[{"field": (at, field, value)}] * 4])


def damaged(work, change):
    """The call of a work after a change."""
    (kind, value), = change.items()
    if kind == "last":
        return work.call(samples=bytes(work.samples[:-1]))
    if kind == "more":
        return work.call(planes=work.plane_octets() + value)
    if kind == "field":
        at, field, number = value
        sheet = bytearray(work.sheet)
        sheet_making.put(sheet, at, field, number % 256 ** sheet_making.FIELDS[field][1])
        return work.call(sheet=bytes(sheet))
    return work.call(**change)


def check_alike(tally, whom, what, greys, coloured):
    """The same answers to the cases of each list; answers their numbers."""
    what = "%s, %s" % (whom.told, what)
    due, got = whom.lines(coloured), whom.lines(greys)
    wrong = [k for k in range(len(due)) if due[k] != got[k]]
    for k in wrong[:5]:
        tally.check(False, "%s %d: %s" % (what, k, calls.difference(
            due[k], got[k], "of the expanded planes it", "of the grey ones")))
    tally.check(not wrong, "%s: %d of %d differ" % (what, len(wrong), len(due)))
    return [counts.number_of(answer) for answer, _ in due]


def check_scenes(tally, whom, scenes, changes):
    """A grey plane gives what its expanded plane gives."""
    numbers = check_alike(tally, whom, "scene", *([work.call() for work in works]
                                                  for works in zip(*scenes)))
    tally.check(set(numbers) == {0}, "scenes with the answers %s" % set(numbers))
    numbers = check_alike(tally, whom, "damaged scene", *(
        list(map(damaged, works, changes)) for works in zip(*scenes)))
    for number in (0, 13, 14, 15, 17):
        tally.check(numbers.count(number) >= SCENES // 30,
                    "only %d damaged scenes have the answer %d" % (numbers.count(number), number))


# Every lightness, in every image layer

def every_lightness(layer):
    """A line of 256 pixels that shows all lightness codes of one grey layer."""
    stripe = Stripe(256, 1, 15, 400)
    stripe.code(layer, width=256, height=1, grey=1)
    samples, planes = bytes(range(256)), entry(layer, 0)
    if layer > 3:
        stripe.code(1, width=1, height=1, x=256)
        stripe.code(layer - 1, width=256, height=1)
        planes, samples = entry(layer - 1, 256) + planes, samples + b"\1" * 256
    line = b"".join(grey(lightness) + b"\1" for lightness in range(256))
    return (bytes(stripe.records(0)), planes, samples, 1024, 0, 0), ("done 1024", line)


def check_lightness(tally, whom):
    for layer in range(1, 16, 2):
        case, due = every_lightness(layer)
        white = (255, 128, 96)
        for got in whom.lines([case, with_unseen(case, white), as_band(case, 1024, white)]):
            tally.check(got == due, "every lightness of layer %d: %s"
                        % (layer, calls.difference(due, got, "the paper", whom.told)))


# Octet 17 turned over

def turned_over(rng):
    """(sheet, the same with octet 17 of one image layer turned over, its record, page)"""
    coded = []
    while not coded:
        page, lines = page_random.random_page(rng, stripes=rng.choice([1, 1, 2, 3]))
        rows = write_random.rows_of(lines)
        coded = [k for k, row in enumerate(rows) if row[write_random.LAYER] != 2
                 and row[write_random.LENGTH]]
    sheet, number = write_random.sheet_of(rows), rng.choice(coded)
    other = bytearray(sheet)
    sheet_making.put(other, number, "grey", 1 - sheet_making.get(sheet, number, "grey"))
    return sheet, bytes(other), number, page


def check_turned(tally, whom, pages):
    """As sheets of before are: taken and handed out, but written no more."""
    def both(name, rests):
        """The answers of a call with either sheet, and behind it the rest of each case."""
        return [whom.answers(name, [(page[k], *rest) for page, rest in zip(pages, rests)])
                for k in (0, 1)]

    judged, turned = both("judge", [()] * len(pages))
    tally.check(judged == turned and all(answer.startswith("good") for answer, _ in judged),
                whom.told + ": a sheet with octet 17 turned over is not judged as before")
    handed, turned = both("data", [
        (page, b"", *(sheet_making.get(sheet, number, field) for field in ("stripe", "layer")))
        for sheet, _, number, page in pages])
    tally.check(handed == turned and all(answer.startswith("done") for answer, _ in handed),
                whom.told + ": coded data is not handed out as before")
    written, turned = both("write", [(page, len(page)) for *_, page in pages])
    for (*_, number, _), (answer, _), got in zip(pages, written, turned):
        tally.check(answer.startswith("done") and got == ("refused 16 %d" % number, b""),
                    "%s: %s, with octet 17 of record %d turned over %s"
                    % (whom.told, answer, number, got[0]))


class Asked:
    """The reference or the library: all calls of it that are asked here."""

    def __init__(self, told, programs):
        self.told, self.programs = told, programs

    def answers(self, name, cases):
        return calls.ALL[name].answers(self.programs[name], cases)

    def lines(self, cases):
        """Of lines and bands, each case by the call that it is for."""
        names = [BY_PARTS[len(case)] for case in cases]
        got = {name: iter(self.answers(name, [case for case, own in zip(cases, names)
                                              if own == name])) for name in set(names)}
        return [next(got[name]) for name in names]


def asked(tally):
    """The reference, and beside it the library, if there is one."""
    names = ("line", "line_unseen", "band", "judge", "data", "write")
    boths = {name: calls.Both(tally, calls.ALL[name]) for name in names}
    yield Asked("the reference", {name: both.reference for name, both in boths.items()})
    if all(both.library for both in boths.values()):
        yield Asked("the library", {name: both.library for name, both in boths.items()})


def main():
    seed = int(os.environ.get("SEED") or random.randrange(2 ** 32))
    print("SEED=%d" % seed)
    rng, tally = random.Random(seed), reference_run.Tally()
    scenes = [scene(rng) for _ in range(SCENES)]
    changes = [damage(rng, one) for one, _ in scenes]
    pages = [turned_over(rng) for _ in range(PAGES)]
    for each in asked(tally):
        check_scenes(tally, each, scenes, changes)
        check_lightness(tally, each)
        check_turned(tally, each, pages)
        print("%s: %d scenes in grey and in colour, as they are and damaged; %d sheets with octet "
              "17 turned over" % (each.told, len(scenes), len(pages)))
    return tally.end()


if __name__ == "__main__":
    sys.exit(main())
