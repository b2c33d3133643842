"""Cases for all calls: good ones, damaged ones, random octets, and every length of small ones.

A case is what a driver of the call is given (tests/calls.py). The good ones and
most of the damage come from the generators that each call has for itself; here
they are mixed, cut, and changed octet by octet without regard to what they mean.
"""

import band_random
import calls
import data_random
import line_random
import page_making
import page_random
import sheet_random
import write_random
from sheet_making import record
from write_random import page_of, sheet_of

LONGEST = 16777215
MOST_ROOM = 20000
SMALL_BANDS = [(3, 4), (12, 5)]      # the widest and the highest
EDGES = [0, 1, 2, 3, 63, 64, 127, 128, 255, 256, 65535, 65536, 2 ** 31, 2 ** 32 - 1]


def some_room(rng, size):
    """A room around a size, most often enough."""
    return max(0, rng.choice([size, size, size, size, size + 1, size + 28, size + 200, size - 1,
                              size - 28, size // 2, 0, 1]))


# Good cases

def good_read(rng):
    page, lines = page_random.random_page(rng, stripes=rng.choice([1, 1, 2, 3]))
    return page, some_room(rng, 28 * len(lines.splitlines()))


def good_write(rng):
    rows, data = write_random.random_work(rng)
    return sheet_of(rows), data, some_room(rng, len(page_of(rows, data)))


def good_line(rng):
    work = line_random.Work(rng)
    return work.call(room=some_room(rng, 4 * work.named().width))


def good_band(rng):
    """Small ones most often: in a band every pixel takes its time."""
    work = band_random.Work(rng, band_random.SIZES if rng.random() < 0.15 else SMALL_BANDS)
    return work.call(room=some_room(rng, work.size()))


def good_data(rng):
    return data_random.Work(rng).call()


def good_judge(rng):
    """Of few stripes most often: the reference takes its time over many records."""
    stripes = rng.choice([1, 1, 2, 2, 3, 4, 6]) if rng.random() < 0.995 else rng.choice([63, 64])
    return (bytes(sheet_random.good_sheet(rng, stripes, None if stripes < 9 else 3)),)


def and_unseen(make):
    """The cases of a call's sibling, which is told the unseen colour behind all else."""
    return lambda rng: (*make(rng), *line_random.some_unseen(rng))


GOOD = {"read": good_read, "write": good_write, "line": good_line, "data": good_data,
        "judge": good_judge, "line_unseen": and_unseen(good_line), "band": good_band}


# Damaged cases

def damaged_read(rng):
    page, room = good_read(rng)
    return page_random.damaged(rng, page), rng.choice([page_making.ROOM, room])


# where the fields of the start of page stand, and of a stripe behind its ident
START_FIELDS = {"length": (4, 2), "ident": (9, 1), "version": (10, 1), "mode": (11, 1),
                "mask": (12, 1), "image": (13, 1), "main": (14, 2), "width": (16, 4)}
STRIPE_FIELDS = {"length": (-5, 2), "ident": (0, 1), "type": (1, 1), "height": (24, 4),
                 "mask": (28, 4)}


def faulty_field(rng):
    """A good page with another value in one of its fields."""
    page, room = good_read(rng)
    page, at, fields = bytearray(page), 0, START_FIELDS
    if rng.random() < 0.3:
        at, fields = page.index(b"MRC\1") + 3, STRIPE_FIELDS
    offset, size = rng.choice([*sorted(fields.values()), max(fields.values())])
    old = int.from_bytes(page[at + offset:at + offset + size], "big")
    new = rng.choice([old + 1, old - 1, 0, 1, 3, 5, 7, 16, 37, 50, 300, 32769, 65536, 2 ** 31])
    page[at + offset:at + offset + size] = (new % 256 ** size).to_bytes(size, "big")
    return bytes(page), room


def trailing(rng):
    """A good page with zeros behind it, and another octet."""
    page, room = good_read(rng)
    return page + bytes(rng.randrange(40)) + bytes([rng.randint(1, 255)]) + bytes(3), room


def added_layers(rng):
    """A sheet that keeps the rules and has layers above 3."""
    rows, data = write_random.random_work(rng)
    rows, data = write_random.add_layers(rng, rows, data)
    return sheet_of(rows), data, MOST_ROOM


def too_long(rng):
    """Masks that share their data, in sum longer than a page: (sheet, data)."""
    stripes = rng.choice([20, 64, 64, 64, 64])
    least = (LONGEST - 26 - 39 * stripes) // stripes + 1
    data = bytes(least + rng.choice([0, 1, 500]))
    rows = []
    for number in range(stripes):
        rows += [record(number, 1, 0, 0, 0, 0, 0, 200, (1, 2, 3), 0, 0),
                 record(number, 2, 4, 0, 0, 9, 9, 200, (0, 0, 0), 0, least),
                 record(number, 3, 0, 0, 0, 0, 0, 200, (4, 5, 6), 0, 0)]
    return bytes(bytearray().join(rows)), data


def damaged_write(rng):
    sheet, data = write_random.damaged_work(rng)
    return sheet, data, rng.choice([len(data) + 3000, len(data) + 3000, len(data), 30, 0])


def damaged_scene(rng, work, kind):
    """A line or a band with a fault in its plane list, or in its sheet."""
    if kind == 0:
        planes, samples = line_random.damaged_planes(rng, work)
        return work.call(planes=planes, samples=samples)
    sheet = bytes(sheet_random.damaged(rng, bytearray(work.sheet)))
    return work.call(sheet=sheet, room=rng.choice([4 * 32768, work.room]))


def damaged_line(rng):
    work = line_random.Work(rng)
    kind = rng.randrange(4)
    if kind < 2:
        return damaged_scene(rng, work, kind)
    if kind == 2:
        return work.call(stripe=rng.choice([work.number, len(work.stripes), rng.choice(EDGES)]),
                         line=rng.choice([work.named().height, rng.choice(EDGES)]))
    return mutated(rng, "line", work.call())


def damaged_band(rng):
    work = band_random.Work(rng, SMALL_BANDS)
    kind = rng.randrange(4)
    if kind < 2:
        return damaged_scene(rng, work, kind)
    if kind == 2:
        return work.call(stripe=rng.choice([len(work.stripes), rng.choice(EDGES)]))
    return mutated(rng, "band", work.call())


def damaged_data(rng):
    work = data_random.Work(rng)
    if rng.random() < 0.3:
        stripe, layer = work.beside(rng)
        return work.call(stripe=stripe, layer=layer)
    return data_random.damaged_call(rng, work)


def damaged_judge(rng):
    return (bytes(sheet_random.damaged(rng, bytearray(good_judge(rng)[0]))),)


DAMAGED = {"read": damaged_read, "write": damaged_write, "line": damaged_line,
           "data": damaged_data, "judge": damaged_judge, "line_unseen": and_unseen(damaged_line),
           "band": damaged_band}


# Changes without regard to meaning

def change_octet(rng, octets):
    at = rng.randrange(len(octets))
    octets[at] = rng.choice([rng.randrange(256), octets[at] ^ 1 << rng.randrange(8), 0, 255,
                             (octets[at] + 1) % 256, (octets[at] - 1) % 256])
    return octets


def change_number(rng, octets):
    size = rng.choice([2, 4])
    at = rng.randrange(len(octets))
    if at + size <= len(octets):
        old = int.from_bytes(octets[at:at + size], "big")
        new = rng.choice([old + 1, old - 1, *EDGES]) % 256 ** size
        octets[at:at + size] = new.to_bytes(size, "big")
    return octets


def cut(rng, octets):
    return octets[:rng.randrange(len(octets))]


def drop(rng, octets):
    at = rng.randrange(len(octets))
    return octets[:at] + octets[at + rng.choice([1, 2, 5, 28]):]


def double(rng, octets):
    at = rng.randrange(len(octets))
    return octets[:at + rng.choice([1, 2, 5, 28])] + octets[at:]


def insert(rng, octets):
    at = rng.randrange(len(octets))
    return octets[:at] + bytes(rng.choices([0, 1, 255, 0xD8, 0xD9], k=rng.choice([1, 2, 28]))) \
        + octets[at:]


CHANGES = [change_octet, change_octet, change_octet, change_number, change_number, cut, drop,
           double, insert]


def mutated(rng, name, case):
    """A case after one to four changes of its octets or its numbers."""
    call, case = calls.ALL[name], list(case)
    for _ in range(rng.choice([1, 1, 2, 4])):
        at = rng.randrange(len(case))
        if isinstance(case[at], int):
            case[at] = rng.choice([case[at] + 1, max(0, case[at] - 1), *EDGES]) % (
                256 if at in call.small else 2 ** 32)
        elif case[at]:
            case[at] = bytes(rng.choice(CHANGES)(rng, bytearray(case[at])))
    if call.room is not None:
        case[call.room] = min(case[call.room], MOST_ROOM)
    return tuple(case)


def random_octets(rng):
    size = rng.choice([0, 1, 5, 27, 28, 29, 84, rng.randint(0, 200), rng.randint(0, 200)])
    return bytes(rng.choices(rng.choice([range(256), [0, 1, 2], [0, 255, 0xD8, 0xD9, 0xED]]),
                             k=size))


def random_case(rng, case):
    """Random octets in place of some parts of a case, or of all."""
    often = rng.choice([0.4, 1])
    return tuple(random_octets(rng) if isinstance(part, bytes) and rng.random() < often else part
                 for part in case)


# Every length

def small(rng, name, most=400):
    """A good case of few octets."""
    while True:
        case = GOOD[name](rng)
        if sum(len(part) for part in case if isinstance(part, bytes)) <= most:
            return case


def every_length(call, case, size):
    """The case with each of its parts cut to every length, and every room up to some more than
    the `size` of its result; (what, case)s"""
    for at in call.octets:
        for length in range(len(case[at]) + 1):
            yield ("part %d of %d octets" % (at, length),
                   case[:at] + (case[at][:length],) + case[at + 1:])
    if call.room is not None:
        for room in range(size + 70):
            yield "room %d" % room, case[:call.room] + (room,) + case[call.room + 1:]
    nothing = tuple(b"" if isinstance(part, bytes) else 0 for part in case)
    yield "nothing", nothing
    for at in call.octets:
        yield "nothing but part %d" % at, nothing[:at] + (case[at],) + nothing[at + 1:]


def batches(call, rng, count, lengths):
    """(what, cases) of a call: `count` good ones and as many damaged, fewer changed without regard
    to meaning and random; `lengths` small ones at every length. A call that shares them has its
    part."""
    name, count = call.name, round(count * call.share)
    for k in range(lengths):
        case = small(rng, name)
        size = 28 * 3 if name == "read" else min(300, case[call.room] if call.room else 0)
        yield "length %d" % k, [each for _, each in every_length(call, case, size)]
    yield "good", [GOOD[name](rng) for _ in range(count)]
    yield "damaged", [DAMAGED[name](rng) for _ in range(count)]
    yield "changed", [mutated(rng, name, GOOD[name](rng)) for _ in range(count // 3)]
    yield "random", [random_case(rng, GOOD[name](rng)) for _ in range(count // 5)]
    if name == "write":
        yield "faulty layers", [(*write_random.faulty_layer(rng), MOST_ROOM)
                                for _ in range(count // 2)]
        yield "layers", [added_layers(rng) for _ in range(count // 12)]
        yield "too long", [(*too_long(rng), rng.choice([0, 100])) for _ in range(count // 20)]
    if name == "read":
        yield "faulty layers", [(page_random.faulty_layer(rng), page_making.ROOM)
                                for _ in range(count)]
        yield "fields", [faulty_field(rng) for _ in range(2 * count)]
        yield "trailing", [trailing(rng) for _ in range(count // 12)]
        # a few pages, which take their memory once, in many rooms
        pages = [bytes(LONGEST + 1), bytes(LONGEST + 2), good_read(rng)[0] + bytes(LONGEST)]
        yield "too long", [(rng.choice(pages), rng.randrange(page_making.ROOM))
                           for _ in range(count // 35)]
