"""Sheets and data for writing at random, and what a writer has to say to any of them.

The page due is put together here from the records by tests/page_making.py. What
a picture is, the reader of the reference says; what a sheet is, its judge:
both are held to tables of their own.
"""

import calls
import page_making
import page_random
import reference_run
import sheet_making
import sheet_random
from page_random import random_octets
from sheet_random import LISTED, whole_records

END = b"\xff\xd9\xff\xd9"
LONGEST = 16777215
STRIPE, LAYER, CODER, X, Y, WIDTH, HEIGHT, RESOLUTION = range(8)
COLOUR, START, LENGTH, GREY = slice(8, 11), 11, 12, 13


def rows_of(lines):
    """The numbers of each line of a listing."""
    return [[int(word) for word in line.split()] for line in lines.splitlines()]


def sheet_of(rows):
    """The sheet behind a listing."""
    return bytes(bytearray().join(
        sheet_making.record(*row[:8], row[COLOUR], *row[START:]) for row in rows))


def without_starts(rows):
    """What a page written and read again keeps: all but where coded data stand."""
    return [row[:START] + [0] + row[LENGTH:] for row in rows]


def page_of(rows, data):
    """The page due: coders used or 0, no optional segment, no padding."""
    masks = [row[CODER] for row in rows if row[LAYER] == 2]
    images = [row[CODER] for row in rows if row[LAYER] != 2]
    pieces = [page_making.start(mask=max(masks), image=max(images), main=rows[1][RESOLUTION],
                                width=rows[1][WIDTH])]
    for at in range(0, len(rows), 3):
        back, mask, fore = rows[at:at + 3]
        kind = sum(bit for bit, row in ((1, back), (2, mask), (4, fore)) if row[LENGTH])
        pieces.append(page_making.stripe(
            type=kind, colours=bytes(back[COLOUR] + fore[COLOUR]), x1=back[X], y1=back[Y],
            x3=fore[X], y3=fore[Y], height=mask[HEIGHT], mask=mask[LENGTH]))
        pieces += [data[row[START]:row[START] + row[LENGTH]] for row in (mask, back, fore)]
    return b"".join(pieces) + END


def one_picture(layer, picture, start, length):
    """The rows of a stripe with one image layer; `picture` is its width, height, resolution and
    whether it is grey."""
    rows = [[0, each, 0, 0, 0, 0, 0, 1200, each, 0, 0, 0, 0, 0] for each in (1, 2, 3)]
    rows[1][5:] = [9, 9, 1200, 0, 0, 0, 0, 0, 0]
    *box, grey = picture
    rows[layer - 1][2:8] = [1, 0, 0, *box]
    rows[layer - 1][START:] = [start, length, grey]
    return rows


# Random sheets that keep every rule, over data where the pieces stand in any
# order, with octets between them, and some are shared.

def laid_out(rng, page, rows):
    """The data of the records, moved."""
    data = random_octets(rng, rng.choice([0, 0, 3]))
    coded = [row for row in rows if row[LENGTH]]
    for row in rng.sample(coded, len(coded)):
        octets = page[row[START]:row[START] + row[LENGTH]]
        row[START] = len(data)
        data += octets + random_octets(rng, rng.choice([0, 0, 1, 5]))
    return data


def share(rng, rows, size):
    """Some records point at other records' data; a mask at any octets."""
    images = [row for row in rows if row[LAYER] != 2 and row[LENGTH]]
    for row in rows:
        if not row[LENGTH] or rng.random() < 0.7:
            continue
        if row[LAYER] == 2:
            row[START] = rng.randrange(size)
            row[LENGTH] = rng.randint(1, size - row[START])
        else:
            other = rng.choice(images)
            row[WIDTH:RESOLUTION + 1] = other[WIDTH:RESOLUTION + 1]
            row[START:] = other[START:]


def random_work(rng):
    """(rows, data) of a page that can be written."""
    page, lines = page_random.random_page(rng)
    rows = rows_of(lines)
    data = laid_out(rng, page, rows)
    if rng.random() < 0.5:
        share(rng, rows, len(data))
    return rows, data


# Damage.  Each takes the rows and the data and gives others; some leave them good.

def change_image(rng, rows, data):
    row = rng.choice(rows)
    field = rng.choice([X, Y, WIDTH, HEIGHT, RESOLUTION])
    row[field] = (rng.choice(LISTED) if field == RESOLUTION
                  else (row[field] + rng.choice([-1, 1, 256])) % 65536)
    return rows, data


def change_grey(rng, rows, data):
    """Octet 17 the other way, as it was before there were grey layers, or one that no record has."""
    row = rng.choice([row for row in rows if row[LENGTH] and row[LAYER] != 2] or rows)
    row[GREY] = rng.choice([1 - row[GREY] % 2, 1 - row[GREY] % 2, 0, 2])
    return rows, data


def change_coder(rng, rows, data):
    row = rng.choice([row for row in rows if row[LAYER] == 2])
    row[CODER] = rng.choice([1, 2, 4, 8, 16])
    return rows, data


def change_place(rng, rows, data):
    """A start or a length beside the right one, or at the data's end."""
    row = rng.choice(rows)
    field = rng.choice([START, LENGTH])
    row[field] = max(0, rng.choice([row[field] - 1, row[field] + 1, len(data) - row[LENGTH],
                                    len(data) - row[LENGTH] + 1, rng.randrange(2 ** 32)]))
    return rows, data


def add_layers(rng, rows, data):
    """Layers 4 and 5 behind some stripe."""
    stripe = rng.choice(rows)[STRIPE]
    main = rows[1][RESOLUTION]
    at = max(k for k, row in enumerate(rows) if row[STRIPE] == stripe) + 1
    top = rows[at - 1][LAYER]
    return rows[:at] + [[stripe, top + k, 0, 0, 0, 0, 0, main, 0, 0, 0, 0, 0, 0]
                        for k in (1, 2)] + rows[at:], data


def cut_data(rng, rows, data):
    return rows, data[:rng.choice([len(data) - 1, rng.randint(0, len(data)), 0])]


def change_data(rng, rows, data):
    return rows, page_random.damaged(rng, data)


CHANGES = [change_image, change_image, change_grey, change_coder, change_place, change_place,
           add_layers, cut_data, change_data, change_data, change_data]


def damaged_work(rng):
    """(sheet, data) after one to three changes."""
    rows, data = random_work(rng)
    if rng.random() < 0.15:
        return bytes(sheet_random.damaged(rng, bytearray(sheet_of(rows)))), data
    for _ in range(rng.choice([1, 1, 2, 3])):
        rows, data = rng.choice(CHANGES)(rng, rows, data)
    return sheet_of(rows), data


def faulty_layer(rng):
    """(sheet, data) of one image layer, which may be faulty; the record is what it was made as."""
    octets, *picture = page_random.faulty_picture(rng, 1200)
    before = rng.choice([b"", b"\xff"])
    return sheet_of(one_picture(rng.choice([1, 3]), picture, len(before), len(octets))), before + octets


# What a writer has to say.

def record_row(sheet, k):
    fields = ["stripe", "layer", "coder", "x", "y", "width", "height", "resolution",
              "octet14", "octet15", "octet16", "start", "length", "grey"]
    return [sheet_making.get(sheet, k, field) for field in fields]


def picture_page(main, octets):
    """A page whose background is these octets."""
    return page_making.start(main=main) + page_making.stripe(type=1) + octets + END


class Judge:
    """Answers due for any sheets and data, by the reference's judge and reader."""

    def __init__(self):
        self.judge = reference_run.build("reference_judge_plain",
                                         parts=reference_run.parts_of("judge"))
        self.reader = reference_run.build("reference_read_plain", parts=reference_run.parts_of("read"))

    def verdicts(self, works):
        """The answer and the page due to each (sheet, data), in any room."""
        judged = [answer for answer, _ in calls.ALL["judge"].answers(
            self.judge, [(sheet,) for sheet, _ in works])]
        rows = [[record_row(sheet, k) for k in range(whole_records(sheet))] for sheet, _ in works]
        asked = [(main_of(rows[k]), data[row[START]:row[START] + row[LENGTH]])
                 for k, (_, data) in enumerate(works) if judged[k].startswith("good")
                 for row in rows[k] if row[LAYER] in (1, 3)]
        lines = reference_run.read_many(
            self.reader, [(picture_page(*each), page_making.ROOM) for each in asked])
        found = {each: rows_of(text)[0] for each, text in zip(asked, lines) if text[:1].isdigit()}
        return [verdict(rows[k], data, found) if judged[k].startswith("good")
                else (judged[k], b"") for k, (_, data) in enumerate(works)]


def main_of(rows):
    return rows[1][RESOLUTION]


def verdict(rows, data, found):
    """Of a sheet that the judge accepts."""
    for k, row in enumerate(rows):
        if row[LAYER] > 3:
            return "refused 5 %d" % k, b""
    for k, row in enumerate(rows):
        if row[LENGTH] and row[START] + row[LENGTH] > len(data):
            return "refused 1 %d" % k, b""
        if row[LENGTH] and is_mismatch(rows, k, data, found):
            return "refused 16 %d" % k, b""
    if 26 + 39 * (len(rows) // 3) + sum(row[LENGTH] for row in rows) > LONGEST:
        return "refused 18 0", b""
    page = page_of(rows, data)
    return "done %d" % len(page), page


def is_mismatch(rows, k, data, found):
    row = rows[k]
    if row[LAYER] == 2:
        return any(each[LAYER] == 2 and each[LENGTH] and each[CODER] != row[CODER]
                   for each in rows[:k])
    picture = found.get((main_of(rows), data[row[START]:row[START] + row[LENGTH]]))
    same = (WIDTH, HEIGHT, RESOLUTION, LENGTH, GREY)
    return picture is None or any(picture[field] != row[field] for field in same)
