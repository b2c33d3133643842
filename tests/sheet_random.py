"""Random sheets: good ones by the paper's rules, and ways to damage them."""

from sheet_making import FIELDS, RECORD, get, put, record

LISTED = [100, 200, 300, 400, 600, 1200]
# "at least one of layers 1 to 3 is coded, and 1 and 3 are not both coded without 2"
CHOICES = [(1,), (2,), (3,), (1, 2), (2, 3), (1, 2, 3)]
TOP = 2 ** 32


def number(rng, low, high):
    """A number of a range, its ends more often than by chance."""
    if rng.random() < 0.25:
        return rng.choice([low, high])
    return rng.randint(low, high)


def heights(rng, stripes):
    """Stripe heights of 1 and more whose sum is at most 65,535, often exactly that."""
    free = 65535 - stripes
    if rng.random() < 0.6:
        free = rng.randint(0, free)
    cuts = sorted(rng.randint(0, free) for _ in range(stripes - 1))
    return [b - a + 1 for a, b in zip([0] + cuts, cuts + [free])]


def data(rng):
    """Start and length of coded data: the length not 0, the sum below 2^32."""
    length = rng.choice([1, 5, 255, 256, 65536, 2 ** 24, rng.randint(1, TOP - 1)])
    start = rng.choice([0, rng.randint(0, TOP - 1 - length), TOP - 1 - length])
    return start, length


def random_record(rng, page, stripe, layer, height, coded):
    """A record that keeps the rules on a page of this width and main resolution."""
    width, main = page
    even = layer % 2 == 0
    colour = (0, 0, 0) if even else [rng.randrange(256) for _ in range(3)]
    coder, start, length, grey = 0, 0, 0, 0
    if coded:
        coder = rng.choice([1, 2, 4, 8]) if even else 1
        start, length = data(rng)
        grey = 0 if even else rng.choice([0, 1])
    if layer == 2:
        return record(stripe, layer, coder, 0, 0, width, height, main, colour, start, length)
    if not coded:
        return record(stripe, layer, 0, 0, 0, 0, 0, main, colour, 0, 0)
    resolution = rng.choice([r for r in LISTED if main % r == 0])
    return record(stripe, layer, coder, number(rng, 0, 65535), number(rng, 0, 65535),
                  number(rng, 1, 65535), number(rng, 1, 65535), resolution, colour, start, length,
                  grey)


def good_sheet(rng, stripes=None, layers=None):
    """A sheet that keeps every rule."""
    page = (number(rng, 1, 32768), rng.choice(LISTED))
    if stripes is None:
        stripes = rng.choice([1, 1, 2, 2, 3, 4, 6]) if rng.random() < 0.97 else rng.choice([63, 64, 64])
    sheet = bytearray()
    for stripe, height in enumerate(heights(rng, stripes)):
        choice = rng.choice(CHOICES)
        count = layers or rng.choice([3, 3, 3, 3, 5, 5, 7, 9, 13, 15])
        for layer in range(1, count + 1):
            coded = layer in choice if layer <= 3 else rng.random() < 0.5
            sheet += random_record(rng, page, stripe, layer, height, coded)
    return sheet


# Values that stand at the edges of the rules, beside random ones.
EDGES = {
    "stripe": [0, 1, 2, 63, 64, 65, 256, 257],
    "layer": [0, 1, 2, 3, 4, 5, 14, 15, 16, 255],
    "coder": [0, 1, 2, 3, 4, 5, 6, 7, 8, 9, 16, 128],
    "x": [0, 1, 256],
    "y": [0, 1, 256],
    "width": [0, 1, 256, 32768, 32769, 65535],
    "height": [0, 1, 256, 65534, 65535],
    "resolution": LISTED + [0, 1, 50, 150, 500, 800, 2400],
    "start": [0, 1, 2 ** 24, TOP - 2, TOP - 1],
    "length": [0, 1, 2 ** 24, TOP - 1],
    "octet14": [0, 1], "octet15": [0, 1], "octet16": [0, 255],
    "octet17": [0, 1, 1, 2, 128], "octet26": [0, 1], "octet27": [0, 1, 255],
}


def whole_records(sheet):
    return len(sheet) // RECORD


def change_octet(rng, sheet):
    if sheet:
        sheet[rng.randrange(len(sheet))] = rng.randrange(256)
    return sheet


def change_field(rng, sheet):
    if whole_records(sheet):
        field = rng.choice(list(EDGES))
        size = FIELDS[field][1]
        value = rng.choice(EDGES[field] + [rng.randrange(256 ** size)])
        put(sheet, rng.randrange(whole_records(sheet)), field, value)
    return sheet


def step_field(rng, sheet):
    """One more or one less, where rules of order and sameness break."""
    if whole_records(sheet):
        at = rng.randrange(whole_records(sheet))
        field = rng.choice(["stripe", "layer", "coder", "coder", "width", "height", "start", "length"])
        size = FIELDS[field][1]
        put(sheet, at, field, (get(sheet, at, field) + rng.choice([-1, 1])) % 256 ** size)
    return sheet


def change_coded(rng, sheet):
    """Makes a record coded or uncoded by its own rules, which changes the choice."""
    if whole_records(sheet):
        at = rng.randrange(whole_records(sheet))
        stripe, layer = get(sheet, at, "stripe"), get(sheet, at, "layer")
        masks = [k for k in range(whole_records(sheet)) if get(sheet, k, "layer") == 2]
        if masks and get(sheet, masks[0], "resolution") in LISTED:
            page = (get(sheet, masks[0], "width"), get(sheet, masks[0], "resolution"))
            height = get(sheet, at, "height") if layer == 2 else 1
            coded = get(sheet, at, "length") == 0
            sheet[at * RECORD:(at + 1) * RECORD] = random_record(
                rng, page, stripe, layer, height, coded)
    return sheet


def change_grey(rng, sheet):
    """Octet 17 as a grey layer has it, in any record, or as none has it."""
    if whole_records(sheet):
        put(sheet, rng.randrange(whole_records(sheet)), "grey", rng.choice([1, 1, 1, 0, 2]))
    return sheet


def end_data(rng, sheet):
    """Data that ends just below 2^32, or at it, which is one too far."""
    coded = [k for k in range(whole_records(sheet)) if get(sheet, k, "length") > 1]
    if coded:
        at = rng.choice(coded)
        put(sheet, at, "start", TOP - get(sheet, at, "length") - rng.choice([0, 1]))
    return sheet


def change_resolution(rng, sheet):
    """Another listed resolution, where only divisors or sameness can break."""
    if whole_records(sheet):
        put(sheet, rng.randrange(whole_records(sheet)), "resolution", rng.choice(LISTED))
    return sheet


def next_stripe(sheet):
    """The records of the last stripe once more, as the stripe behind it."""
    last = get(sheet, whole_records(sheet) - 1, "stripe")
    for k in range(whole_records(sheet)):
        if get(sheet, k, "stripe") == last:
            sheet = sheet + sheet[k * RECORD:(k + 1) * RECORD]
            put(sheet, whole_records(sheet) - 1, "stripe", (last + 1) % 65536)
    return sheet


def next_layers(sheet):
    """The last two records once more, as the two layers above them."""
    for _ in range(2):
        sheet = sheet + sheet[-2 * RECORD:-RECORD]
        layer = get(sheet, whole_records(sheet) - 1, "layer")
        put(sheet, whole_records(sheet) - 1, "layer", (layer + 2) % 256)
    return sheet


def cut(rng, sheet):
    if rng.random() < 0.5:
        return sheet[:rng.randint(0, len(sheet))]
    return sheet[:rng.randint(0, whole_records(sheet)) * RECORD]


def double(rng, sheet):
    at = rng.randint(0, whole_records(sheet)) * RECORD
    return sheet[:at] + sheet[max(0, at - RECORD):]


def drop(rng, sheet):
    at = rng.randint(0, whole_records(sheet)) * RECORD
    return sheet[:at] + sheet[at + RECORD:]


def swap(rng, sheet):
    if whole_records(sheet):
        a = rng.randrange(whole_records(sheet)) * RECORD
        b = rng.randrange(whole_records(sheet)) * RECORD
        one, other = sheet[a:a + RECORD], sheet[b:b + RECORD]
        sheet[a:a + RECORD], sheet[b:b + RECORD] = other, one
    return sheet


def extend(rng, sheet):
    kind = rng.randrange(6)
    if kind == 0:
        return sheet + bytes(rng.choice([1, 27, 28, rng.randint(1, 60)]))
    if kind == 1:
        return sheet + bytes(rng.randrange(256) for _ in range(rng.randint(1, 60)))
    if kind == 2:
        return sheet + sheet
    if kind == 3:
        return sheet + good_sheet(rng)
    if whole_records(sheet) < 2 or len(sheet) % RECORD != 0:
        return sheet
    return next_stripe(sheet) if kind == 4 else next_layers(sheet)


CHANGES = [change_octet, change_octet, change_field, change_field, change_field, change_field,
           step_field, step_field, change_coded, change_coded, change_resolution,
           change_resolution, change_grey, change_grey, end_data, cut, double, drop, swap, extend,
           extend]


def damaged(rng, sheet):
    """The sheet after one to three changes; some leave it good."""
    if whole_records(sheet) > 150 and rng.random() < 0.5:
        return next_stripe(sheet)
    for _ in range(rng.choice([1, 1, 2, 3])):
        sheet = rng.choice(CHANGES)(rng, sheet)
    return sheet
