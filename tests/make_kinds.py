"""One picture in every kind of file that spirerook-make reads."""

# how the names of those kinds begin that hold no colours
GREY = ("grey", "P1", "P2", "P4", "P5")

import make_kit
from make_kit import png


def flat(colour, alpha):
    """On white, to the nearest."""
    return tuple((value * alpha + 255 * (255 - alpha) + 127) // 255 for value in colour)


def to_octet(value, most):
    return (2 * value * 255 + most) // (2 * most)


def kinds():
    """(name, a picture, the same as a function to three octets) of all kinds of files, 19 by 11."""
    size = (19, 11)
    colours = [((k * 37) % 256, (k * 91) % 256, (k * 13) % 256) for k in range(256)]
    table = make_kit.chunk(b"PLTE", bytes(sum(colours, ())))
    holes = make_kit.chunk(b"tRNS", bytes((k * 50) % 256 for k in range(10)))
    for depth in (1, 2, 4, 8, 16):
        most = 2 ** depth - 1
        grey = lambda x, y, most=most: ((x * 7919 + y * 104729) * 31 % (most + 1),)
        due = lambda x, y, most=most, grey=grey: (to_octet(grey(x, y)[0], most),) * 3
        for inter in (False, True):
            yield "grey %d %s" % (depth, inter), png(*size, 0, depth, grey, b"", inter), due
        if depth < 16:
            yield ("palette %d" % depth, png(*size, 3, depth, grey, make_kit.chunk(
                b"PLTE", bytes(sum(colours[:2 ** depth], ())))),
                   lambda x, y, grey=grey: colours[grey(x, y)[0]])
    yield ("palette with holes", png(*size, 3, 8, lambda x, y: ((x + y) % 30,), table + holes),
           lambda x, y: flat(colours[(x + y) % 30],
                             (x + y) % 30 * 50 % 256 if (x + y) % 30 < 10 else 255))
    for depth in (2, 8, 16):     # one value stands for a hole
        hole, most = (1 << depth - 1) + 1, 2 ** depth - 1
        shade = lambda x, y, hole=hole: (hole if (x + y) % 3 else x % 2,)
        clear = lambda x, y, shade=shade, most=most: (
            (255,) * 3 if (x + y) % 3 else (to_octet(shade(x, y)[0], most),) * 3)
        yield ("grey %d with a hole" % depth, png(*size, 0, depth, shade, make_kit.chunk(
            b"tRNS", hole.to_bytes(2, "big"))), clear)
        if depth > 2:
            yield ("RGB %d with a hole" % depth, png(
                *size, 2, depth, lambda x, y, shade=shade: shade(x, y) * 3,
                make_kit.chunk(b"tRNS", hole.to_bytes(2, "big") * 3)), clear)
    for depth in (8, 16):
        most = 2 ** depth - 1
        full = lambda x, y, most=most: tuple((x * 977 + y * 7001 + k * 4099) * 17 % (most + 1)
                                             for k in range(4))
        octets = lambda x, y, most=most, full=full: [to_octet(v, most) for v in full(x, y)]
        yield ("RGB %d" % depth, png(*size, 2, depth, lambda x, y, full=full: full(x, y)[:3]),
               lambda x, y, octets=octets: octets(x, y)[:3])
        for inter in (False, True):
            yield ("RGBA %d %s" % (depth, inter), png(*size, 6, depth, full, b"", inter),
                   lambda x, y, octets=octets: flat(octets(x, y)[:3], octets(x, y)[3]))
        yield ("grey and alpha %d" % depth,
               png(*size, 4, depth, lambda x, y, full=full: full(x, y)[:2]),
               lambda x, y, octets=octets: flat([octets(x, y)[0]] * 3, octets(x, y)[1]))
    yield from pnm_kinds(size)


def pnm_kinds(size):
    """P1 to P5, and P6 with other highest values."""
    width, height = size
    places = [(x, y) for y in range(height) for x in range(width)]
    bit = lambda x, y: (x * 3 + y * 5) % 7 < 3
    plain = "".join("%d" % bit(*at) + ("\n" if at[0] == width - 1 else "") for at in places)
    due = lambda x, y: (0,) * 3 if bit(x, y) else (255,) * 3
    yield "P1", b"P1 # a comment\n# 9 9\n19\n11 " + plain.encode(), due
    yield "P4", make_kit.pbm([[int(bit(x, y)) for x in range(width)] for y in range(height)]), due
    for most in (1, 10, 255, 256, 1000, 65535):
        value = lambda x, y, k=0, most=most: (x * 7919 + y * 104729 + k * 41) * 31 % (most + 1)
        text = " ".join(str(value(*at)) for at in places)
        yield ("P2 %d" % most, b"P2 19 11 #\r\n%d\n%s" % (most, text.encode()),
               lambda x, y, value=value, most=most: (to_octet(value(x, y), most),) * 3)
        octets = b"".join(value(*at).to_bytes(1 + (most > 255), "big") for at in places)
        yield ("P5 %d" % most, b"P5 19 #\n#\n11\n%d\n%s" % (most, octets),
               lambda x, y, value=value, most=most: (to_octet(value(x, y), most),) * 3)
        triple = lambda x, y, value=value: [value(x, y, k) for k in range(3)]
        colour = lambda x, y, triple=triple, most=most: [to_octet(v, most) for v in triple(x, y)]
        text = "\n".join(str(v) for at in places for v in triple(*at))
        yield "P3 %d" % most, b"P3\t19 11 %d\r%s\n" % (most, text.encode()), colour
        octets = b"".join(v.to_bytes(1 + (most > 255), "big") for at in places for v in triple(*at))
        yield "P6 %d" % most, b"P6 19 11 %d\n%s" % (most, octets), colour
