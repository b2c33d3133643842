"""Coded layers written bit by bit: so large, or of so many scans, that a coder would take too long.

Each is plain: white masks, a grey JPEG. That decoders take them as good is tested too.
"""

import page_making


def bits_as_octets(bits, fill):
    """Text of 0 and 1 as octets, filled up at the end."""
    bits += fill * (-len(bits) % 8)
    return int(bits, 2).to_bytes(len(bits) // 8, "big")


def white_mmr(height):
    """T.6: a white row is like the white one before it, one bit (V0); then the end mark."""
    return bits_as_octets("1" * height + "000000000001" * 2, "0")


def white_t85(width, height):
    """T.85: an arithmetic coder that never meets a black pixel sends nothing at all."""
    head = bytes([0, 0, 1, 0]) + page_making.big(width, 4) + page_making.big(height, 4)
    head += page_making.big(height, 4) + bytes([0, 0, 0, 0])   # one stripe; no typical prediction
    return head + b"\xff\x02"


def huffman_table(kind, symbols):
    """Codes 0, 10, 110 .. for the symbols; the one of ones alone is left free."""
    counts = bytes(1 if k < len(symbols) else 0 for k in range(16))
    body = bytes([kind]) + counts + bytes(symbols)
    return b"\xff\xc4" + page_making.big(len(body) + 2, 2) + body


def scan(first, high, low, data):
    """One component's scan of one coefficient, from bit `high` to `low`."""
    return (b"\xff\xda\0\x08\x01\x01\0" + bytes([first, first, high << 4 | low])
            + data.replace(b"\xff", b"\xff\0"))


def end_of_band(blocks):
    """Nothing but zeros in so many blocks: runs of 32767, then one of the rest."""
    runs, rest = divmod(blocks, 32767)
    size = max(rest.bit_length() - 1, 0)
    bits = ("0" + "1" * 14) * runs                           # E0: 16384 and 14 bits more
    if rest:
        bits += "10" + (bin(rest)[3:] if size else "")       # 10 stands for the rest's symbol
    return bits_as_octets(bits, "1"), bytes([0xE0, size << 4])


def grey_jpeg(scans, width, height, resolution):
    """A progressive JPEG of lightness 128 all over, all bits sent, in 64 scans or more."""
    blocks = (width + 7) // 8 * ((height + 7) // 8)
    data, symbols = end_of_band(blocks)
    octets = b"\xff\xd8" + page_making.fax(resolution)
    octets += b"\xff\xdb\0\x43\0" + b"\x01" * 64
    octets += b"\xff\xc2\0\x0b\x08" + page_making.big(height, 2) + page_making.big(width, 2)
    octets += b"\x01\x01\x11\0" + huffman_table(0, b"\0") + huffman_table(0x10, symbols)
    octets += scan(0, 0, 0, bits_as_octets("0" * blocks, "1"))
    left = scans - 64
    for coefficient in range(1, 64):
        deep = min(left, 10)
        left -= deep
        for bit in range(deep, -1, -1):
            octets += scan(coefficient, 0 if bit == deep else bit + 1, bit, data)
    return octets + b"\xff\xd9"


# Pages of them

def jpeg_page(*jpegs, main=1200, width=60, height=40):
    """A stripe of background for each."""
    page = page_making.start(main=main, width=width)
    for jpeg in jpegs:
        page += page_making.stripe(type=1, x1=0, y1=0, height=height) + jpeg
    return page + b"\xff\xd9\xff\xd9"


def mask_page(coder, *masks, width, height):
    """A stripe with only a mask for each."""
    page = page_making.start(mask=coder, width=width)
    for mask in masks:
        page += page_making.stripe(type=2, height=height, mask=len(mask)) + mask
    return page + b"\xff\xd9\xff\xd9"
