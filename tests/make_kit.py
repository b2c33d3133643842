"""Pictures for spirerook-make, its runs, and outside decoders of what it codes."""

import os
import re
import resource
import struct
import subprocess
import zlib

import reference_run

PROGRAM = os.environ.get("MAKE_PAGE") or os.path.join(reference_run.ROOT, "build", "spirerook-make")
NEEDS = ["fax2tiff:libtiff-tools", "tifftopnm:netpbm", "jbgtopbm85:jbigkit-bin",
         "jpgicc:liblcms2-utils", "djpeg:libjpeg-turbo-progs"]
CODERS = {"mh": 1, "mr": 2, "mmr": 4, "t85": 8}
SHOWN = {"mh": "MH", "mr": "MR", "mmr": "MMR", "t85": "T.85"}
ADAM7 = [(0, 0, 8, 8), (4, 0, 8, 8), (0, 4, 4, 8), (2, 0, 4, 4), (0, 2, 2, 4), (1, 0, 2, 2),
         (0, 1, 1, 2)]
CODES = r"""#include <stdio.h>
#include <jpeglib.h>
int main(void)
{
    static JSAMPLE samples[65500 * 3];
    JSAMPROW row = samples;
    struct jpeg_decompress_struct jpeg;
    struct jpeg_error_mgr errors;
    jpeg.err = jpeg_std_error(&errors);
    jpeg_create_decompress(&jpeg);
    jpeg_stdio_src(&jpeg, stdin);
    jpeg_read_header(&jpeg, TRUE);
    jpeg.jpeg_color_space = jpeg.out_color_space = jpeg.num_components == 1 ? JCS_GRAYSCALE : JCS_YCbCr;
    jpeg_start_decompress(&jpeg);
    while (jpeg.output_scanline < jpeg.output_height) {
        jpeg_read_scanlines(&jpeg, &row, 1);
        fwrite(samples, (size_t)jpeg.num_components, jpeg.output_width, stdout);
    }
    return errors.num_warnings != 0;
}
"""


def write(path, octets):
    with open(path, "wb") as file:
        file.write(octets if isinstance(octets, bytes) else octets.encode())
    return path


def read(path):
    with open(path, "rb") as file:
        return file.read()


# ---- pictures

def bits(rows):
    """The octets of rows of 0 and 1, 1 is black, each row filled up with 0."""
    octets = bytearray()
    for row in rows:
        room = (len(row) + 7) // 8
        octets += (int("".join(map(str, row)), 2) << room * 8 - len(row)).to_bytes(room, "big")
    return bytes(octets)


def strokes(width, height, slant=2):
    """A mask like handwriting."""
    return [[int((x + slant * y) % 23 < 3 and (x // 40 + y // 12) % 3 != 1) for x in range(width)]
            for y in range(height)]


def dots(width, height, rng):
    return [[rng.randrange(2) for _ in range(width)] for _ in range(height)]


def pbm(rows):
    return b"P4\n%d %d\n" % (len(rows[0]), len(rows)) + bits(rows)


def ppm(width, height, colour):
    """A P6 of a function from x, y to three octets."""
    return b"P6\n%d %d\n255\n" % (width, height) + bytes(
        value for y in range(height) for x in range(width) for value in colour(x, y))


def gradient(width, height):
    return lambda x, y: (40 + 160 * x // width, 60 + 130 * y // height, 90 + (x + y) % 60)


def chunk(name, body):
    return struct.pack(">I", len(body)) + name + body + struct.pack(">I", zlib.crc32(name + body))


def packed_row(depth, values):
    """Filter 0, and values of `depth` bits behind each other."""
    if depth == 16:
        return b"\0" + b"".join(struct.pack(">H", value) for value in values)
    text = "".join(format(value, "0%db" % depth) for value in values)
    text += "0" * (-len(text) % 8)
    return b"\0" + bytes(int(text[k:k + 8], 2) for k in range(0, len(text), 8))


def png(width, height, kind, depth, sample, more=b"", interlaced=False):
    """A PNG of a function from x, y to as many values as the kind has channels; `more` are chunks
    before the data."""
    passes = ADAM7 if interlaced else [(0, 0, 1, 1)]
    data = bytearray()
    for x0, y0, dx, dy in passes:
        for y in range(y0, height, dy):
            values = [value for x in range(x0, width, dx) for value in sample(x, y)]
            data += packed_row(depth, values) if values else b""
    head = struct.pack(">IIBBBBB", width, height, depth, kind, 0, 0, int(interlaced))
    return (b"\x89PNG\r\n\x1a\n" + chunk(b"IHDR", head) + more
            + chunk(b"IDAT", zlib.compress(bytes(data))) + chunk(b"IEND", b""))


# ---- runs

def run(folder, *words, program=PROGRAM, seconds=60, limits=(), start=None, **kept):
    """(status, standard output, standard error) of a run in the folder."""
    def limit():
        if start:
            start()
        for what, most in limits:
            resource.setrlimit(what, (most, most))
    done = subprocess.run([program, *words], cwd=folder, check=False, stderr=subprocess.PIPE,
                          stdout=kept.pop("stdout", subprocess.PIPE), timeout=seconds,
                          preexec_fn=limit if limits or start else None, **kept)
    return (done.returncode, (done.stdout or b"").decode("utf-8", "replace"),
            done.stderr.decode("utf-8", "replace"))


def make(folder, plan, *words, name="p.plan", **kept):
    """A run over a plan's text."""
    write(os.path.join(folder, name), plan)
    return run(folder, name, "-o", "p.page", *words, **kept)


# ---- outside decoders

def outside(words, octets=b""):
    """What a program writes; nothing where it fails."""
    done = subprocess.run(words, check=False, input=octets, stdout=subprocess.PIPE,
                          stderr=subprocess.DEVNULL)
    return done.stdout if done.returncode == 0 else b""


def rows_of_pbm(octets, height):
    """The octets of the first rows of a P4; none of anything else."""
    head = re.match(rb"P4\s+(\d+)\s+\d+\s", octets)
    if head is None:
        return b""
    room = (int(head[1]) + 7) // 8
    return octets[head.end():head.end() + room * height]


def decoded_mask(folder, coder, octets, width, height):
    """A mask's rows, by a program that is not ours."""
    raw, tiff = (write(os.path.join(folder, "layer.raw"), octets),
                 os.path.join(folder, "layer.tif"))
    if coder == "t85":
        return rows_of_pbm(outside(["jbgtopbm85", raw]), height)
    how = {"mh": ["-3", "-1"], "mr": ["-3", "-2"], "mmr": ["-4"]}[coder]
    outside(["fax2tiff", "-M", *how, "-X", str(width), "-o", tiff, raw])
    return rows_of_pbm(outside(["tifftopnm", tiff]), height)


def decoded_image(folder, octets):
    """The sRGB octets of a Lab JPEG, by Little CMS and djpeg."""
    names = [os.path.join(folder, name) for name in ("layer.jpg", "srgb.jpg")]
    write(names[0], octets)
    outside(["jpgicc", "-q100", *names])
    octets = outside(["djpeg", "-ppm", names[1]])
    head = re.match(rb"P6\s+\d+\s+\d+\s+255\s", octets)
    return octets[head.end():] if head else b""


def codes(folder, octets):
    """The samples of a JPEG as they stand, by libjpeg: three octets each, or one."""
    program = os.path.join(folder, "codes")
    if not os.path.exists(program):
        subprocess.run(["cc", "-x", "c", "-", "-o", program, "-ljpeg"], check=True,
                       input=CODES.encode())
    return outside([program], octets)


def error(one, other):
    """The root of the mean square difference; a high one where lengths differ."""
    if len(one) != len(other):
        return 1000.0
    return (sum((a - b) ** 2 for a, b in zip(one, other)) / len(one)) ** 0.5
