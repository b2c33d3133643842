"""Makes the coded layers of this folder again: pictures by a formula, coded by outside programs.

Other versions of those programs may give other octets: README.md says which ones were
used, and its table has to be brought up to date with the files.
"""

import os
import subprocess
import tempfile

HERE = os.path.dirname(os.path.abspath(__file__))
NEEDS = ["cjpeg:libjpeg-turbo-progs", "jpegtran:libjpeg-turbo-progs", "pamtotiff:netpbm",
         "tiffcp:libtiff-tools", "pbmtojbg85:jbigkit-bin", "jpgicc:liblcms2-utils",
         "jpeglib.h:libjpeg62-turbo-dev"]


def run(words, octets=b""):
    return subprocess.run(words, input=octets, stdout=subprocess.PIPE, check=True).stdout


def noise(x, y, k):
    return (x * 7919 + y * 104729 + k * 1299709 + x * y * 31) // 7 % 256


def picture(width, height, rough):
    """CIELAB codes: a soft gradient, or one where each sample differs from the next."""
    samples = bytearray()
    for y in range(height):
        for x in range(width):
            soft = (255 * x // width, 108 + 40 * y // height, 76 + 40 * (x + y) // (width + height))
            samples += bytes(noise(x, y, k) if rough else soft[k] for k in range(3))
    return b"P6 %d %d 255\n" % (width, height) + samples


def grey(width, height):
    return b"P5 %d %d 255\n" % (width, height) + bytes(
        (x * x + y * y) // 16 % 256 for y in range(height) for x in range(width))


def strokes(width, height):
    """A mask like handwriting: slanted strokes of black with gaps, as a PBM."""
    rows = bytearray()
    for y in range(height):
        bits = "".join("1" if (x + 2 * y) % 23 < 3 and (x // 40 + y // 12) % 3 else "0"
                       for x in range(width))
        rows += int(bits, 2).to_bytes(width // 8, "big")
    return b"P4 %d %d\n" % (width, height) + rows


def fax_strip(folder, pbm, scheme):
    """The octets of the one strip that libtiff codes."""
    plain, coded = os.path.join(folder, "plain.tif"), os.path.join(folder, "coded.tif")
    with open(plain, "wb") as file:
        file.write(run(["pamtotiff", "-none", "-miniswhite", "-indexbits=1"], pbm))
    run(["tiffcp", "-c", scheme, "-f", "msb2lsb", "-r", "100000", plain, coded])
    with open(coded, "rb") as file:
        octets = file.read()

    def number(at, size):
        return int.from_bytes(octets[at:at + size], "little")

    first = number(4, 4) + 2
    entries = range(first, first + 12 * number(first - 2, 2), 12)
    tags = {number(at, 2): number(at + 8, 4) for at in entries}
    return octets[tags[273]:tags[273] + tags[279]]   # StripOffsets, StripByteCounts


def t85(folder, pbm):
    names = [os.path.join(folder, name) for name in ("m.pbm", "m.jbg")]
    with open(names[0], "wb") as file:
        file.write(pbm)
    run(["pbmtojbg85", *names])
    with open(names[1], "rb") as file:
        return file.read()


def with_resolution(jpeg, resolution):
    """A JPEG file with a G3FAX0 segment put behind its FF D8."""
    segment = b"\xff\xe1\x00\x0cG3FAX\x00\x07\xca" + resolution.to_bytes(2, "big")
    return jpeg[:2] + segment + jpeg[2:]


def jpgicc(folder, jpeg):
    names = [os.path.join(folder, name) for name in ("rgb.jpg", "lab.jpg")]
    with open(names[0], "wb") as file:
        file.write(jpeg)
    run(["jpgicc", "-o*Lab", *names])
    with open(names[1], "rb") as file:
        return file.read()


def layers(folder):
    coder = os.path.join(folder, "lab_jpeg")
    run(["cc", "-O2", "-o", coder, os.path.join(HERE, "lab_jpeg.c"), "-ljpeg"])

    def lab(octets, *words):
        return run([coder, *words], octets)

    mask = strokes(208, 60)
    yield "mask.mh", fax_strip(folder, mask, "g3:1d")
    yield "mask.mr", fax_strip(folder, mask, "g3:2d")
    yield "mask.mmr", fax_strip(folder, mask, "g4")
    yield "mask.t85", t85(folder, mask)
    soft, rough = picture(96, 64, False), picture(72, 56, True)
    baseline = lab(soft, "200", "75")
    yield "baseline.jpg", baseline
    yield "progressive.jpg", lab(rough, "100", "60", "progressive")
    yield "restart.jpg", lab(rough, "400", "80", "restart")
    yield "dense.jpg", lab(picture(64, 40, True), "200", "100", "dense")
    yield "grey.jpg", lab(grey(50, 33), "200", "75", "grey")
    yield "half.jpg", lab(picture(97, 63, False), "100", "85", "half")
    yield "rewritten.jpg", run(["jpegtran", "-copy", "all", "-progressive"], baseline)
    cjpeg = ["cjpeg", "-quality", "70"]
    yield "cjpeg.jpg", with_resolution(run([*cjpeg, "-progressive", "-restart", "1"], rough), 300)
    yield "arithmetic.jpg", with_resolution(run([*cjpeg, "-arithmetic"], rough), 600)
    yield "jpgicc.jpg", jpgicc(folder, run(cjpeg, soft))


def main():
    subprocess.run(["bash", os.path.join(HERE, "..", "need"), *NEEDS], check=True)
    with tempfile.TemporaryDirectory() as folder:
        for name, octets in layers(folder):
            with open(os.path.join(HERE, name), "wb") as file:
                file.write(octets)
            print(name, len(octets), "octets")


if __name__ == "__main__":
    main()
