"""Pages and pencil sheets for the tests of the viewer, their layers coded by outside programs from
samples that are kept: so what a decoder must find is known without one."""

import concurrent.futures
import hashlib
import os
import re
import resource
import struct
import subprocess
import sys
import tempfile
import time

import compiling
import page_making
import reference_run
import sheet_making
from view_reference import Layer

ROOT = reference_run.ROOT
OUTSIDE = os.path.join(ROOT, "tests", "outside")
VIEW = os.environ.get("VIEW") or os.path.join(ROOT, "build", "spirerook-view")
NEEDS = ["cc:gcc", "tiffcp:libtiff-tools", "pbmtojbg85:jbigkit-bin", "jpeglib.h:libjpeg62-turbo-dev",
         "djpeg:libjpeg-turbo-progs", "jpgicc:liblcms2-utils"]
RESOLUTIONS = (100, 200, 300, 400, 600, 1200)
MASK_CODERS = {1: "MH", 2: "MR", 4: "MMR", 8: "T.85"}
END = b"\xff\xd9\xff\xd9"
WHITE, BLACK = (255, 128, 96), (0, 128, 96)
SECONDS = 180        # by the clock; others may work on the machine
LIBRARIES = ("-ltiff", "-ljbig", "-ljpeg", "-lnettle", "-lz", "-lm")


def prepare(tally):
    """The viewer and the coders are there, or the test says what is missing."""
    needed = subprocess.run(["bash", os.path.join(ROOT, "tests", "need"), *NEEDS], check=False,
                            stdout=subprocess.PIPE).stdout.decode("utf-8", "replace")
    tally.check("could not install" not in needed, needed)
    tally.check(os.path.exists(VIEW), "no build/spirerook-view: make it first")
    return tally.failed == 0


def sources_of_viewer():
    """The files of the Makefile's VIEW, as it names them itself."""
    told = subprocess.run(["make", "-C", ROOT, "-pnq", "build/spirerook-view"], check=False,
                          stdout=subprocess.PIPE, stderr=subprocess.DEVNULL).stdout.decode()
    objects = re.search(r"^build/spirerook-view: (.*)$", told, re.M)[1].split()
    return [os.path.join(ROOT, name.replace("build/", "", 1)[:-2] + ".c")
            for name in objects if name.endswith(".o")]


def build_viewer(program, flags, more=(), libraries=LIBRARIES):
    """A viewer that is compiled otherwise, and with more files or other coders."""
    return compiling.link(program, [*sources_of_viewer(), *more, reference_run.archive()],
                          ("-std=c11", "-D_GNU_SOURCE", *flags),
                          (reference_run.HEADERS, os.path.join(ROOT, "host")), libraries)


class Coders:
    """Outside coders, with a folder for their files."""

    def __init__(self):
        self.kept = tempfile.TemporaryDirectory(prefix="view.")
        self.folder = self.kept.name
        self.lab_jpeg = self.path("lab_jpeg")
        subprocess.run(["cc", "-O2", "-o", self.lab_jpeg, os.path.join(OUTSIDE, "lab_jpeg.c"),
                        "-ljpeg"], check=True)

    def path(self, name):
        return os.path.join(self.folder, name)

    def run(self, words, octets=b""):
        return subprocess.run(words, input=octets, stdout=subprocess.PIPE,
                              stderr=subprocess.PIPE, check=True).stdout

    def mask(self, coder, rows):
        return self.t85(rows) if coder == 8 else self.fax(coder, rows)

    def fax(self, coder, rows):
        """The one strip that tiffcp codes."""
        scheme = {1: "g3:1d", 2: "g3:2d", 4: "g4"}[coder]
        plain, coded = self.path("plain.tif"), self.path("coded.tif")
        write(plain, plain_tiff(rows))
        self.run(["tiffcp", "-c", scheme, "-f", "msb2lsb", "-r", "100000", plain, coded])
        octets = read(coded)
        first = struct.unpack_from("<I", octets, 4)[0]
        tags = {}
        for k in range(struct.unpack_from("<H", octets, first)[0]):
            tag, kind, _, value = struct.unpack_from("<HHII", octets, first + 2 + 12 * k)
            tags[tag] = value & 0xFFFF if kind == 3 else value
        return octets[tags[273]:tags[273] + tags[279]]

    def t85(self, rows):
        plain, coded = self.path("m.pbm"), self.path("m.jbg")
        write(plain, b"P4 %d %d\n" % (len(rows[0]), len(rows)) + packed(rows))
        self.run(["pbmtojbg85", plain, coded])
        return read(coded)

    def jpeg(self, resolution, rows, *words, quality=100):
        """Of three components, or of one where the words have `grey`: the lightness alone."""
        kind, parts = (b"P5", 1) if "grey" in words else (b"P6", 3)
        head = b"%s %d %d 255\n" % (kind, len(rows[0]), len(rows))
        samples = b"".join(bytes(part for codes in row for part in codes[:parts]) for row in rows)
        return self.run([self.lab_jpeg, str(resolution), str(quality), *words], head + samples)

    def code(self, layer, coder, rows, x=0, y=0, words=()):
        """Fills a layer, whose resolution is set."""
        layer.coder, layer.rows, layer.x, layer.y = coder, rows, x, y
        layer.grey, layer.progressive = "grey" in words, "progressive" in words
        layer.width, layer.height = len(rows[0]), len(rows)
        layer.data = (self.mask(coder, rows) if layer.is_mask()
                      else self.jpeg(layer.resolution, rows, *words))
        return layer


def packed(rows):
    """Eight samples an octet, as PBM and TIFF have them."""
    size = (len(rows[0]) + 7) // 8
    return b"".join(int("".join(map(str, row)).ljust(8 * size, "0"), 2).to_bytes(size, "big")
                    for row in rows)


def plain_tiff(rows):
    """A bilevel TIFF of one strip, white is 0; the tags in order."""
    octets = packed(rows)
    tags = [(256, len(rows[0])), (257, len(rows)), (258, 1), (259, 1), (262, 0), (273, 8), (277, 1),
            (278, len(rows)), (279, len(octets))]
    entries = b"".join(struct.pack("<HHII", tag, 4, 1, value) for tag, value in tags)
    pad = b"\0" * (len(octets) % 2)
    return (b"II*\0" + struct.pack("<I", 8 + len(octets) + len(pad)) + octets + pad
            + struct.pack("<H", len(tags)) + entries + bytes(4))


class Page:
    """A page's header, and stripes of layers: three each, or more with a pencil sheet."""

    def __init__(self, width, main, mask_coder):
        self.width, self.main, self.mask_coder = width, main, mask_coder
        self.stripes, self.heights = [], []

    def add(self, layers, height):
        self.stripes.append(layers)
        self.heights.append(height)
        return self

    def has_pencil(self):
        return any(len(layers) > 3 for layers in self.stripes)

    def coded(self):
        """(stripe, layer) of each coded layer."""
        return [(stripe, layer) for stripe, layers in enumerate(self.stripes) for layer in layers
                if layer.is_coded()]

    def samples(self, stripe):
        """Octets of the samples of a stripe's layers that are read."""
        return sum(layer.width * layer.height * (1 if layer.is_mask() or layer.grey else 3)
                   for layer in self.stripes[stripe] if layer.is_coded() and not layer.unread)

    def band(self, stripe):
        """Octets of a stripe's band."""
        return 4 * self.width * self.heights[stripe]

    def least_memory(self):
        """What the samples of each stripe fit into, the pencil file, after octets() has been asked, and
        each decoder; most bands do not."""
        decoders = [decoder_memory(layer) for _, layer in self.coded() if not layer.unread]
        return max(len(self.sheet_and_pencil()[1]), *map(self.samples, range(len(self.stripes))), *decoders, 1)

    def octets(self, image_coder=1):
        """The page; the place of each coded layer's data is kept for the sheet."""
        octets = bytearray(page_making.start(mask=self.mask_coder, image=image_coder,
                                             main=self.main, width=self.width))
        self.places = {}
        for number, (layers, height) in enumerate(zip(self.stripes, self.heights)):
            back, mask, fore = layers[:3]
            kind = sum(bit for bit, layer in ((1, back), (2, mask), (4, fore)) if layer.is_coded())
            octets += page_making.stripe(
                type=kind, x1=back.x, y1=back.y, x3=fore.x, y3=fore.y, height=height,
                mask=len(mask.data), colours=bytes(back.base + fore.base))
            for layer in (mask, back, fore):
                self.places[number, layer.number] = len(octets) if layer.is_coded() else 0
                octets += layer.data
        return bytes(octets + END)

    def sheet_and_pencil(self):
        """The records of all layers, after octets() has been asked; and the pencil file."""
        sheet, pencil = bytearray(), bytearray(b"pencil")
        for number, (layers, height) in enumerate(zip(self.stripes, self.heights)):
            for layer in layers:
                start = self.places.get((number, layer.number), 0)
                if layer.number > 3 and layer.is_coded():
                    start = len(pencil)
                    pencil += layer.data
                size = ((self.width, height) if layer.number == 2
                        else (layer.width, layer.height))
                sheet += sheet_making.record(
                    number, layer.number, layer.coder, layer.x, layer.y, *size,
                    layer.resolution if layer.is_coded() else self.main, layer.base, start,
                    len(layer.data))
                sheet_making.put(sheet, len(sheet) // 28 - 1, "octet17", int(layer.grey))
        return bytes(sheet), bytes(pencil)


def three(main, back=WHITE, fore=BLACK):
    """The layers 1 to 3 of a stripe, none coded yet."""
    return [Layer(1, back, main), Layer(2, (0, 0, 0), main), Layer(3, fore, main)]


# Random samples

def random_mask(rng, width, height):
    kind = rng.random()
    if kind < 0.1:
        return [[rng.randrange(2)] * width] * height
    if kind < 0.3:
        return [[rng.randrange(2) for _ in range(width)] for _ in range(height)]
    slant, gap, thick = rng.randrange(4), rng.randrange(3, 30), rng.randrange(1, 12)
    return [[int((x + slant * y) % gap < thick and (x // 17 + y // 5) % 3 > 0)
             for x in range(width)] for y in range(height)]


def random_colour(rng, few):
    """Often one of a few, so that layers agree by chance."""
    return rng.choice(few) if rng.random() < 0.5 else tuple(rng.randrange(256) for _ in range(3))


def random_grey(rng, few):
    return (random_colour(rng, few)[0], 128, 96)


def random_image(rng, width, height, few, colour=random_colour):
    """Constant over each block of eight by eight, which JPEG of quality 100 keeps exactly."""
    across = (width + 7) // 8
    rows = []
    for y in range(height):
        if y % 8 == 0:
            blocks = [colour(rng, few) for _ in range(across)]
            row = [codes for codes in blocks for _ in range(8)][:width]
        rows.append(row)
    return rows


def random_place(rng, extent, k):
    """An offset and a number of samples: inside, over the edge, beyond it, or all over it."""
    samples = max(1, extent // k)
    kind = rng.random()
    if kind < 0.15:
        return extent + rng.randrange(20), rng.randrange(1, samples + 1)
    if kind < 0.3:
        return 0, samples + rng.randrange(4)
    return rng.randrange(extent), rng.randrange(1, samples + 1)


def random_layer(rng, coders, layer, page, height, few):
    """Codes a layer other than the main mask, of any dividing resolution."""
    layer.resolution = rng.choice([r for r in RESOLUTIONS if page.main % r == 0])
    k = page.main // layer.resolution
    x, width = random_place(rng, page.width, k)
    y, rows = random_place(rng, height, k)
    if layer.is_mask():
        return coders.code(layer, rng.choice(list(MASK_CODERS)), random_mask(rng, width, rows), x, y)
    words = rng.choice([(), ("progressive",), ("restart",), ("dense",)])
    if rng.random() < 0.4:
        return coders.code(layer, 1, random_image(rng, width, rows, few, random_grey), x, y,
                           (*words, "grey"))
    return coders.code(layer, 1, random_image(rng, width, rows, few), x, y, words)


def random_stripe(rng, coders, page, height, kind, most_layers):
    few = [WHITE, BLACK, (120, 60, 200), (200, 200, 30)]
    layers = three(page.main, random_colour(rng, few), random_colour(rng, few))
    if kind & 2:
        coders.code(layers[1], page.mask_coder, random_mask(rng, page.width, height))
    for bit, layer in ((1, layers[0]), (4, layers[2])):
        if kind & bit:
            random_layer(rng, coders, layer, page, height, few)
    for number in range(4, most_layers + 1):
        base = (0, 0, 0) if number % 2 == 0 else random_colour(rng, few)
        layers.append(Layer(number, base, page.main))
        if rng.random() < (0.9 if number % 2 == 0 else 0.5):
            random_layer(rng, coders, layers[-1], page, height, few)
    return layers


def random_page(rng, coders, pencil, stripes=None):
    page = Page(rng.randrange(40, 301), rng.choice(RESOLUTIONS), rng.choice(list(MASK_CODERS)))
    for _ in range(stripes or rng.randrange(1, 7)):
        height = rng.randrange(1, 40 if stripes is None else 6)
        most = rng.choice((3, 5, 7, 9, 15)) if pencil else 3
        kind = rng.choice((1, 2, 3, 4, 6, 7))
        page.add(random_stripe(rng, coders, page, height, kind, most), height)
    return page


def decoder_memory(layer):
    """More than libjpeg takes for a layer, where it can be more than the samples: of a progressive one it
    holds all coefficients, two octets each of whole blocks. Five rows of blocks it holds whatever is
    allowed, and of other layers never more."""
    if not layer.progressive or layer.height <= 40:
        return 0
    across, down = (-(-side // 8) * 8 for side in (layer.width, layer.height))
    return 65536 + 2 * across * down * (1 if layer.grey else 3)


# Running the viewer

def write(path, octets):
    with open(path, "wb") as file:
        file.write(octets)


def read(path):
    with open(path, "rb") as file:
        return file.read()


def side(*files):
    """A side file's text, as sha256sum has it, for (name, octets) of page, sheet and pencil file."""
    return b"".join(b"%s  %s\n" % (hashlib.sha256(octets).hexdigest().encode(), name.encode())
                    for name, octets in files)


def write_side(page, sheet, pencil):
    """The side file of a sheet, for these files of its folder as they stand."""
    write(sheet + ".sha256", side(*((os.path.basename(name), read(name))
                                    for name in (page, sheet, pencil))))


class Shown:
    """A run of the viewer: its status, what it told, and the picture's octets or None."""

    def __init__(self, words, out=None, view=VIEW, seconds=SECONDS, **settings):
        try:
            done = subprocess.run([view, *words], stdout=subprocess.PIPE, stderr=subprocess.PIPE,
                                  timeout=seconds, check=False, stdin=subprocess.DEVNULL, **settings)
            self.status, told, wrong = done.returncode, done.stdout, done.stderr
        except subprocess.TimeoutExpired:
            self.status, told, wrong = "no end after %d seconds" % seconds, b"", b""
        self.told, self.wrong = told.decode("utf-8", "replace"), wrong.decode("utf-8", "replace")
        self.out = read(out) if out and os.path.exists(out) else None

    def last_line(self):
        """The cells of the page's line, or None."""
        found = re.findall(r": (\d+) by (\d+) pixels, (?:(\d+) of (\d+) unseen(?:, drawn as ([^;]+))?|all seen)"
                           r"; (?:no pencil given|pencil[ :].*)\n\Z", self.told, re.M)
        return found[0] if len(found) == 1 else None

    def unseen(self):
        """(unseen, all) of that line, or None."""
        if self.last_line() is None:
            return None
        width, height, unseen, all_pixels = (int(cell or 0) for cell in self.last_line()[:4])
        return (unseen, all_pixels) if unseen else (0, width * height)

    def drawn(self):
        """What it tells unseen to be drawn as; None where all is seen, or nothing is drawn."""
        return self.last_line() and self.last_line()[4] or None

    def bands(self):
        """(stripes composed as bands, all stripes) as --times tells them, or None."""
        found = re.findall(r"^composed as bands: (\d+) of (\d+) stripes$", self.told, re.M)
        return tuple(map(int, found[0])) if len(found) == 1 else None

    def is_read(self, stripe, layer):
        """Whether a layer's line ends with `read`; None if there is not one line for it."""
        lines = re.findall(r"^\S+: stripe %d, layer %d: (.*)$" % (stripe, layer), self.told, re.M)
        return lines[0].endswith(": read") if len(lines) == 1 else None


def bounded(kind, bound):
    return lambda: resource.setrlimit(kind, (bound, bound))


def used_by(words, seconds=SECONDS):
    """(status, what was told, seconds by the clock, what the system counted) of a run."""
    with tempfile.TemporaryFile() as told:
        began = time.monotonic()
        run = subprocess.Popen([VIEW, *words], stdout=told, stderr=subprocess.STDOUT)
        watch = concurrent.futures.ThreadPoolExecutor(1)
        ended = watch.submit(os.wait4, run.pid, 0)
        try:
            _, status, used = ended.result(seconds)
        except concurrent.futures.TimeoutError:
            run.kill()
            _, status, used = ended.result()
        spent = time.monotonic() - began
        run.returncode = os.waitstatus_to_exitcode(status)
        told.seek(0)
        return run.returncode, told.read().decode("utf-8", "replace"), spent, used


def children(pid):
    try:
        with open("/proc/%d/task/%d/children" % (pid, pid), encoding="ascii") as file:
            return [int(word) for word in file.read().split()]
    except OSError:
        return []


def is_alive(pid):
    try:
        with open("/proc/%d/stat" % pid, encoding="ascii") as file:
            return file.read().rpartition(")")[2].split()[0] != "Z"
    except OSError:
        return False


def seed_of_run():
    seed = int(os.environ.get("SEED") or int.from_bytes(os.urandom(4), "big"))
    print("SEED=%d" % seed)
    sys.stdout.flush()
    return seed
