"""The demo, and its page beside netpbm's composition of the same drawings.

`make demo`'s script is run; then each stripe is composed by pamcomp from the pictures that
examples/promptbook/render drew, as page.plan has them, and compared with what the viewer showed: images
went through JPEG, so they are near, not the same. The grey layer is seen in its colours. The pages with a layer unread must be the whole page
but for the pattern, and nothing but the layer's own area may have it.
"""

import os
import re
import shlex
import subprocess
import sys
import tempfile

import reference_run

OUT = os.path.join(reference_run.ROOT, "build", "demo")
LAYERS = os.path.join(OUT, "layers")
NEAR = 36.0        # decibels: JPEG's own error; a stroke that is wrong costs more
MAGENTA, GREEN = bytes([255, 0, 255]), bytes([0, 255, 0])


def run(words, octets=b""):
    with reference_run.as_input(octets) as given:
        done = subprocess.run(words, stdin=given, cwd=LAYERS, check=False, stdout=subprocess.PIPE, stderr=subprocess.PIPE)
    if done.returncode:
        raise RuntimeError("%s: %s" % (words, done.stderr.decode("utf-8", "replace")[-300:]))
    return done.stdout


def read_plan(name):
    """The plan's stripes, each a list of (kind, file, options)."""
    stripes, main = [], 0
    with open(os.path.join(LAYERS, name), encoding="utf-8") as file:
        for line in file:
            words = shlex.split(line, comments=True)
            if words[:1] == ["resolution"]:
                main = int(words[1])
            elif words == ["stripe"]:
                stripes.append([])
            elif words and stripes:
                stripes[-1].append(words)
    return main, stripes


def option(words, name, count, default):
    return words[words.index(name) + 1:words.index(name) + 1 + count] if name in words else default


class Stripe:
    """A stripe composed by pamcomp; files hold what it works on."""

    def __init__(self, folder, main, lines):
        self.folder, self.main, self.lines = folder, main, lines
        mask = next((words[1] for words in lines if words[0] == "mask" and words[1] != "none"), None)
        size = run(["pamfile", "-size", mask]).split() if mask else [b"2336", option(
            next(words for words in lines if words[0] == "height"), "height", 1, None)[0].encode()]
        self.width, self.height = (int(each) for each in size)

    def enlarged(self, words):
        k = self.main // int(option(words, "resolution", 1, [self.main])[0])
        with open(os.path.join(LAYERS, words[1]), "rb") as file:
            octets = file.read()
        return run(["pamenlarge", str(k)], octets) if k > 1 else octets

    def spread(self, words, ground, name):
        """A layer's picture over the whole stripe, the ground where it is not."""
        canvas = os.path.join(self.folder, "canvas")
        with open(canvas, "wb") as file:
            file.write(run(["ppmmake", ground, str(self.width), str(self.height)]))
        path = os.path.join(self.folder, name)
        with open(path, "wb") as file:
            if words is None or words[1] == "none":
                file.write(run(["ppmmake", ground, str(self.width), str(self.height)]))
            else:
                x, y = option(words, "at", 2, ["0", "0"])
                picture = os.path.join(self.folder, "picture")
                with open(picture, "wb") as part:
                    part.write(self.enlarged(words))
                file.write(run(["pamcomp", "-xoff=" + x, "-yoff=" + y, picture, canvas]))
        return path

    def image(self, words, default):
        base = "#" + option(words or [], "base", 1, [default])[0]
        return self.spread(words, base, "image")

    def mask(self, words):
        """As an alpha mask: white where the mask is black."""
        path = self.spread(words, "white", "mask")
        with open(path, "rb") as file:
            alpha = run(["pnminvert"], run(["ppmtopgm"], file.read()))
        with open(path, "wb") as file:
            file.write(alpha)
        return path

    def compose(self):
        kinds = {words[0]: words for words in self.lines}
        with open(self.image(kinds.get("background"), "ffffff"), "rb") as file:
            now = file.read()
        masks = [kinds.get("mask")] + [words for words in self.lines if words[0] == "pencil-mask"]
        images = [kinds.get("foreground")] + [words for words in self.lines if words[0] == "pencil-image"]
        for mask, image in zip(masks, images):
            if mask is not None and mask[1] != "none":
                alpha, over = self.mask(mask), self.image(image, "000000")
                now = run(["pamcomp", "-alpha=" + alpha, over, "-"], now)
        return now


def composed(plan):
    """The page as a file's name, its stripes one under the other."""
    main, stripes = read_plan(plan)
    with tempfile.TemporaryDirectory() as folder:
        names = []
        for k, lines in enumerate(stripes):
            names.append(os.path.join(folder, "stripe%d" % k))
            with open(names[-1], "wb") as file:
                file.write(Stripe(folder, main, lines).compose())
        return run(["pamcat", "-topbottom", *names])


def decibels(octets, png):
    """How near the viewer's picture comes, by brightness."""
    with tempfile.TemporaryDirectory() as folder:
        names = [os.path.join(folder, name) for name in ("due", "shown")]
        for name, part in zip(names, (octets, run(["pngtopam", os.path.join(OUT, png)]))):
            with open(name, "wb") as file:
                file.write(part)
        told = run(["pnmpsnr", "-machine", *names]).split()
    return 99.0 if told[0] == b"nan" else float(told[0])


def rows_of(png):
    """The rows of a picture, three octets a pixel."""
    head, size, depth, body = run(["pngtopam", os.path.join(OUT, png)]).split(b"\n", 3)
    width, height = map(int, size.split())
    if (head, depth, len(body)) != (b"P6", b"255", 3 * width * height):
        raise ValueError("%s: another kind of picture" % png)
    return [body[at:at + 3 * width] for at in range(0, len(body), 3 * width)]


def check_unread(tally, whole, name, area):
    """The pattern lies in the area, and all else is the whole page's."""
    shown = rows_of(name + ".png")
    left, top, right, bottom = area
    same = all(shown[y] == whole[y] if not top <= y < bottom else
               shown[y][:3 * left] == whole[y][:3 * left] and shown[y][3 * right:] == whole[y][3 * right:] for y in range(len(whole)))
    tally.check(same and len(shown) == len(whole), "%s: a pixel outside the layer differs" % name)
    unseen = sum(line[x:x + 3] in (MAGENTA, GREEN) for line in shown[top:bottom] for x in range(3 * left, 3 * right, 3))
    with open(os.path.join(OUT, name + ".txt"), encoding="utf-8") as file:
        told = int(re.search(r", (\d+) of \d+ unseen, drawn as green squares on magenta; pencil: \S+, \S+\n\Z", file.read()).group(1))
    tally.check(unseen == told > 0, "%s: %d pixels of the pattern, %d told" % (name, unseen, told))


def check_grey(tally, whole):
    """One layer is grey, the graphite of stripe 1, layer 9: no other dark pixel of its area is neutral."""
    with open(os.path.join(OUT, "whole.txt"), encoding="utf-8") as file:
        told = re.findall(r"stripe (\d+), layer (\d+): JPEG, (\d+) by (\d+) at 100 to the inch, grey: read\n", file.read())
    tally.check(len(told) == 1 and told[0][:2] == ("1", "9"), "grey layers: %s" % told)
    across, down = (4 * int(each) for each in told[0][2:]) if told else (0, 0)
    area = [line[3 * 24:3 * (24 + across)] for line in whole[672 + 96:672 + 96 + down]]
    dark = [line[x:x + 3] for line in area for x in range(0, len(line), 3) if max(line[x:x + 3]) < 120]
    neutral = sum(max(pixel) - min(pixel) <= 1 for pixel in dark)
    tally.check(1000 < neutral < len(dark) / 2, "%d of %d dark pixels are neutral" % (neutral, len(dark)))


def main():
    tally = reference_run.Tally()
    done = subprocess.run(["bash", "examples/promptbook/demo", "build/demo"], cwd=reference_run.ROOT, check=False, stdout=subprocess.PIPE,
                          stderr=subprocess.STDOUT)
    lines = done.stdout.decode("utf-8", "replace").splitlines()
    tally.check(done.returncode == 0 and lines[-1].startswith("The pictures: build/demo/whole.png"), "the demo: %s" % lines[-3:])
    if done.returncode == 0:
        due = composed("page.plan")
        near, other = decibels(due, "whole.png"), decibels(due, "as-words.png")
        print("the whole page is %.1f decibels from netpbm's, the pencils in the wrong order %.1f" % (near, other))
        tally.check(near > NEAR, "the whole page is not as netpbm composes it")
        tally.check(other < NEAR - 3, "a page with the pencils in another order cannot be told from it")
        whole = rows_of("whole.png")
        check_grey(tally, whole)
        check_unread(tally, whole, "strike-unread", (1396, 672 + 792, 1396 + 908, 672 + 792 + 244))
        check_unread(tally, whole, "picture-unread", (568, 28, 568 + 1200, 28 + 416))
    return tally.end()


if __name__ == "__main__":
    sys.exit(main())
