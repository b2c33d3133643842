"""Mistakes that spirerook-make meets: in plans, options, pictures and outputs, and files damaged at
random under the address and undefined behaviour sanitizers."""

import glob
import os
import resource
import subprocess
import tempfile

import codecs_built
import make_kit
import reference_run
from make_kit import make, png, read, run, write

HEAD = "resolution 400\nwidth 40\nstripe\nheight 9\n"
BACK = HEAD + "background i.ppm "
PAIR = "pencil-mask none\npencil-image none\n"
# (plan, line of the message or 0 for none, words of it); the status is 1
PLANS = [
    ("", 0, "the plan has no 'stripe'"),
    ("# nothing\n\nresolution 400\n", 0, "the plan has no 'stripe'"),
    ("stripe\n", 1, "'resolution' must stand before the first stripe"),
    ("resolution\n", 1, "100, 200, 300, 400, 600 or 1200"),
    ("resolution 500\n", 1, "100, 200, 300, 400, 600 or 1200, not 500"),
    ("resolution 0400x\n", 1, "not 0400x"),
    ("resolution 400 dpi\n", 1, "'dpi' is a word too many"),
    ("resolution 400\nresolution 400\n", 2, "'resolution' is given twice"),
    ("coder\n", 1, "mh, mr, mmr or t85"),
    ("coder jbig2\n", 1, "mh, mr, mmr or t85, not jbig2"),
    ("coder mh\ncoder mh\n", 2, "'coder' is given twice"),
    ("coder mh mr\n", 1, "'mr' is a word too many"),
    ("width\n", 1, "'width' needs a number from 1 to 32768"),
    ("width 0\n", 1, "'width' must be a number from 1 to 32768, not '0'"),
    ("width 32769\n", 1, "not '32769'"),
    ("width 4294967297\n", 1, "not '4294967297'"),
    ("width 99999999999999999999\n", 1, "not '99999999999999999999'"),
    ("width -5\n", 1, "not '-5'"),
    ("width 5\nwidth 5\n", 2, "'width' is given twice"),
    ("colour red\n", 1, "unknown word 'colour'"),
    ("background i.ppm\n", 1, "'background' stands before the first 'stripe'"),
    ("height 5\n", 1, "'height' stands before the first 'stripe'"),
    ("pencil-mask none\n", 1, "'pencil-mask' stands before the first 'stripe'"),
    ("resolution 400\nstripe here\n", 2, "'here' is a word too many"),
    (HEAD + "width 40\n", 5, "'width' must stand before the first stripe"),
    (HEAD + "height 9\n", 5, "'height' is given twice"),
    ("resolution 400\nwidth 4\nstripe\nheight 0\n", 4, "'height' must be a number from 1 to 65535"),
    ("resolution 400\nwidth 4\nstripe\nheight 1 2\n", 4, "'2' is a word too many"),
    (HEAD + "background\n", 5, "'background' needs a file name, or none"),
    (HEAD + "background none\nbackground none\n", 6, "'background' is given twice"),
    (HEAD + "mask m.pbm\nmask m.pbm\n", 6, "'mask' is given twice"),
    (HEAD + "foreground i.ppm\nforeground none\n", 6, "'foreground' is given twice"),
    (HEAD + "mask m.pbm at 1 2\n", 5, "'mask' has no 'at'"),
    (HEAD + "mask m.pbm n.pbm\n", 5, "'n.pbm' is a word too many"),
    (BACK + "blue\n", 5, "unknown word 'blue'"),
    (BACK + "at\n", 5, "'at' needs a number from 0 to 65535"),
    (BACK + "at 5\n", 5, "'at' needs a number from 0 to 65535"),
    (BACK + "at 5 65536\n", 5, "not '65536'"),
    (BACK + "at 1 2 at 1 2\n", 5, "'at' is given twice"),
    (BACK + "base\n", 5, "RRGGBB"),
    (BACK + "base FFFFF\n", 5, "RRGGBB, not FFFFF"),
    (BACK + "base FFFFFG\n", 5, "RRGGBB, not FFFFFG"),
    (BACK + "base 112233 lab 1 2 3\n", 5, "a base colour is given twice"),
    (BACK + "lab 1 2\n", 5, "'lab' needs a number from 0 to 255"),
    (BACK + "lab 1 2 256\n", 5, "not '256'"),
    (BACK + "quality 0\n", 5, "'quality' must be a number from 1 to 100, not '0'"),
    (BACK + "quality 101\n", 5, "not '101'"),
    (BACK + "half half\n", 5, "'half' is given twice"),
    (BACK + "gray\n", 5, "unknown word 'gray'"),
    (BACK + "grey grey\n", 5, "grey or coloured is given twice ('grey')"),
    (BACK + "grey half coloured\n", 5, "grey or coloured is given twice ('coloured')"),
    (HEAD + "mask m.pbm grey\n", 5, "'mask' has no 'grey'"),
    (HEAD + "pencil-mask m.pbm coloured\n", 5, "'pencil-mask' has no 'coloured'"),
    (BACK + "coder mh\n", 5, "'background' has no 'coder'"),
    (BACK + "resolution 250\n", 5, "not 250"),
    (BACK + "resolution 300\n", 5, "a resolution of 300 does not divide the page's 400"),
    (HEAD + "pencil-mask m.pbm resolution 1200\n", 5, "of 1200 does not divide the page's 400"),
    (HEAD + "background \"i.ppm\n", 5, "a quote is not closed"),
    (HEAD + "background i\"x.ppm\n", 5, "a quote stands inside a word"),
    (HEAD + "background \"i.ppm\"half\n", 5, "a blank is due behind a closing quote"),
    (HEAD + "background \"\"\n", 5, "the file name has no letters"),
    (HEAD + "background i.ppm" + " half" * 30 + "\n", 5, "too many words"),
    (HEAD + "pencil-image none\n", 5, "a 'pencil-image' must stand behind its 'pencil-mask'"),
    (HEAD + PAIR + "pencil-image none\n", 7, "must stand behind its 'pencil-mask'"),
    (HEAD + "pencil-mask none\n", 5, "has no pencil-image"),
    (HEAD + "pencil-mask none\nstripe\n", 5, "has no pencil-image"),
    (HEAD + "pencil-mask none\npencil-mask none\n", 6, "of line 5 has no 'pencil-image' yet"),
    (HEAD + PAIR * 6 + "pencil-mask none\n", 17, "at most 6 pairs"),
    (HEAD + "pencil-mask none half\n", 5, "'pencil-mask' has no 'half'"),
    ("resolution 400\nwidth 4\n" + "stripe\n" * 65, 67, "at most 64 stripes"),
    ("resolution 400\nstripe\nheight 9\nbackground i.ppm\n", 0, "needs the page's 'width'"),
    ("resolution 400\nstripe\nmask m.pbm\nstripe\nbackground i.ppm\n", 4, "needs a 'height'"),
    ("resolution 400\nwidth 41\nstripe\nmask m.pbm\n", 4,
     "m.pbm is 40 samples wide, but the page is 41 (line 2)"),
    ("resolution 400\nstripe\nmask m.pbm\nstripe\nmask n.pbm\n", 5,
     "n.pbm is 39 samples wide, but the page is 40 (line 3)"),
    ("resolution 400\nstripe\nheight 8\nmask m.pbm\n", 4,
     "m.pbm is 9 samples high, but the stripe is 8 (line 3)"),
    ("resolution 400\nstripe\nmask wide.pbm\n", 3, "wide.pbm is 32769 samples wide; a page is at most"),
    (HEAD + "background long.ppm\n", 5, "long.ppm: libjpeg cannot code the image: Maximum"),
    (HEAD + "background missing.png\n", 5, "missing.png: No such file"),
    (HEAD + "background none.d/none\n", 5, "none.d/none: No such file"),
    (HEAD + 'background "none"\n', 5, "none: No such file"),
    (HEAD + "background .\n", 5, ".: Is a directory"),
    (HEAD + "background /dev/zero\n", 5, "/dev/zero: this is no plain file"),
    (HEAD + "background pipe\n", 5, "pipe: this is no plain file"),
    ("resolution 400\nwidth 4\nstripe\0\n", 0, "an octet 0"),
    ("#" * 1048576, 0, "a plan has less than 1048576 octets"),
]
# (plan, words of the refusal)
REFUSED = [
    (HEAD, "BadSheet (14) at record 2 (stripe 0, layer 3): the sheet breaks one of its rules: "
     "at least one of layers 1 to 3 must be coded (docs/FIELDS.md, section 7); see line 3"),
    (HEAD + "foreground i.ppm\nbackground i.ppm\n", "BadSheet (14) at record 2 (stripe 0, layer 3): "
     "the sheet breaks one of its rules: layers 1 and 3 must not both be coded without layer 2 "
     "(docs/FIELDS.md, section 7); see line 5"),
    (HEAD + "background i.ppm\nstripe\nheight 65535\nbackground i.ppm\n",
     "BadSheet (14) at record 4 (stripe 1, layer 2): the sheet breaks one of its rules: the heights "
     "of all stripes must sum to 65535 at most (docs/FIELDS.md, section 7); see line 7"),
    ("resolution 400\ncoder mh\n" + "stripe\nmask noise.pbm\n" * 2,
     "TooLong (18): a page has at most 16777215 octets; this one would have "),
]
# options behind the plan "p.plan", and words of the message; the status is 2
OPTIONS = [
    ([], "no plan is named"), (["p.plan"], "no page is named: -o PAGE"),
    (["p.plan", "-o"], "'-o' needs the name"), (["-o", "x"], "no plan is named"),
    (["p.plan", "-o", "x", "-o", "y"], "'-o' is given twice"),
    (["p.plan", "-o", ""], "'-o' has an empty name"), (["", "-o", "x"], "the plan has an empty name"),
    (["p.plan", "-o", "x", "--pencil", "y", ""], "'--pencil' has an empty name"),
    (["p.plan", "q.plan", "-o", "x"], "'q.plan' is a second plan"),
    (["p.plan", "-o", "x", "--pen"], "unknown option '--pen'"),
    (["p.plan", "-o", "x", "-x"], "unknown option '-x'"),
    (["p.plan", "--help", "-o", "x"], "unknown option '--help'"),
    (["p.plan", "-o", "x", "--pencil", "s"], "needs the names of the sheet and of the file"),
    (["p.plan", "-o", "x", "--pencil", "s", "f", "--pencil", "s", "f"], "'--pencil' is given twice"),
    (["p.plan", "-o", "x", "--pencil", "s", "f"], "p.plan has no pencil layers"),
    (["pencil.plan", "-o", "x"], "pencil.plan has pencil layers"),
    (["pencil.plan", "-o", "x", "--pencil", "s", "s"], "s would be written twice"),
    (["pencil.plan", "-o", "x", "--pencil", "x", "s"], "x would be written twice"),
    (["pencil.plan", "-o", "x", "--pencil", "s", "./x"], "./x would be written twice"),
    (["pencil.plan", "-o", "x", "--pencil", "m.pbm", "f"], "m.pbm is read from"),
    (["pencil.plan", "-o", "s.sha256", "--pencil", "s", "f"], "s.sha256 would be written twice"),
    (["pencil.plan", "-o", "x", "--pencil", "s", "./s.sha256"], "s.sha256 would be written twice"),
    (["q.sha256", "-o", "x", "--pencil", "m", "f"], "m.sha256 is read from"),
    (["q.sha256", "-o", "x", "--pencil", "q", "f"], "q.sha256 is read from"),
    (["p.plan", "-o", "p.plan"], "p.plan is read from"),
    (["p.plan", "-o", "./i.ppm"], "./i.ppm is read from"),
    (["p.plan", "-o", "link.ppm"], "link.ppm is read from"),
]


# a file named "fails" cannot take its place
NO_LINK = r"""#include <errno.h>
#include <string.h>
#include <sys/syscall.h>
#include <unistd.h>
int linkat(int folder, const char *from, int other, const char *to, int flags)
{
    errno = EIO;
    return strstr(to, "fails") != NULL ? -1 : (int)syscall(SYS_linkat, folder, from, other, to, flags);
}
"""


def pictures(folder, rng):
    write(os.path.join(folder, "m.pbm"), make_kit.pbm(make_kit.strokes(40, 9)))
    write(os.path.join(folder, "n.pbm"), make_kit.pbm(make_kit.strokes(39, 9)))
    write(os.path.join(folder, "wide.pbm"), b"P4 32769 1 " + bytes(4097))
    write(os.path.join(folder, "long.ppm"), b"P6 65501 1 255 " + bytes(3 * 65501))
    write(os.path.join(folder, "i.ppm"), make_kit.ppm(10, 6, make_kit.gradient(10, 6)))
    write(os.path.join(folder, "noise.pbm"), b"P4 8000 4500 " + rng.randbytes(1000 * 4500))
    os.mkfifo(os.path.join(folder, "pipe"))
    write(os.path.join(folder, "p.plan"), BACK)
    write(os.path.join(folder, "pencil.plan"), HEAD + "mask m.pbm\n" + PAIR)
    write(os.path.join(folder, "m.sha256"), make_kit.pbm(make_kit.strokes(40, 9)))
    write(os.path.join(folder, "q.sha256"), HEAD + "mask m.sha256\n" + PAIR)


def is_message(wrong):
    """One line of ours and nothing else."""
    return wrong.startswith("spirerook-make: ") and wrong.count("\n") == 1 and wrong.endswith("\n")


def check_refusal(tally, folder, what, ran, status, words):
    """Its status, its one line, nothing on standard output, and no new file."""
    got, told, wrong = ran
    tally.check(got == status and is_message(wrong) and words in wrong and told == "",
                "%s: status %d, %s%s; due is %d, %s" % (what[:300], got, told, wrong, status, words))
    left = [name for name in os.listdir(folder) if ".page" in name or name[0] in "xsf"]
    tally.check(left == [], "%s leaves %s" % (what[:300], left))


def check_plans(tally, folder):
    for plan, line, words in PLANS:
        place = "p.plan:%d: " % line if line else "p.plan: "
        ran = make(folder, plan, "--pencil", "s", "f") if "pencil" in plan else make(folder, plan)
        check_refusal(tally, folder, plan, ran, 1, "spirerook-make: " + place)
        tally.check(words in ran[2], "%s: %s, not %s" % (plan[:300], ran[2], words))
    for plan, words in REFUSED:
        check_refusal(tally, folder, plan, make(folder, plan), 1,
                      "spirerook-make: p.plan: refused: " + words)


def check_options(tally, folder):
    write(os.path.join(folder, "p.plan"), BACK)
    os.symlink("i.ppm", os.path.join(folder, "link.ppm"))
    before = read(os.path.join(folder, "i.ppm"))
    for words, due in OPTIONS:
        check_refusal(tally, folder, " ".join(words), run(folder, *words), 2, due)
    tally.check(read(os.path.join(folder, "i.ppm")) == before, "a picture is written over")
    check_refusal(tally, folder, "no such plan", run(folder, "no.plan", "-o", "x"), 1,
                  "spirerook-make: no.plan: No such file")
    for word, due in (("--help", "use: spirerook-make PLAN -o PAGE [--pencil SHEET FILE] [--no-sandbox]\n"),
                      ("--version", "spirerook-make 2.")):
        status, told, wrong = run(folder, word)
        tally.check((status, wrong) == (0, "") and told.startswith(due), "%s: %s" % (word, told))
    write(os.path.join(folder, "-o"), BACK)
    status, _, wrong = run(folder, "-o", "x", "--", "-o")
    tally.check((status, wrong) == (0, ""), "a plan behind --: %d, %s" % (status, wrong))
    os.remove(os.path.join(folder, "x"))


def bad_pictures():
    """(name, octets, words) of pictures that are not whole, or would need too much."""
    good = make_kit.ppm(10, 6, make_kit.gradient(10, 6))
    dot = png(9, 5, 2, 8, lambda x, y: (x, y, 9))
    whole = [png(65535, 1, 2, 8, lambda x, y: (1, 2, 3))]
    head = lambda width, height: whole[0][:16] + width.to_bytes(4, "big") + height.to_bytes(4, "big")
    sized = lambda width, height: (whole[0][:8] + make_kit.chunk(
        b"IHDR", head(width, height)[16:24] + whole[0][24:29]) + whole[0][33:])
    for cut in (0, 1, 2, 5, 10, len(good) - 1):
        yield "PPM cut to %d" % cut, good[:cut], ""
    for cut in (7, 8, 20, 33, 40, len(dot) - 20, len(dot) - 13, len(dot) - 1):
        yield "PNG cut to %d" % cut, dot[:cut], ""
    colours = make_kit.chunk(b"PLTE", bytes(6))
    for interlaced in (False, True):
        yield "PNG beyond its palette", png(9, 5, 3, 4, lambda x, y: (2 * (x == 8),), colours, interlaced), "its palette"
    yield "PNG with a flipped bit", dot[:50] + bytes([dot[50] ^ 1]) + dot[51:], "PNG file cannot"
    yield "PNG 65536 wide", sized(65536, 1), "65536 by 1 samples; a side has at most 65535"
    yield "PNG 65535 by 65535", sized(65535, 65535), "over 1 GiB"
    yield "PNG 2147483647 wide", sized(2147483647, 2147483647), "a side has at most 65535"
    yield "P6 of 0", b"P6 0 5 255 ", "no samples"
    yield "P6 too wide", b"P6 99999 5 255 ", "a side has at most 65535"
    yield "P6 of many digits", b"P6 " + b"9" * 5000 + b" 5 255 ", "a side has at most 65535"
    yield "P6 wrapped", b"P6 4294967297 1 255 " + bytes(9), "a side has at most 65535"
    yield "P6 short", b"P6 60000 5000 255 " + bytes(9), "too short for 60000 by 5000 samples"
    yield "P3 short", b"P3 60000 5000 255 1 2 3", "too short for 60000 by 5000 samples"
    yield "P1 short", b"P1 65535 65535 1", "too short for 65535 by 65535 samples"
    yield "P6 without a blank", b"P6 1 1 255", "does not end in a blank"
    yield "P6 of highest 0", b"P6 1 1 0 \0\0\0", "highest value must be 1 to 65535"
    yield "P6 of highest 65536", b"P6 1 1 65536 \0\0\0\0\0\0", "highest value must be 1 to 65535"
    yield "P5 above its highest", b"P5 1 1 9 \x0a", "a sample of 10, above its highest value 9"
    yield "P2 above its highest", b"P2 1 1 9 10", "a sample of 10, above its highest value 9"
    yield "P2 of letters", b"P2 2 1 9 1 x", "something else among them"
    yield "P1 of 2", b"P1 2 1 12", "something else among them"
    yield "P7", b"P7\nWIDTH 1\n", "neither PNG nor PNM"
    yield "P6 with letters", b"P6 a b 255 ", "header is not whole"
    yield "GIF", b"GIF89a" + bytes(20), "neither PNG nor PNM"


def check_pictures(tally, folder):
    """Little memory is enough to refuse them."""
    limits = [(resource.RLIMIT_AS, 400 << 20)]
    for name, octets, words in bad_pictures():
        write(os.path.join(folder, "bad"), octets)
        for use in ("background bad", "pencil-image bad"):
            more = ["--pencil", "s", "f"] if "pencil" in use else []
            plan = HEAD + ("mask m.pbm\npencil-mask none\n" if more else "") + use + "\n"
            ran = make(folder, plan, *more, limits=limits)
            check_refusal(tally, folder, name, ran, 1, "p.plan:%d: bad: " % (7 if more else 5))
            tally.check(words in ran[2], "%s: %s, not %s" % (name, ran[2], words))
        if "GiB" not in words:
            ran = make(folder, "resolution 400\nstripe\nmask bad\n", limits=limits)
            check_refusal(tally, folder, name, ran, 1, "p.plan:3: bad: ")
            tally.check(words in ran[2], "%s as a mask: %s, not %s" % (name, ran[2], words))


def check_outputs(tally, folder):
    """What cannot be written leaves nothing, and what stood there stays."""
    write(os.path.join(folder, "rough.pbm"), make_kit.pbm(make_kit.strokes(40, 900)))
    plan = "resolution 400\nstripe\nmask rough.pbm\n" + PAIR
    for place, words in (("no/x", "no/x: No such file"), ("/dev/full", "no file stands there"),
                         (".", "no file stands there")):
        for names in ((place, "s", "f"), ("x", place, "f"), ("x", "s", place)):
            write(os.path.join(folder, "o.plan"), plan)
            ran = run(folder, "o.plan", "-o", names[0], "--pencil", *names[1:])
            check_refusal(tally, folder, "to " + place, ran, 1, words)
    short = [(resource.RLIMIT_FSIZE, 1024)]
    write(os.path.join(folder, "old"), "as it was")
    ran = run(folder, "o.plan", "-o", "old", "--pencil", "s", "f", limits=short)
    check_refusal(tally, folder, "a short disk", ran, 1, "old: File too large")
    tally.check(read(os.path.join(folder, "old")) == b"as it was", "a failed run changed a file")
    with open("/dev/full", "wb") as full:
        ran = run(folder, "o.plan", "-o", "x", "--pencil", "s", "f", stdout=full)
    lines = ran[2].splitlines()
    tally.check(ran[0] == 1 and lines[0].startswith("stripe 0, layer 1: ")
                and lines[-2].startswith("written: x, ") and lines[-1] == "spirerook-make: standard "
                "output: No space left on device; what was meant for it stands here",
                "a full standard output: %s" % (ran,))
    for name in ("x", "s", "f", "s.sha256"):
        os.remove(os.path.join(folder, name))
    shim = os.path.join(folder, "no_link.so")
    subprocess.run(["cc", "-shared", "-fPIC", "-D_GNU_SOURCE", "-x", "c", "-", "-o", shim],
                   check=True, input=NO_LINK.encode())
    for names in (("fails", "s", "f"), ("x", "fails", "f"), ("x", "s", "fails")):
        ran = run(folder, "o.plan", "-o", names[0], "--pencil", *names[1:],
                  env=dict(os.environ, LD_PRELOAD=shim))
        tally.check(ran[0] == 1 and ran[2] == "spirerook-make: fails: Input/output error\n",
                    "%s: %s" % (names, ran))
        left = [name for name in os.listdir(folder) if name[0] in "xsf"]
        tally.check(left == [], "%s leave %s" % (names, left))
    ran = run(folder, "o.plan", "-o", "old", "--pencil", "s", "f")
    tally.check(ran[0] == 0 and len(read(os.path.join(folder, "old"))) > 100, "over an old file")
    for name in ("s", "f", "old", "s.sha256"):
        os.remove(os.path.join(folder, name))


# ---- damage

DAMAGED = reference_run.trials(80)
SAFE = ["-fsanitize=address,undefined", "-fno-sanitize-recover=all", "-g", "-O1"]
REPORT = 99
LIBRARIES = ("-ltiff", "-ljbig", "-ljpeg", "-lnettle", "-lpng", "-lz", "-lm")


def sanitized(tally):
    """The program with the sanitizers, or None."""
    program = os.path.join(reference_run.ROOT, "build", "make_sanitized")
    host = os.path.join(reference_run.ROOT, "host")
    files = sorted(glob.glob(os.path.join(host, "*.c")) + glob.glob(os.path.join(host, "make", "*.c")))
    codecs_built.check(tally, ("tiff", "jbig", "jpeg", "png"))
    done = subprocess.run(["cc", "-std=c11", "-D_GNU_SOURCE", *SAFE, *codecs_built.flags(), "-I",
                           reference_run.HEADERS, "-I", host, *files, reference_run.archive(), "-o",
                           program, *codecs_built.libraries(LIBRARIES)], check=False,
                          stderr=subprocess.PIPE)
    tally.check(done.returncode == 0, "the sanitizers: %s" % done.stderr.decode()[-500:])
    return program if done.returncode == 0 else None


def damaged(rng, octets):
    """Changed, cut, doubled or filled in places, mostly near the start."""
    octets = bytearray(octets)
    for _ in range(rng.randrange(1, 5)):
        at = rng.randrange(rng.choice([min(len(octets), 40), len(octets)]) or 1)
        how = rng.randrange(5)
        if how == 0 and octets:
            octets[at:at + 1] = bytes([rng.randrange(256)])
        elif how == 1 and octets:
            octets[at % len(octets)] ^= 1 << rng.randrange(8)
        elif how == 2:
            del octets[at:at + rng.randrange(1, 9)]
        elif how == 3:
            octets[at:at] = octets[at:at + rng.randrange(1, 30)]
        else:
            octets[at:at] = rng.choice([b"9", b" ", b"\n", b"\"", b"#", b"-1", b"65536", b"none",
                                        b"stripe\n", b"\xff\xff\xff\xff", b"99999999999"])
    return bytes(octets)


def mended(octets):
    """The checksums of a PNG's chunks made right again, so that what was changed is read."""
    out, at = octets[:8], 8
    while at + 12 <= len(octets):
        size = int.from_bytes(octets[at:at + 4], "big")
        out += make_kit.chunk(octets[at + 4:at + 8], octets[at + 8:at + 8 + size])
        at += 12 + size
    return out


def originals(rng):
    """(file name, octets) of what is damaged: the plan and its pictures."""
    plan = HEAD + ("mask pic.m # note\nbackground pic.i half resolution 200 at 3 4 quality 40\n"
                   "foreground none base 102030\npencil-mask \"pic.m\" coder t85 at 1 2\n"
                   "pencil-image pic.i progressive lab 1 2 3\nstripe\nheight 3\nforeground pic.i\n")
    image = [make_kit.ppm(10, 6, make_kit.gradient(10, 6)), b"P3 2 2 255 1 2 3 4 5 6 7 8 9 1 2 3 ",
             b"P5 3 2 65535 " + rng.randbytes(12), b"P1 3 2 010 111", b"P2 # c\n3 1 99 1 2 3",
             png(9, 5, 2, 8, lambda x, y: (x, y, 9)), png(9, 5, 6, 16, lambda x, y: (x, y, 9, 70)),
             png(9, 5, 3, 4, lambda x, y: (x,), make_kit.chunk(b"PLTE", bytes(range(48))), True)]
    mask = [make_kit.pbm(make_kit.strokes(40, 9)), png(40, 9, 0, 1, lambda x, y: (x * y % 2,)),
            png(40, 9, 4, 8, lambda x, y: (x, y), b"", True)]
    return plan, mask, image


def check_damage(tally, folder, rng):
    program = sanitized(tally)
    if program is None:
        return
    plan, masks, images = originals(rng)
    safe = dict(os.environ, UBSAN_OPTIONS="exitcode=%d" % REPORT)
    ends, kept = {0: 0, 1: 0, 2: 0}, 0
    for k in range(DAMAGED):
        files = {"d.plan": plan.encode(), "pic.m": rng.choice(masks), "pic.i": rng.choice(images)}
        if k % 20:
            name = ("d.plan", "pic.m", "pic.i")[k % 3]
            files[name] = damaged(rng, files[name])
            if files[name][:4] == b"\x89PNG" and rng.randrange(4):
                files[name] = mended(files[name])
        for name, octets in files.items():
            write(os.path.join(folder, name), octets)
        safe["ASAN_OPTIONS"] = "exitcode=%d:allocator_may_return_null=1:%s" % (
            REPORT, reference_run.leaks(k))
        status, told, wrong = run(folder, "d.plan", "-o", "d.out", "--pencil", "d.s", "d.f",
                                  "--no-sandbox", program=program, env=safe)
        good = status == 0 and wrong == "" or status in (1, 2) and is_message(wrong) and told == ""
        tally.check(good and (k % 20 or status == 0), "damage %d: status %d, %s" % (
            k, status, wrong[:2000]))
        if not good:
            codecs_built.keep("make-%d" % k, files, wrong)
        ends[status] = ends.get(status, 0) + 1
        kept += k % 20 > 0 and status == 0
    # one in eight of what is damaged is still good; fewer than this by chance in less than one of 10,000 runs
    tally.check(kept >= DAMAGED // 20 - 3 and ends[1] >= DAMAGED // 3, "damage: %d still good, ends %s" % (kept, ends))
    print("damaged files: %d made, %d of them damaged, %d refused" % (ends[0], kept, DAMAGED - ends[0]))


def check_all(tally, rng):
    with tempfile.TemporaryDirectory() as folder:
        pictures(folder, rng)
        check_plans(tally, folder)
        check_options(tally, folder)
        check_pictures(tally, folder)
        check_outputs(tally, folder)
        check_damage(tally, folder, rng)
