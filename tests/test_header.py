"""include/spirerook.h: clean for C11, C17 and C++17; its numbers, bounds, readers and makers;
and its calls, which are those that the archive and the shared object export. host/spirerook_colour.h:
clean too, and colours on a screen as the reference of the viewer has them.

The numbers and bounds due are held here, copied from the paper.
"""

import os
import random
import re
import subprocess
import sys

import counts
import reference_run
import sheet_making
import view_reference

HEADER = os.path.join(reference_run.HEADERS, "spirerook.h")
FOLDERS = ["-I", reference_run.HEADERS, "-I", os.path.join(reference_run.ROOT, "host")]
STRICT = ["-Wall", "-Wextra", "-Wpedantic", "-Wconversion", "-Wshadow", "-Werror"]
COMPILERS = [("cc", "c", "c11"), ("cc", "c", "c17"), ("c++", "c++", "c++17"),
             ("clang", "c", "c11"), ("clang++", "c++", "c++17")]
NEEDED = ("cc", "c++")      # the others are tried where they are there
BOUNDS = {"RECORD_OCTETS": 28, "STRIPES": 64, "LAYERS": 15, "RECORDS": 960,
          "PAGE_SHEET_OCTETS": 5376, "SHEET_OCTETS": 26880, "PAGE_OCTETS": 16777215,
          "WIDTH": 32768, "HEIGHT": 65535, "PLANE_OCTETS": 5, "PIXEL_OCTETS": 4,
          "LINE_OCTETS": 131072}
# facts of the paper that a number's sentence has to carry
FACTS = {1: ["field", "coded data"], 2: ["marker", "ident"], 3: ["length", "segment"],
         4: ["version", "0"], 5: ["mode", "1", "3"], 6: ["coder"], 7: ["resolution", "divide"],
         8: ["width", "32768"], 9: ["stripe", "coder"], 10: ["height", "offset", "mask", "64"],
         11: ["JPEG"], 12: ["zero", "end"], 13: ["buffer"], 14: ["sheet"],
         15: ["plane", "coded", "order", "samples"], 16: ["record", "mask"],
         17: ["stripe", "line", "layer"], 18: ["page", "16777215"]}
# what a caller has to know of colours
COLOURS = ["CIELAB", "T.42", "D50", "L x 100/255", "(a - 128) x 170/255", "(b - 96) x 200/255",
           "White is 255 128 96, black 0 128 96", "Base colours", "samples of image layers",
           "pixels of a line", "not YCbCr", "conversion of colours must be off",
           "jpeg_color_space = jpeg.out_color_space = JCS_YCbCr", "spirerook_colour.h",
           "A layer of one component has lightness alone", "one octet each", "nobody widens them",
           "the octet and 128 96 behind it"]
FIELDS = ["stripe", "layer", "coder", "x", "y", "width", "height", "resolution", "octet14",
          "octet15", "octet16", "start", "length", "octet17"]
RECORDS = 300
CODES = 4000         # random colours


def has(command):
    return subprocess.run(["sh", "-c", 'command -v "$0"', command], check=False,
                          stdout=subprocess.DEVNULL).returncode == 0


def compiled(tally, compiler, language, standard):
    """The program of tests/driver/header.c, or None."""
    program = os.path.join(reference_run.ROOT, "build", "header_%s_%s" % (compiler, standard))
    done = subprocess.run([compiler, "-std=" + standard, *STRICT, "-O2", "-x", language,
                           *FOLDERS, os.path.join(reference_run.DRIVER, "header.c"),
                           "-o", program, "-lm"], check=False, stderr=subprocess.PIPE)
    tally.check(done.returncode == 0 and not done.stderr, "%s -std=%s: %s" % (
        compiler, standard, done.stderr.decode("utf-8", "replace")[:600]))
    return program if done.returncode == 0 else None


def check_alone(tally):
    """Each header asks for nothing before it, twice is once, and nothing of it is unused."""
    for compiler, language, standard in COMPILERS:
        for name in (b"spirerook.h", b"spirerook_colour.h"):
            if not has(compiler):
                continue
            done = subprocess.run(
                [compiler, "-std=" + standard, *STRICT, "-fsyntax-only", *FOLDERS, "-x", language,
                 "-"], input=b'#include "%s"\n' % name * 2 + b"extern int only;\n", check=False,
                stderr=subprocess.PIPE)
            tally.check(done.returncode == 0 and not done.stderr, "%s -std=%s, %s alone: %s"
                        % (compiler, standard, name, done.stderr[:600]))


def check_numbers(tally, program):
    lines = reference_run.run(program, b"", "numbers")[0].splitlines()
    texts = {}
    for number, name in enumerate(counts.NAMES):
        found = re.fullmatch(r"%d %s: (.+)" % (number, name), lines[number])
        tally.check(found is not None, "%d is not %s: %s" % (number, name, lines[number]))
        texts[number] = found[1] if found else ""
    tally.check(lines[19:] == ["%d unknown: no call gives this number" % k for k in (19, 20)],
                "numbers above 18: %s" % lines[19:])
    tally.check(len(set(texts.values())) == 19, "two numbers tell the same")
    for number, words in FACTS.items():
        missing = [word for word in words if word not in texts[number]]
        tally.check(not missing, "%d tells nothing of %s: %s" % (number, missing, texts[number]))
    for text in texts.values():
        tally.check(not text.endswith(".") and (text[0].islower() or text.startswith("JPEG")),
                    "not a phrase: %s" % text)


def check_bounds(tally, program):
    lines = reference_run.run(program, b"", "bounds")[0].splitlines()
    got = {name: int(value) for value, name in map(str.split, lines)}
    tally.check(got == BOUNDS, "bounds: %s" % (set(got.items()) ^ set(BOUNDS.items())))


def check_records(tally, program, rng):
    """Each field from its own octets, and back; all octets random, but lengths and octet 17 often
    those that tell something; and one of the largest band."""
    sheet = bytearray(rng.randbytes(28 * RECORDS))
    sheet_making.put(sheet, 0, "width", 32768)
    sheet_making.put(sheet, 0, "height", 65535)
    for k in range(RECORDS):
        if rng.random() < 0.5:
            sheet_making.put(sheet, k, "length", 0)
        if rng.random() < 0.8:
            sheet_making.put(sheet, k, "octet17", rng.randrange(2))
    lines = reference_run.run(program, bytes(sheet), "records")[0].splitlines()
    tally.check(len(lines) == 2 * RECORDS, "%d lines of records" % len(lines))
    for k in range(RECORDS):
        row = [sheet_making.get(sheet, k, field) for field in FIELDS]
        coded, mask = int(row[12] != 0), int(row[1] % 2 == 0)
        samples = coded * row[5] * row[6] * (1 if mask or row[13] == 1 else 3)
        due = " ".join(map(str, [*row, coded, mask, samples, 4 * row[5] * row[6]]))
        tally.check(lines[2 * k] == due, "record %d: %s is due, not %s" % (k, due, lines[2 * k]))
        due = sheet[28 * k:28 * k + 26].hex() + "0000"      # the last two octets are no field
        tally.check(lines[2 * k + 1] == due, "record %d made again: %s" % (k, lines[2 * k + 1]))


def check_planes(tally, program):
    entries = [(1, 0), (15, 2 ** 32 - 1), (2, 0x01020304), (255, 0x80000000), (10, 65536)]
    words = "".join("%d %d\n" % each for each in entries)
    lines = reference_run.run(program, words.encode(), "planes")[0].splitlines()
    due = ["%02x%08x" % each for each in entries]
    tally.check(lines == due, "plane entries %s, not %s" % (lines, due))


def check_colours(tally, program, rng):
    """All greys and random codes come out as the octets of the definitions, at most a step away
    where digits of the matrix tell: of all 2^24 codes, 114104 are not the nearest, none by 0.95."""
    greys = [(lightness, 128, 96) for lightness in range(256)]
    codes = greys + [tuple(rng.randbytes(3)) for _ in range(CODES)]
    lines = reference_run.run(program, b"".join(map(bytes, codes)), "colours")[0].splitlines()
    tally.check(len(lines) == len(codes), "%d lines of colours" % len(lines))
    tally.check((lines[0], lines[255]) == ("000000", "ffffff"), "black is %s, white %s"
                % (lines[0], lines[255]))
    nearest = 0
    for lab, line in zip(codes, lines):
        due = view_reference.screen_exactly(lab)
        far = max(abs(a - b) for a, b in zip(due, bytes.fromhex(line)))
        nearest += far <= 0.5
        tally.check(far < (0.505 if lab in greys else 0.95),
                    "codes %s are %s on a screen, not %s" % (lab, line, due))
    tally.check(nearest > 0.98 * len(codes), "%d of %d are the nearest" % (nearest, len(codes)))


def check_unseen(tally, program):
    """"The default colour of an unseen pixel becomes 128 128 96", in both of its uses."""
    lines = reference_run.run(program, b"", "unseen")[0].splitlines()
    tally.check(lines == ["80806000", "128 128 96"], "unseen pixels: %s" % lines)


def check_colour_words(tally, text):
    """The header tells what a colour is, and what a decoder must not do with it."""
    section = re.search(r"/\* ---- Colours ---- \*/(.*?)/\* ---- ", text, re.S)
    told = " ".join(re.sub(r"^ \* *", "", section[1] if section else "", flags=re.M).split())
    for words in COLOURS:
        tally.check(words in told, "the header's colours tell nothing of '%s'" % words)


def declared():
    """(name, the comment before it) of each function that the header only declares."""
    with open(HEADER, encoding="ascii") as file:
        text = file.read()
    calls = re.compile(r"/\*((?:(?!\*/).)*)\*/\n(?:spirerook_\w+) (spirerook_\w+)\([^;{]*\);", re.S)
    return {found[2]: found[1] for found in calls.finditer(text)}, text


def numbers_told(comments, call):
    """The numbers that a call's comment names; those of another, where it says that its answers are
    that call's."""
    told = " ".join(re.sub(r"^ \*", "", comments.get(call, ""), flags=re.M).split())
    other = re.search(r"\bAnswers\b[^.]* are those of (spirerook_\w+)", told)
    if other:
        return numbers_told(comments, other[1])
    return {k for k, name in enumerate(counts.NAMES) if re.search(r"\b%s\b" % name, told)}


def check_calls(tally):
    """Every declared call is exported and none else; its comment tells its numbers."""
    calls, text = declared()
    plain = re.sub(r"/\*.*?\*/", "", text, flags=re.S)
    tally.check(set(calls) == set(re.findall(r"^spirerook_\w+ (spirerook_\w+)\(", plain, re.M)),
                "a call without a comment")
    tally.check(set(calls) == {"spirerook_" + call for call in counts.GIVEN}, "calls: %s" % calls)
    for call, numbers in counts.GIVEN.items():
        named = numbers_told(calls, "spirerook_" + call)
        tally.check(named == set(numbers), "spirerook_%s: its comment differs from what it gives: %s"
                    % (call, sorted(named ^ set(numbers))))
    shared = os.path.join(reference_run.ROOT, "build", "libspirerook.so")
    for path in (reference_run.archive(), shared):
        if not os.path.exists(path):
            tally.check(False, "no %s: make it first" % os.path.relpath(path, reference_run.ROOT))
            continue
        names = reference_run.exported(path)
        tally.check(names == set(calls), "%s and the header differ in %s"
                    % (os.path.basename(path), sorted(names ^ set(calls))))


def check_misuse(tally, program):
    done = subprocess.run([program, "else"], check=False, stderr=subprocess.PIPE)
    tally.check(done.returncode == 1 and done.stderr.startswith(b"use: "), "no message to misuse")


def main():
    seed = int(os.environ.get("SEED") or random.randrange(2 ** 32))
    print("SEED=%d" % seed)
    tally = reference_run.Tally()
    check_alone(tally)
    for compiler, language, standard in COMPILERS:
        if compiler not in NEEDED and not has(compiler):
            continue
        program = compiled(tally, compiler, language, standard)
        if program is not None:
            check_numbers(tally, program)
            check_bounds(tally, program)
            check_records(tally, program, random.Random(seed))
            check_planes(tally, program)
            check_colours(tally, program, random.Random(seed))
            check_unseen(tally, program)
            check_misuse(tally, program)
    check_calls(tally)
    check_colour_words(tally, declared()[1])
    return tally.end()


if __name__ == "__main__":
    sys.exit(main())
