"""Builds and runs the reference and the library, and runs any other program on a sheet or a page.

LIBRARY names the archive that is tried in place of build/libspirerook.a. SPIREROOK_TRIALS tells how
much more than in `make test` is tried where cases are random: 10 is ten times as many.
"""

import itertools
import os
import platform
import re
import subprocess

import compiling

ROOT = compiling.ROOT
SOURCES = os.path.join(ROOT, "tests", "reference")
HEADERS = os.path.join(ROOT, "include")
DRIVER = os.path.join(ROOT, "tests", "driver")
WARNINGS = ["-std=c11", "-Wall", "-Wextra", "-Wpedantic", "-Werror"]
SECONDS = 60         # by the clock; a run takes a few, but others may work on the machine
TURNS = itertools.count()   # of programs run here
LIST = ("sheet.c", "console.c", "list.c")
CALLS = ("page.c", "reading.c", "stripe.c", "jpeg.c", "write.c", "line.c", "band.c", "data.c",
         "sheet.c", "as_library.c")


def in_driver(*files):
    return tuple(os.path.join(DRIVER, file) for file in files)


FAR_DRIVER = ("console.c", *in_driver("line_far.c"))
BAND_LINES = ("console.c", *in_driver("lent.c", "drive.c", "band_lines.c"))


def driver_of(name):
    """The files of the driver of a call, as it stands over the library."""
    judge = ("sheet.c",) if name == "read" else ()      # it judges the sheets that are read
    return (*judge, "console.c", *in_driver("lent.c", "drive.c", name + ".c"))


def parts_of(name):
    """The files of the driver of a call and of the reference."""
    return CALLS + tuple(file for file in driver_of(name) if file not in CALLS)


def trials(count):
    """How many random cases are tried of those that `make test` has this many of."""
    return max(1, round(count * float(os.environ.get("SPIREROOK_TRIALS") or 1)))


def leaks(turn):
    """Whether the sanitizers look for leaks in this turn of many, in their words: in each on x86-64.
    On Arm gcc's search takes seconds over an empty program, so there one turn in 41 has it (an
    odd number, since two programs often take turns)."""
    return "detect_leaks=%d" % (platform.machine() == "x86_64" or turn % 41 == 0)


def build(name="reference_list", sources=SOURCES, flags=("-O2",), parts=LIST):
    """Builds a program of the reference into build/ and answers its path."""
    return compiling.link(os.path.join(ROOT, "build", name),
                          [os.path.join(sources, file) for file in parts],
                          (*WARNINGS, *flags), (sources, DRIVER, HEADERS))


def build_archive(name, sources=SOURCES, flags=("-O2",)):
    """The reference as an archive with the library's calls, so that the tests can try it, or one
    with a fault in it, in the library's place."""
    objects = [compiling.object_of(os.path.join(sources, file), (*WARNINGS, *flags),
                                   (sources, HEADERS)) for file in CALLS]
    path = os.path.join(ROOT, "build", name + ".a")
    if os.path.exists(path):
        os.remove(path)
    subprocess.run(["ar", "rcs", path, *objects], check=True)
    return path


def library_is_listed():
    with open(os.path.join(ROOT, "crates.txt"), encoding="utf-8") as lines:
        return any(re.match(r"\s*spirerook(\s[^:#]*)?:", line) for line in lines)


def archive():
    """The library that is tried."""
    return os.path.abspath(os.environ.get("LIBRARY")
                           or os.path.join(ROOT, "build", "libspirerook.a"))


def exported(path):
    """The names of functions that an archive or shared object gives to others."""
    flags = ["-D"] if path.endswith(".so") else []
    told = subprocess.run(["nm", "--defined-only", "-g", *flags, path], check=True,
                          stdout=subprocess.PIPE).stdout.decode("ascii", "replace")
    return {words[2] for words in map(str.split, told.splitlines())
            if len(words) == 3 and words[1] in "TtWi"}


def build_library_driver(tally, name="read", driver=None):
    """The driver of a call over the library, or None. `driver` names other files than its own, for
    several calls.

    Only while crates.txt lists no crate of the library may its archive be
    missing: then the tests run on the reference alone, and say so.
    """
    path = archive()
    if not os.path.exists(path):
        if os.environ.get("LIBRARY") or library_is_listed():
            tally.check(False, "no %s: make it first" % os.path.relpath(path, ROOT))
        else:
            print("the library is not tried: crates.txt lists no crate 'spirerook' yet")
        return None
    if driver is None and "spirerook_" + name not in exported(path):
        tally.check(False, "%s exports no spirerook_%s" % (os.path.relpath(path, ROOT), name))
        return None
    return build("library_" + name, parts=(driver or driver_of(name)) + (path,))


def as_input(octets):
    """A file of these octets, in memory: Python feeds a pipe in small pieces, which takes longer
    than most programs here take over what they read."""
    file = os.fdopen(os.memfd_create("input"), "w+b")
    file.write(octets)
    file.seek(0)
    return file


def ended(program, octets, words):
    """(standard output, standard error, how it went wrong or "") of a program."""
    try:
        with as_input(octets) as given:
            done = subprocess.run([program, *words], stdin=given, stdout=subprocess.PIPE,
                                  stderr=subprocess.PIPE, timeout=SECONDS, check=False,
                                  env={**os.environ, "ASAN_OPTIONS": leaks(next(TURNS))})
    except subprocess.TimeoutExpired as late:
        return late.stdout or b"", b"", "no end after %d seconds" % SECONDS
    signal = "ended by signal %d" % -done.returncode if done.returncode < 0 else ""
    return done.stdout, done.stderr, signal


def run(program, sheet, *words):
    """What a program writes, as (standard output, standard error).

    A program that is ended by a signal, or does not end, wrote nothing that a
    test could take for an answer: its output says what happened instead.
    """
    printed, told, wrong = ended(program, sheet, words)
    if wrong:
        return wrong + "\n", ""
    return printed.decode("ascii", "replace"), told.decode("ascii", "replace")


def numbers(*values):
    """Numbers for a driver, four octets each."""
    return b"".join(value.to_bytes(4, "big") for value in values)


def words(*case):
    """A call as its driver reads it: of each part of a case its length, or the number that it is,
    and the octets of all parts."""
    return numbers(*(len(part) if isinstance(part, bytes) else part for part in case)) + b"".join(
        part for part in case if isinstance(part, bytes))


def read_many(program, pages):
    """What the driver of a reader prints for each (page, room), in one run of it.

    A reader that does not get to the end gives an answer that tells so to the
    page where it stopped, and another to those behind it: no test expects them.
    """
    printed, told, wrong = ended(program, b"".join(words(*case) for case in pages), ["many"])
    *answers, rest = printed.decode("ascii", "replace").split(".\n")
    if len(answers) < len(pages):
        why = wrong or rest[-200:] + told.decode("ascii", "replace")[:200]
        answers.append("no answer: %s\n" % why)
    return answers + ["not read\n"] * (len(pages) - len(answers))


def call_many(program, cases):
    """What the driver of any other call tells to each of these cases, in one run of it: the
    answer's line, and the octets behind it."""
    printed, told, wrong = ended(program, b"".join(words(*case) for case in cases), ["many"])
    answers, at = [], 0
    while len(answers) < len(cases):
        end = printed.find(b"\n", at)
        line = printed[at:end].decode("ascii", "replace") if end >= 0 else ""
        size = int(line.split()[1]) if line.startswith("done ") else 0
        if end < 0 or printed[end + 1 + size:end + 3 + size] != b".\n":
            why = wrong or told.decode("ascii", "replace")[:200]
            answers.append(("no answer: %s" % why, b""))
            break
        answers.append((line, printed[end + 1:end + 1 + size]))
        at = end + 3 + size
    return answers + [("not answered", b"")] * (len(cases) - len(answers))


def answer(listing):
    """The answer behind a listing, in the words of tests/sheets.md."""
    lines = listing.splitlines()
    if not lines:
        return "nothing was printed"
    if not lines[0][:1].isdigit():
        return lines[0] if len(lines) == 1 else "several lines"
    return "good %d %d" % (len(lines), int(lines[-1].split()[0]) + 1)


class Tally:
    """Counts passed and failed checks and tells each failure."""

    def __init__(self):
        self.passed = 0
        self.failed = 0

    def check(self, holds, told):
        if holds:
            self.passed += 1
        else:
            self.failed += 1
            print("FAILED:", told)

    def end(self):
        """Prints the last line; the exit status fits it."""
        print("%d passed, %d failed" % (self.passed, self.failed))
        return 1 if self.failed else 0
