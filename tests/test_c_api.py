"""docs/C-API.md followed word for word: its program, the last piece of C, is saved and compiled, its
steps are run, and what they print is what the page shows; the piece before it is a function, which is
compiled alone. Its table of numbers is the header's.
"""

import os
import re
import subprocess
import sys

import counts
import reference_run
import test_outside

MANUAL = os.path.join(reference_run.ROOT, "docs", "C-API.md")
EXAMPLE = os.path.join(reference_run.ROOT, "examples", "example.page")
PARTED = "printf '\\f%d\\f' $?\n"
KINDS = {"read": {**dict.fromkeys(range(1, 13), "octet"), 13: "0", 18: "0"},
         "write": {1: "record", 5: "record", 14: "record", 16: "record", 13: "0", 18: "0"},
         "line": {14: "record", 17: "0", 15: "entry", 13: "0"},
         "data": {14: "record", 17: "0", 1: "record"}, "judge": {14: "record"}}
# a call has the answers, and the column, of another
SIBLINGS = {"line_unseen": "line", "band": "line"}


def blocks(text, kind):
    return re.findall(r"^```%s\n(.*?)^```$" % kind, text, re.M | re.S)


def check_steps(tally, text):
    """The program saved where the page says, then each block of steps in one shell."""
    program, steps, shown = (blocks(text, kind) for kind in ("c", "sh", "text"))
    tally.check((len(program), len(steps), len(shown)) == (2, 2, 2), "other blocks: %s" % steps)
    tally.check("Save it as build/example.c:" in text, "where the program is saved")
    with open(os.path.join(reference_run.ROOT, "build", "example.c"), "w", encoding="ascii") as file:
        file.write(program[-1])
    clean = {key: value for key, value in os.environ.items() if not key.startswith("MAKE")}
    done = subprocess.run(["bash", "-c", PARTED.join(steps) + PARTED], cwd=reference_run.ROOT,
                          env=clean, check=False, stdout=subprocess.PIPE, stderr=subprocess.PIPE)
    printed = done.stdout.decode("utf-8", "replace").split("\f")[:4]
    due = [shown[0], "0", shown[1], "1"]
    tally.check(printed == due, "%s is shown, but %s printed; %s" % (
        due, printed, done.stderr.decode("utf-8", "replace")[-600:]))
    tally.check(not done.stderr, "on standard error: %s" % done.stderr[-300:])


def check_program(tally, text):
    """Clean where the header is."""
    strict = ["-Wall", "-Wextra", "-Wpedantic", "-Wconversion", "-Wshadow", "-Werror"]
    folders = ["-I", reference_run.HEADERS, "-I", os.path.join(reference_run.ROOT, "host")]
    for piece in blocks(text, "c"):
        done = subprocess.run(["cc", "-std=c11", *strict, "-fsyntax-only", *folders, "-x", "c", "-"],
                              input=piece.encode(), check=False, stderr=subprocess.PIPE)
        tally.check(done.returncode == 0, done.stderr.decode("utf-8", "replace")[:600])


def check_page(tally):
    """The example page is put together from tests/outside."""
    page, _ = (test_outside.Page(test_outside.stored(), 200, 4)
               .stripe("mask.mmr", "baseline.jpg", "half.jpg", at=((3, 5), (60, 0)))
               .stripe(back="grey.jpg", height=40, at=((0, 0), (0, 0))).end())
    with open(EXAMPLE, "rb") as file:
        tally.check(file.read() == page, "examples/example.page is another page")


def check_table(tally, text):
    """A line a number: the header's name and text, and the places of the header's comments."""
    with open(os.path.join(reference_run.HEADERS, "spirerook.h"), encoding="ascii") as header:
        texts = re.findall(r'X\((\d+), \w+, "(\w+)", "([^"]+)"\)', header.read())
    tally.check(len(texts) == len(counts.NAMES), "%d numbers in the header" % len(texts))
    for number, name, told in texts:
        places = ["yes" if number == "0" else kinds.get(int(number), "")
                  for kinds in KINDS.values()]
        row = "| %s | %s | %s | %s |" % (number, name, told, " | ".join(places))
        row = row.replace("|  |", "| |").replace("|  |", "| |")
        tally.check(row in text.splitlines(), "no such line: %s" % row)
    for call, numbers in counts.GIVEN.items():
        kinds = KINDS[SIBLINGS.get(call, call)]
        tally.check({0, *kinds} == set(numbers), "places of %s" % call)


def main():
    tally = reference_run.Tally()
    with open(MANUAL, encoding="ascii") as file:
        text = file.read()
    check_page(tally)
    check_table(tally, text)
    check_program(tally, text)
    check_steps(tally, text)
    return tally.end()


if __name__ == "__main__":
    sys.exit(main())
