"""Cases per call and number that a run of the host tests held the library to.

Each test that compares the library with the reference counts its cases here, by
the reference's answer, and leaves the sums in build/counts. Run as a program this
prints their sum. Sums of another archive than the one that is tried do not count.
"""

import collections
import glob
import hashlib
import json
import os

import reference_run

FOLDER = os.path.join(reference_run.ROOT, "build", "counts")
NAMES = ("Done", "Short", "BadMark", "BadLength", "BadVersion", "BadMode", "BadCoder", "BadRes",
         "BadWidth", "BadType", "BadStripe", "BadLayer", "Trailing", "NoRoom", "BadSheet",
         "BadPlane", "Mismatch", "BadLine", "TooLong")
# what each call can give, by the paper's orders of refusals
GIVEN = {"read": (*range(14), 18), "write": (0, 1, 5, 13, 14, 16, 18),
         "line": (0, 13, 14, 15, 17), "data": (0, 1, 14, 17), "judge": (0, 14)}
GIVEN["line_unseen"] = GIVEN["band"] = GIVEN["line"]
LEAST_DONE, LEAST = 400, 40
LEAST_OF = {18: 15}      # TooLong takes the most octets and tells the least


def number_of(answer):
    """The number behind an answer's line; -1 for one that tells of no answer."""
    words = answer.split()
    if words[:1] == ["refused"]:
        return int(words[1])
    return 0 if words and (words[0] in ("done", "good") or words[0].isdigit()) else -1


def stamp():
    """What tells this archive from another, or None."""
    if not os.path.exists(reference_run.archive()):
        return None
    with open(reference_run.archive(), "rb") as archive:
        return hashlib.sha256(archive.read()).hexdigest()


class Counts:
    """The counts of one test, over one call or several."""

    def __init__(self):
        self.calls = {call: collections.Counter() for call in GIVEN}

    def add(self, call, answers):
        self.calls[call].update(map(number_of, answers))

    def join(self, other):
        for call, counter in other.calls.items():
            self.calls[call] += counter

    def save(self, test):
        os.makedirs(FOLDER, exist_ok=True)
        with open(os.path.join(FOLDER, test + ".json"), "w", encoding="ascii") as file:
            json.dump({"archive": stamp(), "calls": self.calls}, file)

    def table(self):
        """A line a number, a column a call; `-` where a call cannot give the number."""
        lines = ["%-14s" % "number" + "".join("%12s" % call for call in GIVEN)]
        for number, name in enumerate(NAMES):
            cells = [self.calls[call][number] if number in GIVEN[call] else "-" for call in GIVEN]
            lines.append("%2d %-11s" % (number, name) + "".join("%12s" % cell for cell in cells))
        sums = [sum(counter.values()) for counter in self.calls.values()]
        return "\n".join(lines + ["%-14s" % "all" + "".join("%12d" % each for each in sums)])

    def check(self, tally, shares):
        """Enough of each number that a call can give, by its share of the random cases, and none of
        the others."""
        for call, share in shares.items():
            for number in GIVEN[call]:
                least = share * (LEAST_OF.get(number, LEAST) if number else LEAST_DONE)
                tally.check(self.calls[call][number] >= least, "%s: %d cases of %s, fewer than %d"
                            % (call, self.calls[call][number], NAMES[number], least))
            others = set(self.calls[call]) - set(GIVEN[call])
            tally.check(not others, "%s: answers that it cannot give: %s" % (call, others))


def gathered():
    """The tests that have left counts of this archive, and their sum."""
    total, tests, now = Counts(), [], stamp()
    for path in sorted(glob.glob(os.path.join(FOLDER, "*.json"))):
        with open(path, encoding="ascii") as file:
            left = json.load(file)
        if left["archive"] == now and now is not None:
            tests.append(os.path.basename(path)[:-len(".json")])
            for call, counter in left["calls"].items():
                total.calls[call].update({int(n): count for n, count in counter.items()})
    return tests, total


def main():
    tests, total = gathered()
    print("cases by the reference's answer, of %s:\n%s" % (", ".join(tests) or "no test",
                                                          total.table()))


if __name__ == "__main__":
    main()
