"""A longer run of the library beside the reference: good cases of all calls, changed without
regard to what they mean, for FUZZ_SECONDS (60 where nothing is said).

What differs is cut down while it still differs, and kept in tests/cases, where
`make test` finds it. FUZZ_CALLS names the calls that are tried, all of them
where nothing is said; SEED makes a run again; LIBRARY names another archive than
build/libspirerook.a, FUZZ_CASES another folder than tests/cases.
"""

import hashlib
import os
import random
import sys
import time

import boundary_making
import calls
import counts
import reference_run

BATCH = 150
POOL = 60            # good cases that changes begin with, renewed piece by piece
KEPT = 10            # findings of one run
TRIES = 300          # shorter cases tried of a finding


def setting(name, default):
    """A number from the environment; one that is none ends the program."""
    word = os.environ.get(name) or str(default)
    if not word.isdigit():
        sys.exit("fuzz: %s must be a whole number, not '%s'" % (name, word))
    return int(word)


def chosen():
    names = (os.environ.get("FUZZ_CALLS") or " ".join(calls.ALL)).split()
    unknown = [name for name in names if name not in calls.ALL]
    if unknown or not names:
        sys.exit("fuzz: no call '%s': there are %s" % (" ".join(unknown), " ".join(calls.ALL)))
    return names


class Fuzz:
    """One call, its pool of good cases and what was found."""

    def __init__(self, tally, name, rng, counted):
        self.name, self.rng, self.counts = name, rng, counted
        self.call = calls.ALL[name]
        self.both = calls.Both(tally, self.call, counted=counted)
        self.pool = [boundary_making.GOOD[name](rng) for _ in range(POOL)]

    def case(self):
        """A good case changed once or often, now and then with a part of another."""
        rng = self.rng
        case = boundary_making.mutated(rng, self.name, rng.choice(self.pool))
        if rng.random() < 0.2:
            at, other = rng.choice(self.call.octets), rng.choice(self.pool)
            case = case[:at] + (other[at],) + case[at + 1:]
        if rng.random() < 0.2:
            case = boundary_making.mutated(rng, self.name, case)
        return case

    def differs(self, case):
        return (self.call.answers(self.both.reference, [case])
                != self.call.answers(self.both.library, [case]))

    def batch(self):
        """The cases of one batch in which the two differ."""
        for _ in range(3):
            self.pool[self.rng.randrange(POOL)] = boundary_making.GOOD[self.name](self.rng)
        cases = [self.case() for _ in range(BATCH)]
        due = self.call.answers(self.both.reference, cases)
        got = self.call.answers(self.both.library, cases)
        self.counts.add(self.name, [answer for answer, _ in due])
        wrong = [k for k in range(BATCH) if due[k] != got[k] or counts.number_of(due[k][0]) < 0]
        return [cases[k] for k in wrong]

    def cut_down(self, case):
        """The case without octets that do not matter to the difference, as far as TRIES go."""
        tries = TRIES
        for at in self.call.octets:
            step = len(case[at]) // 2
            while step:
                first = 0
                while first < len(case[at]) and tries:
                    shorter = case[at][:first] + case[at][first + step:]
                    tried, tries = case[:at] + (shorter,) + case[at + 1:], tries - 1
                    if self.differs(tried):
                        case = tried
                    else:
                        first += step
                step //= 2
        return case


def keep(name, case, folder):
    """Writes a case where `make test` finds it; answers its path."""
    octets = reference_run.words(*case)
    os.makedirs(folder, exist_ok=True)
    path = os.path.join(folder, "%s-%s.case" % (name, hashlib.sha256(octets).hexdigest()[:12]))
    with open(path, "wb") as file:
        file.write(octets)
    return path


def main():
    seconds, seed = setting("FUZZ_SECONDS", 60), setting("SEED", random.randrange(2 ** 32))
    folder = os.environ.get("FUZZ_CASES") or os.path.join(reference_run.ROOT, "tests", "cases")
    print("SEED=%d" % seed)
    tally, counted, found = reference_run.Tally(), counts.Counts(), 0
    tried = [Fuzz(tally, name, random.Random(seed + k), counted)
             for k, name in enumerate(chosen())]
    tried = [fuzz for fuzz in tried if fuzz.both.library is not None]
    if tally.failed or not tried:
        sys.exit("fuzz: nothing to try")
    end = time.monotonic() + seconds
    while time.monotonic() < end and found < KEPT:
        for fuzz in tried:
            for case in fuzz.batch()[:1]:
                found += 1
                path = keep(fuzz.name, fuzz.cut_down(case), folder)
                tally.check(False, "%s: a difference, kept as %s" % (fuzz.name, path))
    print(counted.table())
    tally.check(sum(sum(each.values()) for each in counted.calls.values()) > 0, "no case was tried")
    return tally.end()


if __name__ == "__main__":
    sys.exit(main())
