"""Holds the library to the reference over all calls at once: good, damaged, changed and
random cases, every length of small ones, and those that were found before (tests/cases).

The drivers look at every octet that is lent: what the answer does not own stays,
what is lent for reading too, on both sides of the edge of memory, with null for
no octets. Each difference of an answer or of an octet is told.

It fails where the cases of a number are few. `make test` tells at its end the cases of this
test and of the tests of each call together (tests/counts.py).
SEED makes a run again; LIBRARY names another archive than build/libspirerook.a.
"""

import glob
import os
import random
import subprocess
import sys

import boundary_making
import calls
import counts
import reference_run

COUNT = reference_run.trials(700)    # good cases of each call, and as many damaged
LENGTHS = 2          # small cases of each call that are tried at every length
CASES = os.path.join(reference_run.ROOT, "tests", "cases")


def check_call(both, rng):
    for what, cases in boundary_making.batches(both.call, rng, COUNT, LENGTHS):
        both.answers(lambda k, what=what: "%s, case %d" % (what, k), cases)


def case_answers(program, octets):
    """All that a driver says to a kept case."""
    printed, told, wrong = reference_run.ended(program, octets, ["many"])
    return wrong or printed + told


def check_misuse(tally, program):
    """A driver that is told nothing it knows says so, and its status too."""
    for words, octets in ((["else"], b""), (["many", "more"], b""), (["many"], b"\0" * 7),
                          (["many"], b"\xff" * 64)):
        done = subprocess.run([program, *words], input=octets, check=False,
                              stdout=subprocess.PIPE, stderr=subprocess.PIPE)
        tally.check(done.returncode == 1 and done.stderr.endswith(b"\n"), "%s %s: status %d, %s"
                    % (program, words, done.returncode, done.stderr))


def check_kept(tally, boths):
    """Cases that were found to differ once do not differ."""
    kept = sorted(glob.glob(os.path.join(CASES, "*.case")))
    for path in kept:
        name = os.path.basename(path)
        both = boths.get(name.split("-")[0])
        tally.check(both is not None, "tests/cases/%s: no call has this name" % name)
        if both is None:
            continue
        with open(path, "rb") as file:
            octets = file.read()
        due = case_answers(both.reference, octets)
        tally.check(isinstance(due, bytes) and due.endswith(b".\n") and b"broken" not in due,
                    "tests/cases/%s: the reference says %s" % (name, due[:200]))
        if both.library is not None:
            got = case_answers(both.library, octets)
            tally.check(got == due, "tests/cases/%s: the reference says %s, the library %s"
                        % (name, due[:100], got[:100]))
    print("%d kept cases" % len(kept))


def main():
    seed = int(os.environ.get("SEED") or random.randrange(2 ** 32))
    print("SEED=%d" % seed)
    tally, own = reference_run.Tally(), counts.Counts()
    boths = {name: calls.Both(tally, call, counted=own) for name, call in calls.ALL.items()}
    for k, both in enumerate(boths.values()):
        check_call(both, random.Random(seed + k))
        check_misuse(tally, both.reference)
    check_kept(tally, boths)
    tried = {name: both.call.share for name, both in boths.items() if both.library is not None}
    print("cases of this test, by the reference's answer:\n" + own.table())
    own.check(tally, tried)
    if tried:
        own.save("test_boundary")
    return tally.end()


if __name__ == "__main__":
    sys.exit(main())
