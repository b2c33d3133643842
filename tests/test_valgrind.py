"""The library under valgrind, on a smaller set of the cases of tests/test_boundary.py: no octet is
read that was never written, none outside what is lent, and the answers are the reference's.

SEED makes a run again; LIBRARY names another archive than build/libspirerook.a.
"""

import os
import random
import shutil
import stat
import subprocess
import sys

import boundary_making
import calls
import reference_run

COUNT = reference_run.trials(40)     # good cases of each call, and as many damaged
LENGTHS = 1          # small cases of each call that are tried at every length
WRONG = 99           # the status of a program in which valgrind finds an error
VALGRIND = """#!/bin/sh
exec valgrind -q --error-exitcode=%d --exit-on-first-error=yes "%s" "$@"
"""


def watched(program):
    """A program that runs another under valgrind."""
    path = program + "_valgrind"
    with open(path, "w", encoding="utf-8") as script:
        script.write(VALGRIND % (WRONG, program))
    os.chmod(path, os.stat(path).st_mode | stat.S_IXUSR)
    return path


def check_watch(tally):
    """Valgrind finds what it is there for: an octet that was never written."""
    source = os.path.join(reference_run.ROOT, "build", "unwritten.c")
    with open(source, "w", encoding="ascii") as file:
        file.write("#include <stdlib.h>\nint main(void)\n{\n"
                   "    volatile char *octets = malloc(2);\n"
                   "    return octets != NULL && octets[1] == 5 ? 3 : 0;\n}\n")
    program = reference_run.build("unwritten", flags=("-O0", "-w"), parts=(source,))
    done = subprocess.run([watched(program)], check=False, stderr=subprocess.DEVNULL)
    tally.check(done.returncode == WRONG, "valgrind does not see an octet never written")


def check_call(tally, both, rng):
    """Valgrind ends a program at its first error, so that an answer is missing."""
    # "too long" are megabytes that no call looks at, and valgrind at each octet
    named = [("%s, case %d" % (what, k), case)
             for what, cases in boundary_making.batches(both.call, rng, COUNT, LENGTHS)
             if what != "too long" for k, case in enumerate(cases)]
    cases = [case for _, case in named]
    due = both.call.answers(both.reference, cases)
    got = both.call.answers(watched(both.library), cases)
    for (what, _), answer, other in zip(named, due, got):
        tally.check(answer == other, "%s, %s: %s is due, not %s"
                    % (both.call.name, what, answer[0], other[0]))
    return len(cases)


def main():
    seed = int(os.environ.get("SEED") or random.randrange(2 ** 32))
    print("SEED=%d" % seed)
    tally = reference_run.Tally()
    if shutil.which("valgrind") is None:
        tally.check(False, "no valgrind: bash tests/need valgrind:valgrind installs it")
        return tally.end()
    check_watch(tally)
    # a run of a driver under valgrind has more to do, and most of it at the start: all at once
    reference_run.SECONDS, calls.RUN, calls.MANY, calls.LARGE = 300, 5000, 10 ** 6, 10 ** 8
    for k, call in enumerate(calls.ALL.values()):
        both = calls.Both(tally, call)
        if both.library is not None:
            ran = check_call(tally, both, random.Random(seed + k))
            print("%s: %d cases under valgrind" % (call.name, ran))
    return tally.end()


if __name__ == "__main__":
    sys.exit(main())
