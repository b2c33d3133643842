"""Holds the reference's coded data to tests/data.md and to calls whose answers are read from
the records; and the library to the reference on every one of them: the same answer, and the
same part octet for octet.

SEED makes a run again; LIBRARY names another archive than build/libspirerook.a.
"""

import os
import random
import sys

import calls
import counts
import data_making
import data_random
import reference_run

GOOD = reference_run.trials(1500)
BESIDE = 400         # stripes and layers that are not there
DAMAGED = reference_run.trials(800)
ENDS = 40            # calls with the sources cut at every octet
SANITIZED = ("-O2", "-fsanitize=address,undefined", "-fno-sanitize-recover=all")


def check_table(tally, watched, plain, cases):
    tally.check([case.number for case in cases] == [str(k + 1) for k in range(len(cases))],
                "the numbers of the table")
    tally.check(len({case.name for case in cases}) == len(cases), "a name stands twice")
    for both, many in ((watched, False), (plain, True)):
        both.check([(case.told(), case.call(), case.due()) for case in cases
                    if (len(case.sheet) > calls.MANY) == many])
    print("tests/data.md: %d calls" % len(cases))


def check_ends(both, works):
    """A part is handed out from every length of its source on that has its last octet."""
    asked = []
    for k, work in enumerate(works):
        answer, part = work.due()
        if not answer.startswith("done") or not part:
            continue
        source = int(answer.split()[2])
        name, octets = (("page", work.page), ("pencil", work.pencil))[source]
        last = int(answer.split()[3]) + len(part)
        for size in range(len(octets) + 1):
            due = (answer, part) if size >= last else ("refused 1 %d" % work.record, b"")
            asked.append(("call %d, %s cut at %d" % (k, name, size),
                          work.call(**{name: octets[:size]}), due))
        other = "page" if source else "pencil"
        asked.append(("call %d without %s" % (k, other), work.call(**{other: b""}), (answer, part)))
    both.check(asked)
    print("%d parts with their source cut at every octet" % len(asked))


def main():
    seed = int(os.environ.get("SEED") or random.randrange(2 ** 32))
    print("SEED=%d" % seed)
    rng = random.Random(seed)
    tally, counted = reference_run.Tally(), counts.Counts()
    watched = calls.Both(tally, calls.ALL["data"], "reference_data", SANITIZED, counted=counted)
    plain = calls.Both(tally, calls.ALL["data"], library=watched.library, counted=counted)
    check_table(tally, watched, plain, data_making.table())
    works = [data_random.Work(rng) for _ in range(GOOD)]
    plain.check([("random call %d" % k, work.call(), work.due()) for k, work in enumerate(works)])
    beside = []
    for k, work in enumerate(works[:BESIDE]):
        stripe, layer = work.beside(rng)
        beside.append(("call %d as stripe %d, layer %d" % (k, stripe, layer),
                       work.call(stripe=stripe, layer=layer), ("refused 17 0", b"")))
    watched.check(beside)
    check_ends(plain, works[:ENDS * 5:5])
    damaged = [data_random.damaged_call(rng, rng.choice(works)) for _ in range(DAMAGED)]
    plain.answers(lambda k: "damaged call %d" % k, damaged)
    watched.answers(lambda k: "watched call %d" % k, damaged[::5])
    if watched.library is not None:
        counted.save("test_data_reference")
    return tally.end()


if __name__ == "__main__":
    sys.exit(main())
