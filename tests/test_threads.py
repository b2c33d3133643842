"""The stack that the calls take, each in a thread of SPIREROOK_STACK octets, and eight threads
that make all of them at once, on the library.

The calls are the largest that there are: 64 stripes, 960 records, the widest
line, and refusals of each call.
"""

import os
import random
import re
import subprocess
import sys

import band_random
import boundary_making
import calls
import data_making
import reference_run
import test_limits
from band_making import as_band
from test_limits_line import Wide
from page_making import ROOM
from write_random import page_of, rows_of, sheet_of

DRIVER = ("console.c", os.path.join(reference_run.DRIVER, "threads.c"))
RANDOM = 6           # more of each call, good and damaged
STRIPES = 64 * "6x2x15 all "


def words(name, case):
    """A case as the driver reads it."""
    octets = [part for part in case if isinstance(part, bytes)]
    call = calls.ALL[name]
    numbers = [part for at, part in enumerate(case) if isinstance(part, int) and at != call.room]
    octets += [b""] * (3 - len(octets))
    room = 0 if call.room is None else case[call.room]
    told = reference_run.numbers(calls.NUMBERS[name], *map(len, octets), room,
                                 *calls.told_numbers(numbers))
    return told + b"".join(octets)


def largest():
    """(call, case): what takes the most work."""
    _, page, lines = test_limits.full_stripes()
    page = page.rstrip(b"\0")
    rows = rows_of(lines)
    yield "read", (page, ROOM)
    yield "read", (page, 0)
    yield "read", (page + b"\1", ROOM)
    yield "write", (sheet_of(rows), page, len(page_of(rows, page)))
    yield "write", (sheet_of(rows), page, 0)
    work = Wide(random.Random(1), 63, range(1, 16))
    unread = Wide(random.Random(1), 63, range(1, 16, 2))
    for name, unseen in (("line", None), ("line_unseen", (1, 2, 3))):
        work.unseen = unread.unseen = unseen
        yield name, work.call()
        yield name, unread.call()
        yield name, work.call(planes=work.plane_octets() + b"\1")
        if unseen is not None:
            # stripe 63 has one line, so that its band is that line
            yield "band", as_band(work.call(), work.room)
            yield "band", as_band(unread.call(), work.room)
            yield "band", as_band(work.call(), work.room - 1)
    yield "band", band_random.Work(random.Random(2), [(400, 16)]).call()
    sheet = bytes(data_making.sheet_of(STRIPES))
    for layer in (2, 15, 16):
        yield "data", (sheet, bytes(1010), bytes(1010), 63, layer)
    yield "data", (sheet[:-1], b"", b"", 0, 0)
    yield "judge", (sheet,)
    yield "judge", (sheet[:-1],)


def cases(rng):
    yield from largest()
    for name in calls.ALL:
        for _ in range(RANDOM):
            yield name, boundary_making.GOOD[name](rng)
            yield name, boundary_making.DAMAGED[name](rng)


def check_stack(tally, told, bound):
    """Each call's largest use of the stack."""
    used = {}
    for call, _, octets in (map(int, line.split()) for line in told.splitlines()):
        used[call] = max(octets, used.get(call, 0))
    for name, number in calls.NUMBERS.items():
        tally.check(0 < used.get(number, 0) < bound, "%s: %s octets of stack, of %d"
                    % (name, used.get(number), bound))
    print("octets of stack: " + ", ".join("%s %d" % (name, used.get(number, 0))
                                          for name, number in calls.NUMBERS.items()))


def main():
    tally = reference_run.Tally()
    seed = int(os.environ.get("SEED") or random.randrange(2 ** 32))
    print("SEED=%d" % seed)
    archive = reference_run.archive()
    if not os.path.exists(archive):
        tally.check(False, "no %s: make it first" % archive)
        return tally.end()
    program = reference_run.build("library_threads", flags=("-O2", "-pthread"),
                                  parts=DRIVER + (archive,))
    with open(os.path.join(reference_run.HEADERS, "spirerook.h"), encoding="ascii") as header:
        bound = int(re.search(r"#define SPIREROOK_STACK (\d+)", header.read())[1])
    octets = b"".join(words(*case) for case in cases(random.Random(seed)))
    try:
        done = subprocess.run([program], input=octets, check=False, stdout=subprocess.PIPE,
                              stderr=subprocess.PIPE, timeout=120)
    except subprocess.TimeoutExpired:
        tally.check(False, "no end after 120 seconds")
        return tally.end()
    tally.check(done.returncode == 0, "ended with %d: %s" % (done.returncode, done.stderr[:300]))
    check_stack(tally, done.stdout.decode("ascii", "replace"), bound)
    return tally.end()


if __name__ == "__main__":
    sys.exit(main())
