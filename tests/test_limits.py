"""The largest pages and the smallest stack, read by the reference and by the library.

What is expected is worked out from how each page is put together. Both readers
run in a stack that is hardly more than a C program needs to begin at all, so
that a reader whose depth grows with the page is ended by a signal.
"""

import subprocess
import sys

import reference_run
from page_making import MASK, ROOM, big, fax, frame, optional, scan, start, stripe

LONGEST = 16777215
STACK = 16          # KiB for a reader: its sheet in the making takes 5,376 octets or more
STARTS = 30         # the stack begins at a random octet, so that one start proves little
SCAN = b"\xff\xd8" + fax() + frame() + scan()   # its data begins at 100 of a page
END = b"\xff\xd9\xff\xd9"
PLAIN = ["0 1 0 0 0 0 0 400 10 11 12 0 0 0", "0 2 0 0 0 1000 100 400 0 0 0 0 0 0",
         "0 3 0 0 0 0 0 400 20 21 22 0 0 0"]


def listing(changed):
    """The records of a page of one stripe, of which one is coded."""
    lines = list(PLAIN)
    lines[int(changed.split()[1]) - 1] = changed
    return "".join(line + "\n" for line in lines)


def filled(before, unit, behind):
    """As many units as the longest page has room for; zeros fill up."""
    times = (LONGEST - len(before) - len(behind)) // len(unit)
    page = before + unit * times + behind
    return page + bytes(LONGEST - len(page)), times * len(unit)


def layer_pages():
    """One stripe with one image layer of 16 MB: (name, page, lines)."""
    head = start() + stripe(type=1)
    frame_scan = frame() + scan() + b"\xff\xd9"
    for name, before, unit, behind in [
            ("FF 00 throughout", SCAN, b"\xff\0", b"\xff\xd9"),
            ("FF D0 throughout", SCAN, b"\xff\xd0", b"\xff\xd9"),
            ("FF FF D0 throughout", SCAN, b"\xff\xff\xd0", b"\xff\xd9"),
            ("one run before FF D9", SCAN, b"\xff", b"\xff\xd9"),
            ("one run before the frame", b"\xff\xd8" + fax(), b"\xff", frame_scan),
            ("scan data without FF", SCAN, b"\xfe", b"\xff\xd9"),
            ("4,194,000 scans", SCAN, b"\xff\xda\0\2", b"\xff\xd9"),
            ("FF 01 throughout", b"\xff\xd8" + fax(), b"\xff\1", frame_scan),
            ("a segment every 4 octets", b"\xff\xd8" + fax(), b"\xff\xe0\0\2", frame_scan),
            ("G3FAX0 throughout", b"\xff\xd8" + fax(), fax(), frame_scan),
            ("the longest segments", b"\xff\xd8" + fax(),
             b"\xff\xe0\xff\xff" + bytes(65533), frame_scan)]:
        page, units = filled(head + before, unit, behind + END)
        size = len(before) + units + len(behind)
        yield name, page, listing("0 1 1 16 8 50 20 200 10 11 12 61 %d 0" % size)


def other_pages():
    mask = "0 2 4 0 0 1000 100 400 0 0 0 %d %d 0"
    page, units = filled(start(), optional(), stripe() + MASK + END)
    yield "optional segments throughout", page, listing(mask % (22 + units + 39, 5))
    page, _ = filled(start() + stripe() + MASK + END, b"\0", b"")
    yield "zeros behind the end", page, listing(mask % (61, 5))
    yield "an octet behind zeros", page[:-1] + b"\1", "refused 12 %d\n" % (LONGEST - 1)
    yield "an octet too many", page + b"\0", "refused 18 0\n"
    size = LONGEST - 61 - len(END)
    page = start() + stripe(mask=size) + b"\xff" * size + END
    yield "the longest mask", page, listing(mask % (61, size))
    scan_data = start() + stripe(type=1) + SCAN
    for name, unit, behind, answer in [
            ("FF 00 to the page's end", b"\xff\0", b"", "refused 1 100\n"),
            ("one run in scan data to the page's end", b"\xff", b"", "refused 1 100\n"),
            ("one run in scan data before 00", b"\xff", b"\0", "refused 11 100\n")]:
        yield name, filled(scan_data, unit, behind)[0], answer
    page, _ = filled(start() + stripe(type=1) + b"\xff\xd8", b"\xff", b"")
    yield "one run outside a scan to the page's end", page, "refused 1 63\n"
    page, units = filled(start(), optional(), b"\xff")
    yield "optional segments to the page's end", page, "refused 1 %d\n" % (22 + units)
    yield full_stripes()


def full_stripes():
    """64 stripes of all three layers, 16 MB of scan data in all."""
    layer = SCAN + b"\xff\0\xff\xd7" * 32000 + b"\xff\xd9"
    one = stripe(type=7, height=1023) + MASK + layer + layer
    page, lines = start(), ""
    for number in range(64):
        at = len(page) + 39
        lines += ("%d 1 1 16 8 50 20 200 10 11 12 %d %d 0\n%d 2 4 0 0 1000 1023 400 0 0 0 %d 5 0\n"
                  "%d 3 1 32 4 50 20 200 20 21 22 %d %d 0\n"
                  % (number, at + 5, len(layer), number, at, number, at + 5 + len(layer),
                     len(layer)))
        page += one
    page += END
    return "64 stripes of all layers", page + bytes(LONGEST - len(page)), lines


def in_stack(program, stack, words):
    """What a driver prints in `stack` KiB and an empty environment."""
    limited = ["sh", "-c", 'ulimit -s "$1" && exec "$0" many', program, str(stack)]
    with reference_run.as_input(words) as given:
        done = subprocess.run(limited, stdin=given, stdout=subprocess.PIPE, stderr=subprocess.PIPE,
                              env={}, timeout=reference_run.SECONDS, check=False)
    return done.stdout if done.returncode == 0 else b"ended with %d" % done.returncode


def driven(program, stack, pages):
    """The same of a reader, for (page, room)s."""
    words = b"".join(big(len(page), 4) + big(room, 4) + page for page, room in pages)
    return in_stack(program, stack, words).decode("ascii", "replace")


def least_stack(program):
    """KiB, a power of two, with which a driver that is given nothing comes to its end."""
    for power in range(2, 14):
        if all(in_stack(program, 2 ** power, b"") == b"" for _ in range(STARTS)):
            return 2 ** power
    raise SystemExit("%s does not begin" % program)


def check_reader(tally, told, program, pages):
    stack = least_stack(program) + STACK
    for name, page, lines in pages:
        try:
            got = driven(program, stack, [(page, ROOM)])
        except subprocess.TimeoutExpired:
            got = "no end after %d seconds" % reference_run.SECONDS
        tally.check(got == lines + ".\n", "%s: %s: %s is due, but it says %s"
                    % (told, name, lines[:200].splitlines(), got[:200].splitlines()))
    # each page is read with a null pointer for no octets too
    page = start() + stripe() + MASK + END
    got = driven(program, stack, [(b"", 0), (b"", ROOM), (page, 0)])
    tally.check(got == "refused 1 0\n.\nrefused 1 0\n.\nrefused 13 0\n.\n",
                "%s: no page and no room: %s" % (told, got))
    print("%s: %d pages in a stack of %d KiB" % (told, len(pages) + 3, stack))


def main():
    tally = reference_run.Tally()
    pages = [*layer_pages(), *other_pages()]
    wrong = [name for name, page, lines in pages
             if len(page) != LONGEST + (lines == "refused 18 0\n")]
    tally.check(not wrong, "pages of another size: %s" % wrong)
    check_reader(tally, "the reference",
                 reference_run.build("reference_read_plain", parts=reference_run.parts_of("read")), pages)
    library = reference_run.build_library_driver(tally)
    if library is not None:
        check_reader(tally, "the library", library, pages)
    return tally.end()


if __name__ == "__main__":
    sys.exit(main())
