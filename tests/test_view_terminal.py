"""Progress on a terminal: a long run tells the line that it is at, over the same line of the screen and
only there, composed as bands or line by line, and leaves that line empty; a short one, or one whose
standard error is no terminal, says nothing of the kind.

Long and short are by a clock that goes on only where the viewer looks at it, and nothing is decoded: a
run takes the same seconds however fast the library or the machine is. VIEW names another viewer to try.
"""

import os
import pty
import re
import subprocess
import sys
import tempfile
import threading

import page_making
import reference_run
import test_outside
from view_making import END, VIEW

WIDTH, LONG, SHORT = 200, 20000, 10
PARTS = 20           # stripes of the long page, where it has several
STEP = 1             # milliseconds a look: four looks a line make a minute and more of the long page
LITTLE = "100K"      # memory for samples, and for no band of the long page

CLOCK = r"""
#include <stdlib.h>
#include <sys/syscall.h>
#include <time.h>
#include <unistd.h>

/* Each look at the clock takes so many milliseconds, and nothing else does. */
int clock_gettime(clockid_t which, struct timespec *now)
{
    static long passed = 1000000;
    if (which != CLOCK_MONOTONIC) {
        return (int)syscall(SYS_clock_gettime, which, now);
    }
    passed += atol(getenv("STEP"));
    now->tv_sec = passed / 1000;
    now->tv_nsec = passed % 1000 * 1000000;
    return 0;
}
"""


class Ended:
    """A run that has ended: its status, what standard error got, the seconds by its clock, and the
    stripes composed as bands and all of them, as --times tells these."""

    def __init__(self, words, step, shim, terminal):
        ours, theirs = pty.openpty() if terminal else os.pipe()
        with tempfile.TemporaryFile() as told:
            run = subprocess.Popen([VIEW, *words, "--times"], stdin=subprocess.DEVNULL, stdout=told, stderr=theirs,
                                   env=dict(os.environ, LD_PRELOAD=shim, STEP=str(step)))
            os.close(theirs)
            watch = threading.Timer(reference_run.SECONDS, run.kill)
            watch.start()
            self.shown = all_octets(ours)
            self.status = run.wait()
            watch.cancel()
            told.seek(0)
            times = re.search(rb"^([\d.]+) s: decoding .*\ncomposed as bands: (\d+) of (\d+) stripes$", told.read(), re.M)
        os.close(ours)
        self.seconds, *self.bands = map(float, times.groups()) if times else (0, None)

    def __str__(self):
        return "status %s, %.3f s, bands %s, %s" % (self.status, self.seconds, self.bands, self.shown[:300])


def all_octets(end):
    """What comes until the other end is closed, which a terminal tells as a fault."""
    octets = b""
    try:
        while part := os.read(end, 4096):
            octets += part
    except OSError:
        pass
    return octets


def left_on_screen(shown):
    """What stands in the line of the screen in the end: each part is written over those before it."""
    line = bytearray()
    for part in shown.split(b"\r"):
        line[:len(part)] = part
    return bytes(line).strip()


def page(height, stripes):
    """An image in the corner of each stripe."""
    stripe = page_making.stripe(type=4, x1=0, y1=0, x3=0, y3=0, height=height // stripes, mask=0)
    return (page_making.start(mask=4, main=300, width=WIDTH)
            + (stripe + test_outside.stored()["cjpeg.jpg"].octets) * stripes + END)


def check_page(tally, folder, shim, height, stripes, bands):
    """Composed as so many bands, or line by line: progress on a terminal where it takes long, none elsewhere."""
    name, what = os.path.join(folder, "in.page"), "%d lines in %d stripes, %d of them bands" % (height, stripes, bands)
    with open(name, "wb") as file:
        file.write(page(height, stripes))
    words = [name, *([] if bands else ["--memory", LITTLE]), "--unread", *("%d:3" % stripe for stripe in range(stripes))]
    for terminal, step in ((True, STEP), (False, STEP), (True, 0)):
        ended = Ended(words, step, shim, terminal)
        told = "%s, %s, %d ms a look: %s" % (what, "on a terminal" if terminal else "no terminal", step, ended)
        tally.check(ended.status == 3 and ended.bands == [bands, stripes], told)
        tally.check((ended.seconds < 1) == (height == SHORT or step == 0), told)
        if terminal and ended.seconds >= 1:
            check_progress(tally, ended, height, stripes, told)
        else:
            tally.check(ended.shown == b"", told)


def check_progress(tally, ended, height, stripes, told):
    """It begins after a second, and comes at most ten times a second and once a stripe."""
    lines = [int(line) for line in re.findall(rb"\rline (\d+) of %d " % height, ended.shown)]
    tally.check(3 <= len(lines) <= 10 * ended.seconds + stripes and lines == sorted(lines), told)
    tally.check(all(line * ended.seconds / height > 0.9 for line in lines), "too early: " + told)
    tally.check(b"\n" not in ended.shown, "progress takes more than one line: " + told)
    tally.check(left_on_screen(ended.shown) == b"", "%s is left: %s" % (left_on_screen(ended.shown), told))


def main():
    tally = reference_run.Tally()
    if not os.path.exists(VIEW):
        tally.check(False, "no build/spirerook-view: make it first")
        return tally.end()
    with tempfile.TemporaryDirectory() as folder:
        shim = os.path.join(folder, "clock.so")
        subprocess.run(["cc", "-O1", "-shared", "-fPIC", "-x", "c", "-", "-o", shim], input=CLOCK.encode(), check=True)
        for height, stripes, bands in ((SHORT, 1, 1), (LONG, 1, 0), (LONG, 1, 1), (LONG, PARTS, 0), (LONG, PARTS, PARTS)):
            check_page(tally, folder, shim, height, stripes, bands)
    return tally.end()


if __name__ == "__main__":
    sys.exit(main())
