"""The viewer's options and limits, as docs/VIEWER.md promises them: bad words, little memory, large
pages, slow decoders, places that cannot be written, signals."""

import os
import random
import re
import resource
import shutil
import signal
import subprocess
import sys
import time

import page_making
import reference_run
import sheet_making
import test_view
import view_crafted
import view_making
import view_reference
from view_crafted import jpeg_page, mask_page
from view_making import END, VIEW, Coders, Shown, bounded, children, is_alive, used_by, write

MIB = 1 << 20


class Folder:
    """A folder with a page of two stripes, layers 1 and 2 coded, then only 2; and a pencil sheet,
    not named as if it stood beside the page."""

    def __init__(self):
        self.coders = Coders()
        rng = random.Random(7)
        self.model = view_making.Page(60, 400, 4)
        for kind in (3, 2):
            self.model.add(view_making.random_stripe(rng, self.coders, self.model, 30, kind, 5), 30)
        self.page, self.out = self.path("a.page"), self.path("a.png")
        self.sheet, self.pencil = self.path("pencil.sheet"), self.path("a.pencil")
        self.octets = self.model.octets()
        write(self.page, self.octets)
        for name, octets in zip((self.sheet, self.pencil), self.model.sheet_and_pencil()):
            write(name, octets)
        view_making.write_side(self.page, self.sheet, self.pencil)

    def path(self, name):
        return self.coders.path(name)

    def new(self, name, octets):
        write(self.path(name), octets)
        return self.path(name)

    def parts(self):
        """New files that did not take their place."""
        return [name for name in os.listdir(self.coders.folder) if name.startswith(".")]


# Options

BAD = [[], ["--list"], ["-x", "PAGE"], ["--nothing", "PAGE"], ["PAGE", "PAGE"], ["PAGE", "-o"],
       ["PAGE", "--pencil"], ["PAGE", "--pencil", "SHEET"], ["PAGE", "--stripe"],
       ["PAGE", "--unread"], ["PAGE", "--memory"], ["PAGE", "--unread", "--list"],
       *(["PAGE", "--stripe", word] for word in ("x", "", "-1", "1x", "2", "64", "65536",
                                                 "18446744073709551616", "0.5", " 0")),
       *(["PAGE", "--unread", word] for word in ("0", "0:", ":1", "0:0", "0:3", "0:4", "0:16", "1:1",
                                                 "2:1", "64:1", "a:b", "0:1:2", "0:1,0:2", "-1:1",
                                                 "4294967296:1", "0:4294967297")),
       ["PAGE", "--unread", "0:1", "7:1"],
       *(["PAGE", "--memory", word] for word in ("x", "", "-1", "5G", "4097M", "1T", "1.5G", "1GB",
                                                 "4294967297", "18446744073709551617", "M")),
       ["PAGE", "-o", "PAGE"], ["PAGE", "-o", "LINK"], ["PAGE", "-o", "HARD"],
       ["PAGE", "--pencil", "SHEET", "PENCIL", "-o", "SHEET"],
       ["PAGE", "--pencil", "SHEET", "PENCIL", "-o", "PENCIL"], ["PAGE", "--list", "-o", "OUT"]]
GOOD = [["PAGE"], ["PAGE", "--stripe", "0"], ["PAGE", "--stripe", "1"], ["--times", "PAGE"],
        *(["PAGE", "--memory", word] for word in ("4G", "4096M", "300K", "100000", "4294967296"))]


def check_options(tally, folder):
    link, hard = folder.path("link.page"), folder.path("hard.page")
    os.symlink(folder.page, link)
    os.link(folder.page, hard)
    names = {"PAGE": folder.page, "SHEET": folder.sheet, "PENCIL": folder.pencil, "LINK": link,
             "HARD": hard, "OUT": folder.out}
    inputs = {name: view_making.read(name) for name in names.values() if name != folder.out}
    for words in BAD:
        shown = Shown([names.get(word, word) for word in words])
        tally.check(shown.status == 2 and shown.wrong.startswith("spirerook-view: ")
                    and not shown.told, "%s: status %s, '%s'" % (words, shown.status, shown.wrong))
    tally.check(all(view_making.read(name) == octets for name, octets in inputs.items()),
                "a file that is read was changed")
    tally.check(not os.path.exists(folder.out), "a bad option left a picture")
    for words in GOOD:
        shown = Shown([names.get(word, word) for word in words])
        tally.check(shown.status == 0 and not shown.wrong and shown.unseen() is not None,
                    "%s: status %s, '%s'" % (words, shown.status, shown.wrong))
    shown = Shown([folder.page, "--unread", "0:1", "0:2", "1:2", "--stripe", "0"])
    tally.check([shown.is_read(0, n) for n in (1, 2)] == [False] * 2 and "stripe 1" not in shown.told,
                "--unread of several layers: %s" % shown.told)
    for word in ("--help", "--version"):
        shown = Shown([word])
        tally.check(shown.status == 0 and shown.told and not shown.wrong, word)
        tally.check(Shown(["--nothing", word]).status == 2, "--nothing before " + word)


def check_list(tally, folder):
    """Each layer's place is where its data stands; nothing is decoded, so damage is no matter."""
    shown = Shown([folder.page, "--list"])
    for stripe, layer in folder.model.coded():
        if layer.number <= 3:
            due = "stripe %d, layer %d: .* %d right and %d down, %d octets from octet %d$" % (
                stripe, layer.number, layer.x, layer.y, len(layer.data),
                folder.model.places[stripe, layer.number])
            tally.check(len(re.findall(due, shown.told, re.M)) == 1,
                        "--list: no '%s' in %s" % (due, shown.told))
    tally.check(shown.status == 0 and "read" not in shown.told.lower().replace("unread", "read"),
                "--list: status %s, %s" % (shown.status, shown.told))


def check_files(tally, folder):
    """Files that are not there, or are no pages."""
    away = folder.path("nothing")
    cases = [([away], away), ([folder.coders.folder], folder.coders.folder),
             ([folder.new("empty", b"")], folder.path("empty")),
             ([folder.page, "--pencil", away, folder.pencil], away),
             ([folder.page, "--pencil", folder.sheet, away], away),
             ([folder.page, "-o", folder.path("no/a.png")], folder.path("no/a.png")),
             ([folder.page, "-o", folder.coders.folder], folder.coders.folder),
             ([folder.page, "-o", "/dev/full"], "/dev/full")]
    for words, name in cases:
        shown = Shown(words)
        tally.check(shown.status == 1 and shown.wrong.startswith(name + ": ")
                    and shown.wrong.count("\n") == 1,
                    "%s: status %s, '%s'" % (words, shown.status, shown.wrong))
    long = folder.new("long.page", folder.octets + bytes(16777216 - len(folder.octets)))
    shown = Shown([long])
    tally.check(shown.wrong.startswith(long + ": refused: TooLong (18) at octet 0"),
                "16,777,216 octets: %s" % shown.wrong)
    write(long, folder.octets + bytes(16777215 - len(folder.octets)))
    tally.check(Shown([long]).status == 0, "16,777,215 octets are refused")


# The pencil

def check_pencil(tally, folder):
    sheet, pencil = view_making.read(folder.sheet), view_making.read(folder.pencil)
    words = [folder.page, "--pencil", folder.path("b.sheet"), folder.path("b.pencil"), "-o", folder.out,
             "--no-digests"]
    write(words[3], pencil)
    for number in range(len(sheet) // 28):
        layer = number % 5 + 1
        changed = bytearray(sheet)
        field = "start" if sheet_making.get(sheet, number, "length") else "octet14"
        if layer == 2 and field == "octet14":
            continue
        sheet_making.put(changed, number, field, sheet_making.get(sheet, number, field) + 1 & 255
                         if field == "octet14" else sheet_making.get(sheet, number, field) + 1)
        write(words[2], changed)
        shown = Shown(words)
        refused = "%s: refused at record %d: layers 1 to 3 are not the page's own\n" % (words[2], number)
        tally.check((shown.wrong == refused and shown.status == 1) == (layer <= 3),
                    "record %d changed: status %s, %s" % (number, shown.status, shown.wrong))
    write(words[2], sheet[:-1])
    shown = Shown(words)
    tally.check(shown.status == 1 and shown.wrong.startswith(
        "%s: refused: BadSheet (14) at record %d" % (words[2], len(sheet) // 28 - 1)), shown.wrong)
    write(words[2], sheet)
    last = [place for place in folder.model.coded() if place[1].number > 3][-1]
    write(words[3], pencil[:-1])
    shown = Shown(words)
    tally.check("stripe %d, layer %d" % (last[0], last[1].number) in shown.told and re.search(
        "layer %d: .*UNREAD: its data passes the end of the file" % last[1].number, shown.told)
                and shown.told.count("UNREAD") == 1 and shown.status in (0, 3),
                "a short pencil file: %s %s" % (shown.told, shown.wrong))


# Memory

def check_memory(tally, folder):
    """A mask of 6,000 samples fits, the image of 72,000 octets does not."""
    layers = view_making.three(400)
    rng = random.Random(2)
    folder.coders.code(layers[1], 4, view_making.random_mask(rng, 100, 60))
    folder.coders.code(layers[0], 1, view_making.random_image(rng, 200, 120, [(9, 9, 9)]))
    page = view_making.Page(100, 400, 4).add(layers, 60)
    write(folder.page, page.octets())
    for memory, fits in (("6000", False), ("10K", False), ("71999", False), ("78000", True)):
        layers[0].unread = not fits
        shown = Shown([folder.page, "-o", folder.out, "--memory", memory], folder.out)
        found = view_reference.compared(test_view.due_lines(page), view_reference.Png(shown.out))
        tally.check(found.wrong == 0 and shown.is_read(0, 2) and shown.is_read(0, 1) == fits
                    and shown.status == (0 if fits else 3),
                    "--memory %s: %s %s" % (memory, found.first, shown.told))
        tally.check(fits or re.search("layer 1: .*UNREAD: .*--memory", shown.told), shown.told)
    # lower layers come first: the image fits, and then the mask does not
    layers[0].unread, layers[1].unread = False, True
    shown = Shown([folder.page, "-o", folder.out, "--memory", "77999"], folder.out)
    found = view_reference.compared(test_view.due_lines(page), view_reference.Png(shown.out))
    tally.check(found.wrong == 0 and re.search("layer 2: .*UNREAD: .*--memory", shown.told),
                "--memory 77999: %s %s" % (found.first, shown.told))
    write(folder.page, folder.octets)


def check_address_space(tally, folder):
    mask = view_crafted.white_mmr(8000)
    page = folder.new("large.page", mask_page(4, mask, width=32768, height=8000))
    shown = Shown([page], preexec_fn=bounded(resource.RLIMIT_AS, 200 * MIB))
    tally.check(shown.status == 3 and re.search(
        "layer 2: .*UNREAD: there is no memory for its 262144000 octets", shown.told),
                "with 200 MB: status %s, %s %s" % (shown.status, shown.told, shown.wrong))
    # from too little for the C library on to enough for all: always a picture or a reason
    page = folder.new("wide.page", mask_page(4, view_crafted.white_mmr(100), width=32768, height=100))
    statuses = set()
    for megabytes in range(8, 41):
        shown = Shown([page, "-o", folder.out], preexec_fn=bounded(resource.RLIMIT_AS,
                                                                   megabytes * MIB))
        told = "memory" in (shown.told if shown.status == 3 else shown.wrong) or shown.status == 127
        tally.check(shown.status == 0 or (shown.status in (1, 3, 127) and told and (
            shown.wrong.count("\n") == (shown.status != 3))),
                    "with %d MB: status %s, %s %s" % (megabytes, shown.status, shown.told, shown.wrong))
        statuses.add(shown.status)
    tally.check({0, 3} <= statuses, "the statuses are %s" % statuses)


def check_largest(tally, folder):
    """32768 by 65535 in 64 stripes, line by line and as bands: within a minute and the memory allowed; a
    quarter of it, but where more is tried. Time is the processor's: others may work on the machine."""
    stripes, seconds_due = (64, 60) if reference_run.trials(64) > 64 else (16, 15)
    heights = [1023] * (stripes - 1) + [65535 * stripes // 64 - (stripes - 1) * 1023]
    octets = page_making.start(mask=4, width=32768)
    for height in heights:
        mask = view_crafted.white_mmr(height)
        octets += page_making.stripe(type=2, height=height, mask=len(mask)) + mask
    page = folder.new("largest.page", octets + END)
    for memory, bands in ((40, 0), (170, stripes)):
        status, told, _, used = used_by([page, "-o", folder.out, "--times", "--memory", "%dM" % memory])
        megabytes, seconds = used.ru_maxrss / 1024, used.ru_utime + used.ru_stime
        print("the largest page in %d bands: %.1f s, %d MB" % (bands, seconds, megabytes))
        tally.check(status in (0, 3) and "32768 by %d pixels" % sum(heights) in told and told.count(": read\n") >= 10,
                    "the largest page: status %s, %s" % (status, told[-300:]))
        tally.check(seconds < seconds_due, "the largest page took %.1f s" % seconds)
        tally.check(megabytes < 64 + memory, "the largest page took %d MB" % megabytes)
        # lines that were not composed in time are unseen, and told of
        tally.check((status == 3) == ("were not composed within" in told), told[-300:])
        tally.check(status == 3 or "bands: %d of %d " % (bands, stripes) in told, told[-300:])
        tally.check(os.path.exists(folder.out) and view_making.read(folder.out).endswith(
            b"IEND\xae\x42\x60\x82"), "no whole picture of the largest page")
        write(folder.out, b"")


# Scans and time

def check_scans(tally, folder):
    for scans in (64, 199, 200, 201, 500):
        page = folder.new("scans.page", jpeg_page(view_crafted.grey_jpeg(scans, 60, 40, 1200)))
        shown = Shown([page, "-o", folder.out], folder.out)
        due = "UNREAD: it has over 200 scans;" if scans > 200 else ": read\n"
        tally.check(due in shown.told, "%d scans: %s" % (scans, shown.told))
        picture = view_reference.Png(shown.out)
        grey = view_reference.screen((128, 128, 96))
        tally.check((picture.pixel(59, 39) == grey) == (scans <= 200),
                    "%d scans: %s" % (scans, picture.pixel(59, 39)))


def slow_jpeg(folder, seconds):
    """200 scans over so many blocks that they take this machine so many seconds; at most 1 GB of
    them."""
    small = folder.new("small.page", jpeg_page(view_crafted.grey_jpeg(200, 2000, 2000, 1200)))
    spent = used_by([small])[3].ru_utime
    side = int(min(2000 * (seconds / spent) ** 0.5, 22000))
    return view_crafted.grey_jpeg(200, side, side, 1200)


def check_time(tally, folder):
    """Two decoders end after ten seconds of the processor, the third when 25 are over, the fourth has
    none left; with a fifth of these times, but where more is tried."""
    most = 10 if reference_run.trials(64) > 64 else 2
    slow, quick = slow_jpeg(folder, 2.5 * most), view_crafted.grey_jpeg(64, 60, 40, 1200)
    page = folder.new("slow.page", jpeg_page(quick, slow, slow, slow, quick))
    shown = Shown([page, "-o", folder.out, "--memory", "2G", "--seconds", "%d:%d" % (most, 60 * most)], folder.out)
    reasons = [re.search("stripe %d, layer 1: [^:]*: ([^;\n]*)" % n, shown.told) for n in range(5)]
    reasons = [found and found[1] for found in reasons]
    over = ["UNREAD: its decoder took over %d seconds of the processor" % most] * 2
    used = ["UNREAD: no time is left for its decoder"] * 2
    tally.check(reasons == ["read", *over, *used], "slow decoders: %s %s" % (reasons, shown.status))
    tally.check(shown.unseen() == (60 * 160, 60 * 200) and shown.status == 3,
                "slow decoders: %s" % shown.told)


# Places that cannot be written, signals

def check_time_before(tally, folder):
    """What a program took before it became the viewer, itself or by what it waited for, is not the
    page's time."""
    spend = "import time\nwhile time.process_time() < 2.5: pass\n"
    wait = "import subprocess, sys\nsubprocess.run([sys.executable, '-c', %r])\n" % spend
    become = "import os, sys\nos.execv(sys.argv[1], sys.argv[1:])"
    done = subprocess.run([sys.executable, "-c", spend + wait + become, VIEW, folder.page, "--seconds", "1:60"],
                          check=False, stdout=subprocess.PIPE)
    tally.check(done.returncode == 0 and b"UNREAD" not in done.stdout,
                "time before the start counts: %s" % done.stdout.decode())


def check_full(tally, folder):
    """A picture that does not fit leaves what stood there before, and no part of itself."""
    for old in (None, b"an old picture"):
        for bound in (0, 1, 100):
            if old:
                write(folder.out, old)
            shown = Shown([folder.page, "-o", folder.out], folder.out,
                          preexec_fn=bounded(resource.RLIMIT_FSIZE, bound))
            tally.check(shown.status == 1 and shown.out == old and not folder.parts()
                        and re.fullmatch(re.escape(folder.out) + r": [^\n]+\n", shown.wrong),
                        "bound %d: status %s, %s" % (bound, shown.status, shown.wrong))
    os.remove(folder.out)
    mounted = folder.path("small")
    os.mkdir(mounted)
    if os.getuid() or subprocess.run(["mount", "-t", "tmpfs", "-o", "size=4k", "none", mounted],
                                     stderr=subprocess.DEVNULL, check=False).returncode:
        print("a full disk is not tried: no file system can be mounted here")
        return
    try:
        check_mounted(tally, folder, mounted)
    finally:
        subprocess.run(["umount", mounted], check=False)


def check_mounted(tally, folder, mounted):
    """A real file system that is full, then one that may only be read."""
    out = os.path.join(mounted, "a.png")
    rng = random.Random(3)
    page = mask_page(8, folder.coders.mask(8, [[rng.randrange(2) for _ in range(300)]] * 1 + [
        [rng.randrange(2) for _ in range(300)] for _ in range(299)]), width=300, height=300)
    page = folder.new("noise.page", page)
    for only in ("full", "read only"):
        if only != "full":
            subprocess.run(["mount", "-o", "remount,ro", mounted], check=True)
        shown = Shown([page, "-o", out], out)
        tally.check(shown.status == 1 and not os.listdir(mounted) and re.fullmatch(
            re.escape(out) + r": [^\n]+\n", shown.wrong), "%s: %s %s %s" % (
                only, shown.status, shown.wrong, os.listdir(mounted)))


def plain_signals():
    """Under nohup, or in the background of a shell, some are ignored by all that is started."""
    for number in (signal.SIGHUP, signal.SIGINT, signal.SIGQUIT, signal.SIGTERM, signal.SIGPIPE):
        signal.signal(number, signal.SIG_DFL)


def check_signals(tally, folder):
    page = folder.new("slow.page", jpeg_page(slow_jpeg(folder, 25)))
    for number in (signal.SIGTERM, signal.SIGINT, signal.SIGHUP, signal.SIGQUIT, signal.SIGKILL):
        write(folder.out, b"an old picture")
        run = subprocess.Popen([VIEW, page, "-o", folder.out, "--memory", "2G"],
                               stdout=subprocess.DEVNULL, preexec_fn=plain_signals)
        until = time.monotonic() + 60
        while not (decoders := children(run.pid)) and time.monotonic() < until:
            time.sleep(0.01)
        run.send_signal(number)
        status = run.wait(60)
        until = time.monotonic() + 60
        while any(map(is_alive, decoders)) and time.monotonic() < until:
            time.sleep(0.01)
        tally.check(status == -number and decoders and not any(map(is_alive, decoders)),
                    "signal %d: status %s, decoders %s" % (number, status, decoders))
        tally.check(view_making.read(folder.out) == b"an old picture", "the old picture is lost")
        # no program can clear up after SIGKILL
        tally.check(number == signal.SIGKILL or not folder.parts(), "left: %s" % folder.parts())


def check_outputs(tally, folder):
    """Standard output or error closed or full: told by the status, and never part of the picture."""
    rng = random.Random(5)
    large = view_making.random_page(rng, folder.coders, False, 64)
    for name, octets in (("small", folder.octets), ("large", large.octets())):
        page = folder.new(name + ".page", octets)
        good = Shown([page, "-o", folder.out], folder.out).out
        for shell, statuses in ((">/dev/full", (1,)), (">&-", (0, 1)), ("2>&-", (0,)),
                                ("<&- >&- 2>&-", (0, 1)), ("<&-", (0,)), ("2>/dev/full", (0,))):
            os.remove(folder.out)
            words = [VIEW, page, "-o", folder.out]
            done = subprocess.run(["bash", "-c", '"$@" ' + shell, "bash", *words], check=False,
                                  stdout=subprocess.DEVNULL, stderr=subprocess.PIPE)
            there = os.path.exists(folder.out)
            tally.check(done.returncode in statuses and not folder.parts()
                        and (view_making.read(folder.out) == good if there
                             else done.returncode == 1),
                        "%s page with %s: status %d, the picture is %s" % (
                            name, shell, done.returncode, "spoilt" if there else "not there"))
            write(folder.out, good)


def main():
    tally = reference_run.Tally()
    if not view_making.prepare(tally):
        return tally.end()
    for check in (check_options, check_list, check_files, check_pencil, check_memory,
                  check_address_space, check_scans, check_full, check_signals, check_outputs,
                  check_largest, check_time, check_time_before):
        began = time.monotonic()
        folder = Folder()
        check(tally, folder)
        shutil.rmtree(folder.coders.folder, ignore_errors=True)
        print("%s: %.1f s" % (check.__name__, time.monotonic() - began))
    return tally.end()


if __name__ == "__main__":
    sys.exit(main())
