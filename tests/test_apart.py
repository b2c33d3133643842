"""What a decoder does stays in its process: it fills its own layer or none.

A library is preloaded (tests/driver/taken_over.c) that stands for a decoder which strays, ends early or
has been taken over; the viewer must show every other layer as it is, as root and as another user, and
end. Then the process itself is looked at: its memory, descriptors and limits.
"""

import concurrent.futures
import os
import random
import re
import resource
import shutil
import signal
import subprocess
import sys
import tempfile
import time

import make_kit
import page_making
import reference_run
import test_view
import view_crafted
import view_making
import view_reference
from view_making import END, VIEW, Coders, Shown, bounded, children, is_alive, write

NOBODY = 65534
CALLS = 512          # of the system; Linux has under 480
PROBES = (335, 336)  # the kernel's own, which no filter sees; without a probe they do nothing
FORBIDDEN = "its decoder tried what no decoder may do"
BROKE_OFF = "its decoder broke off"
# deed, the reason that is due in the sandbox, and without
DEEDS = [("stray-below", BROKE_OFF, BROKE_OFF), ("stray-above", BROKE_OFF, BROKE_OFF),
         ("stray-all", BROKE_OFF, BROKE_OFF), ("exit:0", BROKE_OFF, BROKE_OFF), ("exit:1", BROKE_OFF, BROKE_OFF),
         ("exit:113", BROKE_OFF, BROKE_OFF), ("leave:0", FORBIDDEN, BROKE_OFF), ("forge", BROKE_OFF, BROKE_OFF),
         ("flood", BROKE_OFF, BROKE_OFF), ("keep", FORBIDDEN, BROKE_OFF),
         ("spin", "its decoder took over 1 seconds of the processor", "its decoder took over 1 seconds of the processor")]
OTHERS = ["write-file", "read-file", "socket", "unix-socket", "memory-file", "stop-viewer", "read-input", "speak",
          "shout", "dumpable", "program", "grandchild", "hold-viewer", "write-viewer", "code", "turn-to-code",
          "poison", "offline", "limits", "32-bits", "x32"]


class Desk:
    """A folder that anybody may use, with the preloaded library and a page whose layer 4 is T.85, between
    layers of other coders."""

    def __init__(self):
        self.coders = Coders()
        os.chmod(self.coders.folder, 0o777)
        # other users may not enter the folder that the programs were built in
        self.view, self.make = (shutil.copy(program, self.path(os.path.basename(program)))
                                for program in (VIEW, make_kit.PROGRAM))
        self.shim, self.no_seccomp = self.path("taken_over.so"), self.path("no_seccomp")
        for words in (["-shared", "-fPIC", "-o", self.shim, *reference_run.in_driver("taken_over.c"), "-ldl"],
                      ["-o", self.no_seccomp, *reference_run.in_driver("no_seccomp.c")]):
            subprocess.run(["cc", "-std=c11", "-D_GNU_SOURCE", "-Wall", "-Wextra", "-O1", *words], check=True)
        rng = random.Random(11)
        self.model = view_making.Page(200, 400, 4)
        few = [view_making.WHITE, view_making.BLACK]
        layers = view_making.random_stripe(rng, self.coders, self.model, 60, 7, 3)
        for number, coder in ((4, 8), (5, None), (6, 4), (7, None)):
            base = (0, 0, 0) if number % 2 == 0 else view_making.random_colour(rng, few)
            layers.append(view_reference.Layer(number, base, 400))
            if coder:
                self.coders.code(layers[-1], coder, view_making.random_mask(rng, 90, 40), 10 * number, 5)
        self.model.add(layers, 60)
        self.words, self.out = test_view.words_for(self.coders, self.model)
        self.alone = self.path("alone.page")    # without its pencil
        write(self.alone, self.model.octets())

    def path(self, name):
        return os.path.join(self.coders.folder, name)

    def taken(self, deed, **more):
        """The environment of a decoder that does a deed."""
        return {**os.environ, "LD_PRELOAD": self.shim, "DEED": deed, "TAKEN_FILE": self.path("taken"), **more}

    def show(self, *words, **settings):
        if os.path.exists(self.out):
            os.remove(self.out)
        return Shown([*self.words, "--seconds", "1:60", *words], self.out, self.view, 60, **settings)


def as_nobody():
    os.setgroups([])
    os.setgid(NOBODY)
    os.setuid(NOBODY)


def users():
    """How to start a program as each user that can be had."""
    return [("root", None), ("another user", as_nobody)] if os.getuid() == 0 else [("this user", None)]


def shares_sealed():
    """Whether this system lets a sealed file be shared for reading."""
    return tuple(map(int, re.findall(r"\d+", os.uname().release)[:2])) >= (6, 7)


def lines_without(desk, layer):
    """The page as it is with a layer unread, or with none."""
    for _, one in desk.model.coded():
        one.unread = one.number == layer
    return test_view.due_lines(desk.model)


def is_shown(desk, shown, layer):
    """Whether the picture is the page's with this layer unread, and its line and no other says so."""
    if shown.out is None:
        return "no picture, status %s: %s" % (shown.status, shown.wrong)
    found = view_reference.compared(lines_without(desk, layer), view_reference.Png(shown.out))
    unread = [n for n in range(1, 8) if shown.is_read(0, n) is False and n not in (5, 7)]
    due = [layer] if layer else []
    if found.wrong or unread != due or shown.told.count("UNREAD") != len(due):
        return "%d pixels are wrong, the first %s; unread are %s" % (found.wrong, found.first, unread)
    return None


def check_deed(tally, desk, deed, reason, *words, **settings):
    """The layer is unread for this reason, the others are as they are, and nothing is left behind."""
    began = time.monotonic()
    shown = desk.show(*words, env=desk.taken(deed), **settings)
    wrong = is_shown(desk, shown, 4)
    told = re.search(r"layer 4: .*UNREAD: ([^;]*);", shown.told)
    tally.check(wrong is None and told and told[1] == reason and shown.status == 3,
                "%s %s: %s; '%s'" % (deed, words, wrong, told and told[1]))
    tally.check(time.monotonic() - began < 30, "%s %s: it took %.0f s" % (deed, words, time.monotonic() - began))
    tally.check(not os.path.exists(desk.path("taken")), "%s %s: a file was written" % (deed, words))


def check_deeds(tally, desk):
    shown = desk.show(env=desk.taken("none"))
    tally.check(is_shown(desk, shown, None) is None and shown.status in (0, 3),
                "a decoder that does nothing wrong: %s %s" % (is_shown(desk, shown, None), shown.told))
    for user, start in users():
        for deed, reason, _ in DEEDS:
            check_deed(tally, desk, deed, reason, preexec_fn=start)
        for name in OTHERS:
            check_deed(tally, desk, "other:" + name, FORBIDDEN, preexec_fn=start)
    # layers stay apart even where there is no sandbox
    for deed, _, reason in DEEDS:
        check_deed(tally, desk, deed, reason, "--no-sandbox")
    for user, start in users() if shares_sealed() else []:
        wrong = is_shown(desk, desk.show("--no-sandbox", env=desk.taken("memory"), preexec_fn=start), None)
        tally.check(wrong is None, "layers that were read before are written over, as %s: %s" % (user, wrong))
    # nor can it trace the viewer there, but as root
    for user, start in users():
        for deed in ("memory", "other:hold-viewer", "other:write-viewer") if user != "root" else ():
            wrong = is_shown(desk, desk.show("--no-sandbox", env=desk.taken(deed), preexec_fn=start), None)
            tally.check(wrong is None, "%s, without a sandbox, as %s: %s" % (deed, user, wrong))
    time.sleep(1.2)
    tally.check(not os.path.exists(desk.path("taken")), "a grandchild was left, and wrote a file")


def check_calls(tally, desk):
    """Every number of a system call but those that decoding needs ends the process."""
    mask = view_crafted.white_t85(8, 4)
    octets = page_making.start(mask=8, width=8)
    for _ in range(64):
        octets += page_making.stripe(type=2, height=4, mask=len(mask)) + mask
    page = desk.path("calls.page")
    write(page, octets + END)

    def tried(run):
        first, start = run
        shown = Shown([page], view=desk.view, env=desk.taken("calls:%d" % first), seconds=60, preexec_fn=start)
        reasons = re.findall(r"layer 2: T.85, 8 by 4 at \d+ to the inch: (.*?)[;\n]", shown.told + "\n")
        return [(first + k, reason) for k, reason in enumerate(reasons) if reason != "UNREAD: " + FORBIDDEN and first + k not in PROBES], len(reasons)
    with concurrent.futures.ThreadPoolExecutor(2) as pool:
        runs = [(first, start) for _, start in users() for first in range(0, CALLS, 64)]
        for wrong, count in pool.map(tried, runs):
            tally.check(not wrong and count == 64, "system calls that are let through: %s of %d" % (wrong[:5], count))


# No sandbox, no process, no descriptor

def check_no_seccomp(tally, desk):
    """Where the system has no sandbox nothing is decoded, unless that is asked for."""
    for words, all_read in (([], False), (["--no-sandbox"], True)):
        done = subprocess.run([desk.no_seccomp, VIEW, *desk.words, *words], check=False, stdout=subprocess.PIPE)
        told = done.stdout.decode()
        unread = told.count("UNREAD: this system has no sandbox for its decoder (--no-sandbox does without)")
        tally.check(("decoded without a sandbox (--no-sandbox)\n" in told) == all_read, "told: %s" % told)
        tally.check(unread == (0 if all_read else 5) and told.count(": read\n") == (5 if all_read else 0)
                    and done.returncode in ((0, 3) if all_read else (3,)), "no seccomp %s: %s" % (words, told))


def check_little(tally, desk):
    """Too few processes, descriptors or octets of a file are told as such."""
    cases = [*((resource.RLIMIT_NOFILE, bound, "Too many open files") for bound in (4, 5, 6)),
             (resource.RLIMIT_FSIZE, 100, "File too large")]
    if os.getuid() == 0:
        cases.append((resource.RLIMIT_NPROC, 0, "Resource temporarily unavailable"))
    for kind, bound, words in cases:
        def start(kind=kind, bound=bound):
            if kind == resource.RLIMIT_NPROC:
                as_nobody()
            resource.setrlimit(kind, (bound, bound))
        shown = Shown([desk.alone], view=desk.view, preexec_fn=start)
        told = shown.told.count("UNREAD: its decoder could not be started: " + words)
        tally.check(shown.status == 3 and told == 3, "%s: %s %s" % (words, shown.told, shown.wrong))
    def no_children():
        signal.signal(signal.SIGCHLD, signal.SIG_IGN)
    shown = desk.show(preexec_fn=no_children)
    tally.check(is_shown(desk, shown, None) is None, "SIGCHLD ignored: %s" % shown.told)


def check_memory_bound(tally, desk):
    """A decoder has --memory and a little more, also where there is no /proc that tells what it has."""
    ways = [["env"]]
    if os.getuid() == 0:
        ways.append(["unshare", "-m", "sh", "-c", 'mount -t tmpfs none /proc && exec env "$@"', "sh"])
    for way in ways:
        for megabytes, is_read in ((32, True), (200, False)):
            done = subprocess.run([*way, "LD_PRELOAD=" + desk.shim, "DEED=eat:%d" % megabytes, VIEW, *desk.words,
                                   "--memory", "1M"], check=False, stdout=subprocess.PIPE, stderr=subprocess.PIPE)
            told = re.search(r"layer 4: T.85, .*: (read|UNREAD: [^;]*)", done.stdout.decode())
            tally.check(told and told[1] == ("read" if is_read else "UNREAD: " + BROKE_OFF),
                        "%d MiB with %s: %s" % (megabytes, way[0], told and told[1] or done))


# The process itself

def mapped(pid):
    """(address, rights, name) of each mapping of a process."""
    with open("/proc/%d/maps" % pid, encoding="ascii") as file:
        rows = [line.split(None, 5) for line in file]
    return [(row[0], row[1], row[5].strip() if len(row) > 5 else "") for row in rows]


def facts(pid, name):
    with open("/proc/%d/%s" % (pid, name), encoding="ascii") as file:
        return file.read()


def slow_page(desk):
    """A page whose first two layers are quickly read and whose third takes seconds."""
    rng = random.Random(3)
    layers = view_making.random_stripe(rng, desk.coders, view_making.Page(200, 1200, 4), 60, 3, 3)
    page = view_making.Page(200, 1200, 4).add(layers, 60)
    slow = view_crafted.grey_jpeg(200, 6000, 6000, 1200)
    layers[2].coder, layers[2].data, layers[2].width, layers[2].height = 1, slow, 6000, 6000
    layers[2].rows = []
    write(desk.path("slow.page"), page.octets())
    return desk.path("slow.page")


def third_decoder(viewer):
    """The process that decodes layer 3: by then the viewer holds two layers."""
    until = time.monotonic() + 60
    while time.monotonic() < until:
        held = [row for row in mapped(viewer) if "samples" in row[2]]
        found = children(viewer)
        if len(held) == 2 and found and "Seccomp:\t2" in facts(found[0], "status"):
            return found[0], held
        time.sleep(0.005)
    return None, []


def check_process(tally, desk):
    if os.getuid() != 0:
        print("the process of a decoder is not looked at: that takes root")
        return
    viewer = subprocess.Popen([VIEW, slow_page(desk)], stdout=subprocess.DEVNULL)
    try:
        decoder, held = third_decoder(viewer.pid)
        tally.check(decoder is not None, "no decoder of the third layer was seen")
        if decoder is None:
            return
        check_memory(tally, viewer.pid, decoder, held)
        status, limits = facts(decoder, "status"), facts(decoder, "limits")
        tally.check("NoNewPrivs:\t1" in status and "Seccomp:\t2" in status, "its status: %s" % status)
        for name in ("core file size", "file size", "processes"):
            tally.check(re.search(r"Max %s +0 +0 " % name, limits), "its limits: %s" % limits)
        folder = "/proc/%d/fd" % decoder
        files = {number: os.readlink(os.path.join(folder, number)) for number in os.listdir(folder)}
        tally.check(sorted(files) == ["0", "1", "2", "3"] and files["3"].startswith("pipe:")
                    and {files[number] for number in "012"} == {"/dev/null"}, "its descriptors: %s" % files)
        tally.check(os.stat("/proc/%d/maps" % decoder).st_uid == 0 and "dumpable" not in status, "dumpable")
    finally:
        viewer.kill()
        viewer.wait()
    until = time.monotonic() + 10
    while is_alive(decoder) and time.monotonic() < until:
        time.sleep(0.01)
    tally.check(not is_alive(decoder), "a decoder lives on without its viewer")


def writes_memory(pid, address):
    """Whether root can write there as one who traces the process."""
    file = os.open("/proc/%d/mem" % pid, os.O_RDWR)
    try:
        return os.pwrite(file, b"\0", address) == 1
    except OSError:
        return False
    finally:
        os.close(file)


def check_memory(tally, viewer, decoder, held):
    """Layers that were read can be written by nobody; the one that is decoded stands between pages that
    cannot be touched, alone."""
    due = "r--s" if shares_sealed() else "r--p"
    tally.check(all(rights == due for _, rights, _ in held), "the viewer's layers: %s" % held)
    for place, _, _ in held:
        low, high = (int(word, 16) for word in place.split("-"))
        tally.check(due == "r--p" or not writes_memory(viewer, low), "a layer is written through /proc/PID/mem")
        file = os.open("/proc/%d/map_files/%x-%x" % (viewer, low, high), os.O_RDWR)
        try:
            os.pwrite(file, b"\0", 0)
            written = True
        except PermissionError:
            written = False
        os.close(file)
        tally.check(not written, "a layer that was read can be written")
    rows = mapped(decoder)
    own = [k for k, row in enumerate(rows) if "samples" in row[2]]
    tally.check(len(own) == 1 and rows[own[0]][1] == "rw-s", "the decoder's layers: %s" % [rows[k] for k in own])
    low, high = rows[own[0]][0].split("-")
    around = [rows[own[0] - 1], rows[own[0] + 1]]
    tally.check([row[1] for row in around] == ["---p"] * 2 and around[0][0].endswith("-" + low)
                and around[1][0].startswith(high + "-"), "around its samples: %s" % around)
    shared = [row for k, row in enumerate(rows) if "w" in row[1] and "s" in row[1] and k not in own]
    tally.check(shared == [], "the decoder shares %s" % shared)


def check_load(tally, desk):
    """The same page gives the same answer while others work: the processor's time counts, not the clock's.
    A fifth of what is allowed is asked for, since beside others a processor does less in its own time too."""
    small = desk.path("small.page")
    write(small, view_crafted.jpeg_page(view_crafted.grey_jpeg(200, 2000, 2000, 1200)))
    used = view_making.used_by([small])[3]
    side = int(2000 * (0.2 / (used.ru_utime + used.ru_stime)) ** 0.5)
    page = desk.path("load.page")
    write(page, view_crafted.jpeg_page(view_crafted.grey_jpeg(200, side, side, 1200)))
    busy = [subprocess.Popen([sys.executable, "-c", "while True: pass"]) for _ in range(8 * os.cpu_count())]
    began = time.monotonic()
    shown = Shown([page, "--seconds", "1:60"])
    spent = time.monotonic() - began
    for one in busy:
        one.kill()
        one.wait()
    print("a decoder of less than a second took %.1f s beside %d others" % (spent, len(busy)))
    tally.check("layer 1: JPEG, %d by %d at 1200 to the inch, grey: read" % (side, side) in shown.told,
                "under load: %s" % shown.told)


# The page maker

def check_maker(tally, desk):
    """A PNG reader that was taken over makes nothing."""
    with tempfile.TemporaryDirectory() as folder:
        os.chmod(folder, 0o777)
        write(os.path.join(folder, "i.png"), make_kit.png(9, 5, 2, 8, lambda x, y: (x, y, 9)))
        plan = "resolution 400\nwidth 40\nstripe\nheight 9\nbackground i.png\n"
        deeds = [("exit:0", "its reader broke off"), ("exit:113", "its reader broke off"),
                 ("forge", "its reader broke off"),
                 *(("other:" + name, "its reader tried what no reader may do") for name in OTHERS)]
        for user, start in users():
            for deed, words in deeds:
                status, told, wrong = make_kit.make(folder, plan, program=desk.make, env=desk.taken(deed),
                                                    start=start)
                tally.check((status, told, wrong) == (1, "", "spirerook-make: p.plan:5: i.png: %s\n" % words),
                            "a taken PNG reader, %s, as %s: %s" % (deed, user, (status, told, wrong)))
                tally.check(sorted(os.listdir(folder)) == ["i.png", "p.plan"] and not os.path.exists(desk.path("taken")),
                            "%s leaves %s" % (deed, os.listdir(folder)))
        done = subprocess.run([desk.no_seccomp, make_kit.PROGRAM, "p.plan", "-o", "p.page"], cwd=folder, check=False,
                              stderr=subprocess.PIPE)
        tally.check(done.returncode == 1 and b"this system has no sandbox for its reader" in done.stderr, "%s" % done)
        done = subprocess.run([desk.no_seccomp, make_kit.PROGRAM, "p.plan", "-o", "p.page", "--no-sandbox"], cwd=folder,
                              check=False, stdout=subprocess.PIPE, stderr=subprocess.PIPE)
        tally.check(done.returncode == 0 and os.path.exists(os.path.join(folder, "p.page")), "%s" % done)


def main():
    tally = reference_run.Tally()
    if not view_making.prepare(tally):
        return tally.end()
    desk = Desk()
    for check in (check_deeds, check_calls, check_no_seccomp, check_little, check_memory_bound,
                  check_process, check_load, check_maker):
        began = time.monotonic()
        check(tally, desk)
        print("%s: %.1f s" % (check.__name__, time.monotonic() - began))
    return tally.end()


if __name__ == "__main__":
    sys.exit(main())
