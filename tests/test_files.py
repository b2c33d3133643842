"""The files of the viewer and the page maker, as docs/VIEWER.md promises: no input freezes them,
nothing that they write is lost or left in part, and no line is lost with standard output.

VIEW and MAKE_PAGE name other programs to try."""

import os
import pty
import random
import resource
import shutil
import subprocess
import sys
import tempfile
import threading
import time

import files_kept
import page_making
import reference_run
import view_crafted
import view_making
from files_kit import MAKE, OUTPUTS, VIEW, Folder, Run, build_faults
from make_kit import write

PIPE_SECONDS = 20    # host/file.h
LATEST = PIPE_SECONDS + 8
NOTHING = "no octets came within %d seconds" % PIPE_SECONDS
NOT_ALL = "its octets did not all come within %d seconds" % PIPE_SECONDS
NO_INPUT = "this is neither a file nor a pipe"
ROUNDS = reference_run.trials(6)


# ---- inputs

def with_input(folder, role, name):
    """The words of a run that reads this name as its page, sheet, pencil file or plan."""
    names = {"page": "p.page", "sheet": "p.sheet", "pencil": "p.pencil", "plan": "p.plan", role: name}
    if role == "plan":
        return [MAKE, name, "-o", "q.page", "--pencil", "q.sheet", "q.pencil"]
    return [VIEW, names["page"], "--pencil", names["sheet"], names["pencil"]]


class Started:
    """A run in the background that is due to end with one line on standard error."""

    def __init__(self, words, folder, due, what, stdin=subprocess.DEVNULL):
        self.due, self.what, self.began = due, what, time.monotonic()
        self.lines = tempfile.TemporaryFile()
        self.run = subprocess.Popen(words, cwd=folder.name, stdin=stdin, stdout=subprocess.DEVNULL,
                                    stderr=self.lines)

    def check(self, tally):
        try:
            status = self.run.wait(max(0.1, self.began + LATEST - time.monotonic()))
        except subprocess.TimeoutExpired:
            self.run.kill()
            self.run.wait()
            status = "no end after %d seconds" % LATEST
        self.lines.seek(0)
        told = self.lines.read().decode("utf-8", "replace")
        tally.check(status == 1 and told.endswith(": %s\n" % self.due) and told.count("\n") == 1,
                    "%s: status %s, '%s'; due is '%s'" % (self.what, status, told[:300], self.due))
        self.lines.close()


def feed(end, octets, pause, stop):
    """Writes an octet now and then, until nobody reads or the test ends."""
    try:
        for k in range(10 ** 6):
            os.write(end, octets[k % len(octets):][:1])
            if stop.wait(pause):
                break
    except OSError:
        pass
    os.close(end)


def deliver_late(path, octets, seconds):
    """All octets into a FIFO, after so many seconds."""
    time.sleep(seconds)
    try:
        with open(os.open(path, os.O_WRONLY | os.O_NONBLOCK), "wb") as file:
            file.write(octets)
    except OSError:     # nobody reads it any more
        pass


def start_inputs(folder, stop):
    """Each input as what never comes, comes slowly, or is no file."""
    started = []
    ours, theirs = pty.openpty()
    for role in ("page", "sheet", "pencil", "plan"):
        fifo = folder.path("no-writer." + role)
        os.mkfifo(fifo)
        started.append(Started(with_input(folder, role, fifo), folder, NOTHING,
                               "a FIFO without a writer as " + role))
        read_end, write_end = os.pipe()
        started.append(Started(with_input(folder, role, "/dev/stdin"), folder, NOT_ALL,
                               "a slow pipe as " + role, read_end))
        os.close(read_end)
        threading.Thread(target=feed, args=(write_end, b"# ", 1, stop), daemon=True).start()
        for name in ("/dev/zero", os.ttyname(theirs)):
            started.append(Started(with_input(folder, role, name), folder, NO_INPUT,
                                   "%s as %s" % ("a terminal" if name != "/dev/zero" else name, role)))
    silent, kept = os.pipe()
    started.append(Started(with_input(folder, "page", "/dev/stdin"), folder, NOTHING,
                           "a pipe that nobody writes to", silent))
    os.close(silent)
    late, never = folder.path("late"), folder.path("never")
    os.mkfifo(late)
    os.mkfifo(never)
    started.append(Started([VIEW, late, "--pencil", never, "p.pencil"], folder, NOTHING,
                           "two pipes, whose seconds are counted together"))
    threading.Thread(target=deliver_late, args=(late, folder.new["p.page"], 10), daemon=True).start()
    return started, (ours, theirs, kept)


def check_pipes(tally, folder):
    """Octets that come are read, from one pipe or three, and a pipe that ends empty ends at once."""
    pipes = []
    for name in OUTPUTS[:3]:
        read_end, write_end = os.pipe()
        threading.Thread(target=lambda end=write_end, octets=folder.new[name]: (
            os.write(end, octets), os.close(end))).start()
        pipes.append(read_end)
    words = [VIEW, "/dev/fd/%d" % pipes[0], "--pencil", *("/dev/fd/%d" % end for end in pipes[1:]),
             "--no-digests"]
    plain = Run([VIEW, "p.page", "--pencil", "p.sheet", "p.pencil"], folder.name)
    piped = Run(words, folder.name, pass_fds=pipes)
    names = lambda told: [line.split(": ", 1)[1] for line in told.splitlines() if ": stripe " in line]
    tally.check(piped.status == plain.status == 0 and names(piped.told) == names(plain.told),
                "three pipes: %s; files: %s" % (piped, plain))
    for end in pipes:
        os.close(end)
    shell = lambda words: Run(["bash", "-c", words, "bash", VIEW, MAKE], folder.name)
    ran = shell('cat in.page | "$1" /dev/stdin -o piped.png')
    tally.check(ran.status == 0 and folder.octets("piped.png") == folder.picture, "a pipe: %s" % ran)
    ran = shell('sed "s|m.pbm|$PWD/m.pbm|" p.plan | "$2" /dev/stdin -o q.page --pencil q.sheet q.pencil')
    tally.check(ran.status == 0 and folder.octets("q.page") == folder.new["p.page"],
                "a plan from a pipe: %s" % ran)
    began = time.monotonic()
    ran = shell('true | "$1" /dev/stdin')
    tally.check(ran.wrong.startswith("/dev/stdin: refused: Short (1) at octet 0: ")
                and time.monotonic() - began < PIPE_SECONDS / 2, "an empty pipe: %s" % ran)
    endless = shell('"$1" /dev/stdin < <(cat /dev/zero)')
    tally.check(endless.status == 1 and ": refused: " in endless.wrong, "an endless pipe: %s" % endless)


# ---- standard output

def no_reader():
    """The end of a pipe that nobody reads from."""
    read_end, write_end = os.pipe()
    os.close(read_end)
    return os.fdopen(write_end, "wb")


def full_file(folder):
    """The end of a file that may not grow, where files have at most 1 MiB."""
    file = open(folder.path("full"), "ab")
    file.truncate(1 << 20)
    return file


def check_lines(tally, folder):
    """Where standard output is closed, full or without a reader all lines stand on standard error,
    and the files are written."""
    bounded = view_making.bounded(resource.RLIMIT_FSIZE, 1 << 20)
    for words, due, outs in ((folder.showing(), folder.shown.told, ("a.png",)),
                             (folder.making(), folder.made.told, OUTPUTS)):
        new = {name: folder.octets(name) for name in outs}
        for what in ("closed", "full", "a full file", "without a reader", "read by head -1"):
            for name in outs:
                os.remove(folder.path(name))
            shell = {"closed": '"$@" >&-', "read by head -1": '"$@" | head -1; exit ${PIPESTATUS[0]}'}
            run = ["bash", "-c", shell.get(what, 'exec "$@"'), "bash", *words]
            to = (open("/dev/full", "wb") if what == "full" else full_file(folder)
                  if what == "a full file" else no_reader() if what == "without a reader" else None)
            ran = Run(run, folder.name, stdout=to or subprocess.PIPE,
                      preexec_fn=bounded if what == "a full file" else None)
            if to:
                to.close()
            lines = ran.told + "".join(line + "\n" for line in ran.wrong.splitlines()
                                       if not line.startswith("spirerook-"))
            # of a pipe's octets nobody can tell how many its reader took before it went
            whole = lines == due if ran.status == 1 and "head" not in what else (
                "head" in what and ran.status in (0, 1) and lines.startswith(due.split("\n")[0])
                and due.endswith(lines.split("\n", 1)[1]))
            tally.check(whole and {name: folder.octets(name) for name in outs} == new,
                        "%s, standard output %s: %s; due is %s" % (os.path.basename(words[0]), what,
                                                                   ran, due))
            for name, octets in new.items():
                write(folder.path(name), octets)


def check_replaced(tally, folder):
    """No output takes the place of the file that lines go to."""
    show = folder.showing()
    for words, names in ((show, ("a.png",)), (folder.making(), OUTPUTS)):
        for name in names:
            for number, standard in ((1, "standard output"), (2, "standard error")):
                for old in (b"", b"an old file\n"):
                    write(folder.path(name), old)
                    others = {other: folder.octets(other) for other in names if other != name}
                    ran = Run(["bash", "-c", '"$@" %d>>%s' % (number, name), "bash", *words], folder.name)
                    told = ran.wrong.encode() if number == 1 else folder.octets(name)[len(old):]
                    tally.check(ran.status == 2 and told.startswith(b"spirerook-")
                                and told.endswith(b" take the place of %s\n" % standard.encode())
                                and folder.octets(name) == (old if number == 1 else old + told)
                                and others == {other: folder.octets(other) for other in others},
                                "%s over %s: %s, %s" % (name, standard, ran, told[:300]))
            write(folder.path(name), folder.new.get(name, folder.picture))


def check_told_into(tally, folder):
    """No lines are written into what is read."""
    for name in ("p.page", "p.sheet", "p.pencil", "p.sheet.sha256"):
        octets = folder.octets(name)
        ran = Run(["bash", "-c", '"$@" >>%s' % name, "bash", *folder.showing("p.page")], folder.name)
        tally.check(ran.status == 2 and folder.octets(name) == octets and ran.wrong == "spirerook-view: %s: it is "
                    "read, and standard output would be written into it\n" % name, "lines into %s: %s" % (name, ran))
        write(folder.path(name), octets)


def check_written_meanwhile(tally, folder):
    """A page that is written in its place while it is read is refused: it would be half of each."""
    names, mask = [], view_crafted.white_mmr(8)
    for colour in (1, 200):
        octets = page_making.start(mask=4, width=64)
        for _ in range(64):
            octets += page_making.stripe(type=2, height=8, mask=len(mask) + 12000, colours=bytes([colour] * 6))
            octets += mask + bytes(12000)
        names.append(folder.path("content%d.page" % len(names)))
        write(names[-1], octets + b"\xff\xd9\xff\xd9")
    shim = build_faults(folder)
    for other, due in ((names[1], "written.page: cannot be read: it was written while it was read\n"), ("", "")):
        shutil.copy(names[0], folder.path("written.page"))
        settings = {**os.environ, "LD_PRELOAD": shim, "MEANWHILE": folder.path("written.page"), "MEANWHILE_FROM": other}
        ran = Run(folder.showing("written.page", "b.png"), folder.name, env=settings)
        tally.check(ran.wrong == due and ran.status == (1 if due else 0), "written while it is read: %s" % ran)


# ---- what the system refuses

def check_descriptors(tally, folder):
    """Too few descriptors are told as that."""
    for words, least in ((folder.showing(), 5), (folder.making(), 7)):
        told = set()
        for most in range(4, least + 6):
            bounded = view_making.bounded(resource.RLIMIT_NOFILE, most)
            ran = Run(words, folder.name, preexec_fn=bounded)
            told.add(ran.wrong.split(": ")[-1])
            tally.check(ran.status in (0, 1, 3) and "memory" not in ran.wrong, "%d descriptors: %s" % (
                most, ran))
        tally.check("Too many open files\n" in told and "" in told, "few descriptors: %s" % told)


def main():
    tally = reference_run.Tally()
    rng = random.Random(11)      # no seed brings back the moment at which a signal came
    if not (os.path.exists(VIEW) and os.path.exists(MAKE)):
        tally.check(False, "no build/spirerook-view or build/spirerook-make: make them first")
        return tally.end()
    folder, stop = Folder(), threading.Event()
    tally.check(folder.made.status == 0 and folder.shown.status == 0, "the start: %s, %s" % (
        folder.made, folder.shown))
    started, held = start_inputs(folder, stop)
    for check in (check_pipes, check_lines, check_replaced, check_told_into, check_written_meanwhile, check_descriptors):
        check(tally, folder)
    files_kept.check_all(tally, folder, rng, ROUNDS)
    for run in started:
        run.check(tally)
    stop.set()
    for end in held:
        os.close(end)
    return tally.end()


if __name__ == "__main__":
    sys.exit(main())
