"""How the viewer and the page maker put their files in place: with the rights of what they replace,
all together or none, whatever fails and whatever signal comes."""

import errno
import fcntl
import os
import random
import select
import shutil
import signal
import stat
import struct
import subprocess
import tempfile
import time

import files_kit
from files_kit import OUTPUTS, Run, found, old_octets, put_old
from make_kit import read, write

ENDING = (signal.SIGINT, signal.SIGTERM, signal.SIGHUP, signal.SIGQUIT)
SYSTEMS = {"as it is": {}, "without nameless files": {"NO_NAMELESS": "1"},
           "without exchange": {"NO_EXCHANGE": "1"},
           "without both": {"NO_NAMELESS": "1", "NO_EXCHANGE": "1"}}
MOST_CALLS = 40      # that the shim counts in a run


# ---- rights

def rights(path):
    there = os.stat(path)
    return stat.S_IMODE(there.st_mode), there.st_uid, there.st_gid


def check_modes(tally, folder):
    """Of the file that is replaced, else what the umask leaves."""
    inner = folder.sub("modes")
    shutil.copy(folder.path("p.page"), os.path.join(inner, "in.page"))
    out = os.path.join(inner, "a.png")
    owners = [(0, 0)] if os.getuid() else [(0, 0), (1234, 5678)]
    for mode in (0o600, 0o640, 0o664, 0o755):
        for owner in owners:
            write(out, b"old")
            if os.getuid() == 0:
                os.chown(out, *owner)
            os.chmod(out, mode)
            due = rights(out)
            ran = Run(folder.showing(), inner)
            tally.check(ran.status == 0 and rights(out) == due and read(out) == folder.picture,
                        "over a file of rights %o %s: %o %s, %s" % (*due[:2], *rights(out)[:2], ran))
    for mask in (0o022, 0o027, 0o077):
        os.remove(out)
        ran = Run(folder.showing(), inner, preexec_fn=lambda mask=mask: os.umask(mask))
        tally.check(rights(out)[0] == 0o666 & ~mask, "umask %o: %o" % (mask, rights(out)[0]))
    put_old(inner, OUTPUTS)
    for name, mode in zip(OUTPUTS, (0o600, 0o644, 0o660, 0o640)):
        os.chmod(os.path.join(inner, name), mode)
    ran = Run(folder.making(), inner)
    modes = [rights(os.path.join(inner, name))[0] for name in OUTPUTS]
    tally.check(ran.status == 0 and modes == [0o600, 0o644, 0o660, 0o640] and found(inner) == folder.new,
                "the maker's files have modes %s; %s" % (list(map(oct, modes)), ran))


def access_list(*entries):
    """The octets that the system keeps of entries (kind, rights, user or group)."""
    return struct.pack("<I", 2) + b"".join(struct.pack("<HHI", *entry) for entry in entries)


def check_access_lists(tally, folder):
    """A list stays, and a file without one gets none from its folder."""
    inner = folder.sub("lists")
    shutil.copy(folder.path("p.page"), os.path.join(inner, "in.page"))
    out, nobody = os.path.join(inner, "a.png"), 0xFFFFFFFF
    octets = access_list((1, 6, nobody), (2, 4, 1234), (4, 0, nobody), (16, 4, nobody), (32, 0, nobody))
    for own, folders in ((True, False), (False, True), (True, True)):
        write(out, b"old")
        os.chmod(out, 0o640)
        try:
            if own:
                os.setxattr(out, "system.posix_acl_access", octets)
            if folders:
                os.setxattr(inner, "system.posix_acl_default", octets)
        except OSError as why:
            print("access lists are not tried: %s" % why.strerror)
            return
        ran = Run(folder.showing(), inner)
        found_list = "system.posix_acl_access" in os.listxattr(out) and os.getxattr(
            out, "system.posix_acl_access")
        tally.check(ran.status == 0 and read(out) == folder.picture and rights(out)[0] == 0o640
                    and found_list == (own and octets), "access lists %s %s: %o %s, %s" % (
                        own, folders, rights(out)[0], found_list, ran))
        os.remove(out)


def check_links(tally, folder):
    """A link to a file stays, and so does one that leads nowhere."""
    inner = folder.sub("links")
    shutil.copy(folder.path("p.page"), os.path.join(inner, "in.page"))
    write(os.path.join(inner, "real.png"), b"old")
    os.symlink("real.png", os.path.join(inner, "link.png"))
    os.symlink("nothing", os.path.join(inner, "nowhere.png"))
    ran = Run(folder.showing("in.page", "link.png"), inner)
    tally.check(ran.status == 0 and os.path.islink(os.path.join(inner, "link.png"))
                and read(os.path.join(inner, "real.png")) == folder.picture, "over a link: %s" % ran)
    ran = Run(folder.showing("in.page", "nowhere.png"), inner)
    tally.check(ran.status == 1 and os.path.islink(os.path.join(inner, "nowhere.png"))
                and ran.wrong == "nowhere.png: cannot be written: a link that leads nowhere stands there\n",
                "over a link that leads nowhere: %s" % ran)


def check_deep(tally, folder):
    """Where a path is longer than the system takes, names within the folder still do; what it cannot
    do is not told as a lack of memory."""
    inner, part = os.open(folder.sub("deep"), os.O_RDONLY), "d" * 250
    for _ in range(17):
        os.mkdir(part, dir_fd=inner)
        inner, before = os.open(part, os.O_RDONLY, dir_fd=inner), inner
        os.close(before)
    for name in ("a.png", "b.png"):
        with open(os.open(name, os.O_CREAT | os.O_WRONLY, dir_fd=inner), "wb") as file:
            file.write(b"old")
    os.symlink("b.png", "link.png", dir_fd=inner)
    go_there = lambda: os.fchdir(inner)
    page = folder.path("in.page")
    ran = Run(folder.showing(page), None, preexec_fn=go_there, pass_fds=[inner])
    with open(os.open("a.png", os.O_RDONLY, dir_fd=inner), "rb") as file:
        tally.check(ran.status == 0 and file.read() == folder.picture, "in a deep folder: %s" % ran)
    ran = Run(folder.showing(page, "link.png"), None, preexec_fn=go_there, pass_fds=[inner])
    tally.check(ran.status == 1 and ran.wrong == "link.png: cannot be written: File name too long\n",
                "a link in a deep folder: %s" % ran)
    os.close(inner)


def check_nobody(tally, folder):
    """As a user who may not do all: rights that cannot be had are not widened, a file that may not be
    written stays, and a sticky folder keeps the maker from another's sheet."""
    if os.getuid():
        print("other users are not tried: only root can")
        return
    show, make = folder.showing(folder.path("in.page")), folder.making()
    for words in (show, make):
        words[0] = shutil.copy(words[0], folder.path(os.path.basename(words[0])))
    inner = folder.sub("nobody", 0o777)
    out = os.path.join(inner, "a.png")
    for mode, due in ((0o660, 0o600), (0o664, 0o644), (0o604, 0o644)):
        write(out, b"old")
        os.chown(out, files_kit.NOBODY, 0)
        os.chmod(out, mode)
        ran = Run(show, inner, preexec_fn=files_kit.as_nobody)
        tally.check(ran.status == 0 and rights(out) == (due, files_kit.NOBODY, files_kit.NOBODY),
                    "a group that cannot be kept, %o: %o %d %d, %s" % (mode, *rights(out), ran))
        os.remove(out)
    write(out, b"old")
    os.chmod(out, 0o444)
    ran = Run(show, inner, preexec_fn=files_kit.as_nobody)
    tally.check(ran.wrong == "a.png: cannot be written: Permission denied\n" and read(out) == b"old"
                and rights(out)[0] == 0o444, "a file that may not be written: %s" % ran)
    check_sticky(tally, folder, make)


def check_sticky(tally, folder, make):
    inner = folder.sub("sticky", 0o1777, 1001)
    for olds in (OUTPUTS, OUTPUTS[1:], OUTPUTS[:2], OUTPUTS[1:2]):
        numbers = put_old(inner, olds)
        for name in olds:
            owner = 1002 if name == "p.sheet" else files_kit.NOBODY
            os.chown(os.path.join(inner, name), owner, owner)
            os.chmod(os.path.join(inner, name), 0o666)
        before = {name: rights(os.path.join(inner, name)) for name in olds}
        ran = Run(make, inner, preexec_fn=files_kit.as_nobody)
        tally.check(ran.status == 1
                    and ran.wrong == "spirerook-make: p.sheet: Operation not permitted\n",
                    "a sticky folder with %s: %s" % (olds, ran))
        check_old(tally, inner, numbers, "a sticky folder with %s" % (olds,))
        after = {name: rights(os.path.join(inner, name)) for name in os.listdir(inner)}
        tally.check(all(after.get(name) == due for name, due in before.items()),
                    "a sticky folder: rights %s, not %s" % (after, before))


# ---- together

def check_old(tally, inner, numbers, what):
    """The old files, by their octets and numbers, and nothing else."""
    there = found(inner)
    tally.check(there == {name: old_octets(name) for name in numbers},
                "%s: there are %s" % (what, {name: octets[:20] for name, octets in there.items()}))
    left = {name: os.stat(os.path.join(inner, name)).st_ino for name in there if name in numbers}
    tally.check(left == numbers, "%s: the old files are others, %s, not %s" % (what, left, numbers))


def each_call(folder, inner, shim, words, olds, system, **planted):
    """(number of the call, numbers of the old files, run) for each call that the shim counts."""
    for call in range(1, MOST_CALLS):
        numbers = put_old(inner, olds)
        planted = {key: str(value) for key, value in planted.items()}
        settings = dict(os.environ, LD_PRELOAD=shim, AT_CALL=str(call), **system, **planted)
        ran = Run(words, inner, env=settings, preexec_fn=files_kit.plain_signals)
        yield call, numbers, ran
        if ran.status == 0 and ran.told.endswith("octets\n") and call > 30:
            return


def check_faults(tally, folder, shim):
    """A fault at each call in turn: all new files with status 0, or all old ones with status 1; only a
    name that could not be taken away may stand there besides, with whole octets."""
    inner = folder.sub("faults")
    for kind, system in SYSTEMS.items():
        refused = 0
        for olds in (OUTPUTS, OUTPUTS[1:2], ()):
            for call, numbers, ran in each_call(folder, inner, shim, folder.making(), olds, system,
                                                FAULT=errno.EIO):
                what = "%s, call %d fails over %s: %s" % (kind, call, olds, ran)
                refused += ran.status == 1
                if ran.status == 1:
                    tally.check("Input/output error" in ran.wrong, what)
                    check_old(tally, inner, numbers, what)
                else:
                    there = found(inner)
                    more = {there.pop(name) for name in list(there) if name not in OUTPUTS}
                    tally.check(ran.status == 0 and there == folder.new and len(more) <= 1
                                and more <= set(map(old_octets, OUTPUTS)), what)
        tally.check(refused >= 20, "%s: only %d runs were refused" % (kind, refused))


def check_signal_at_calls(tally, folder, shim):
    """A signal at each call in turn; behind SIGKILL a whole file may be left under another name."""
    inner = folder.sub("signalled")
    due_new = folder.new
    for kind, system in SYSTEMS.items():
        for number in (signal.SIGINT, signal.SIGQUIT, signal.SIGALRM, signal.SIGXCPU, signal.SIGRTMAX, signal.SIGKILL):
            ended = 0
            for call, numbers, ran in each_call(folder, inner, shim, folder.making(), OUTPUTS, system,
                                                SIGNAL=int(number)):
                what = "%s, signal %d at call %d: %s" % (kind, number, call, ran)
                ended += ran.status == -number
                there = found(inner)
                due_old = {name: old_octets(name) for name in numbers}
                if number == signal.SIGKILL:
                    whole = {*due_new.values(), *due_old.values()}
                    part = [name for name, octets in there.items() if octets not in whole]
                    lost = [name for name in OUTPUTS if there.get(name) not in
                            (due_new[name], due_old[name]) and "NO_EXCHANGE" not in system]
                    tally.check(not part and not lost, "%s: %s %s" % (what, part, lost))
                else:
                    tally.check(ran.status in (0, -number) and there in (due_new, due_old),
                                "%s: there are %s" % (what, list(there)))
            tally.check(ended >= 10, "%s: signal %d ended only %d runs" % (kind, number, ended))


def stopped(words, inner, number, seconds):
    """The status of a run that gets a signal after so many seconds."""
    run = subprocess.Popen(words, cwd=inner, stdout=subprocess.DEVNULL, stderr=subprocess.DEVNULL,
                           stdin=subprocess.DEVNULL, preexec_fn=files_kit.plain_signals)
    time.sleep(seconds)
    run.send_signal(number)
    return run.wait(files_kit.SECONDS)


def check_random_signals(tally, folder, rng, rounds):
    """At any time: the old files or the new ones, and nothing else."""
    inner = folder.sub("random")
    shutil.copy(folder.path("p.page"), os.path.join(inner, "in.page"))
    nameless = files_kit.has_nameless(inner)
    for words, names, new in ((folder.making(), OUTPUTS, folder.new),
                              (folder.showing(), ("a.png",), {"a.png": folder.picture})):
        began = time.monotonic()
        Run(words, inner)
        longest = 1.2 * (time.monotonic() - began)
        for number in (*ENDING, signal.SIGPIPE, signal.SIGKILL):
            for _ in range(rounds):
                put_old(inner, names)
                status = stopped(words, inner, number, rng.uniform(0, longest))
                there = found(inner)
                old = {name: old_octets(name) for name in names}
                whole = set(there.values()) <= {*old.values(), *new.values()}
                tally.check(there in (old, new) or (number == signal.SIGKILL and (
                    whole or not nameless)), "signal %d, status %s: there are %s" % (
                        number, status, {name: octets[:20] for name, octets in there.items()}))


class Held:
    """A run that stands still unless its lines are taken: its standard output has room for one of them, and
    who takes a line lets it go on to the line after the next."""

    def __init__(self, words, inner):
        self.end, theirs = os.pipe2(os.O_DIRECT | os.O_CLOEXEC)     # each write is a packet, in a page of its own
        fcntl.fcntl(theirs, fcntl.F_SETPIPE_SZ, 1)                  # one page, the least there is
        self.run = subprocess.Popen(words, cwd=inner, stdout=theirs, stderr=subprocess.DEVNULL, stdin=subprocess.DEVNULL)
        os.close(theirs)

    def line(self):
        """The next line; none where the run has ended, or tells nothing any more."""
        ready = select.select([self.end], [], [], files_kit.SECONDS)[0]
        return os.read(self.end, select.PIPE_BUF) if ready else b""

    def killed(self):
        self.run.kill()
        os.close(self.end)
        return self.run.wait()


def noise_page(folder):
    """A page of two stripes of noise: what is shown of one is over 256 KiB however it is compressed, and so many
    the viewer collects before it writes. At the second stripe a part of the picture is in its file."""
    inner = folder.sub("noise")
    write(os.path.join(inner, "m.pbm"), b"P4 2048 1040\n" + random.Random(7).randbytes(2048 * 1040 // 8))
    write(os.path.join(inner, "p.plan"), "resolution 400\n" + 2 * "stripe\nmask m.pbm\n")
    ran = Run([files_kit.MAKE, "p.plan", "-o", "p.page"], inner)
    return read(os.path.join(inner, "p.page")) if ran.status == 0 else b""


def check_nameless(tally):
    """While a picture is made nothing stands beside its place, and after SIGKILL nothing is left."""
    within = next((place for place in (None, "/dev/shm", "/var/tmp") if files_kit.has_nameless(
        place or tempfile.gettempdir())), 0)
    if within == 0:
        print("files without a name are not tried: no file system here has them")
        return
    folder = files_kit.Folder(within)
    inner = folder.sub("slow")
    write(os.path.join(inner, "in.page"), noise_page(folder))
    for olds in (("a.png",), ()):
        numbers = put_old(inner, olds)
        held, line, seen = Held(folder.showing(), inner), b".", set()
        while line and b": stripe 1, layer 1: " not in line:
            line = held.line()
            seen.update(name for name in os.listdir(inner) if name not in files_kit.READ)
        # it tells two more lines before it shows this stripe, and there is room for one
        tally.check(line and seen == set(olds), "during a run there were %s; it told %s" % (seen, line))
        status = held.killed()
        tally.check(status == -signal.SIGKILL, "SIGKILL during a run: status %s" % status)
        check_old(tally, inner, numbers, "SIGKILL during a run")


def check_turns(tally, folder):
    """Two runs onto the same files take turns: one waits while the other holds their folder."""
    inner = folder.sub("turns")
    held = os.open(inner, os.O_RDONLY)
    fcntl.flock(held, fcntl.LOCK_EX)
    run = subprocess.Popen(folder.making(), cwd=inner, stdout=subprocess.DEVNULL)
    time.sleep(1)
    waits, there = run.poll() is None, found(inner)
    os.close(held)
    status = run.wait(files_kit.SECONDS)
    tally.check(waits and there == {} and status == 0 and found(inner) == folder.new,
                "two runs: it %s, %s stood there, status %s" % ("waited" if waits else "did not wait", list(there), status))


def check_all(tally, folder, rng, rounds):
    shim = files_kit.build_faults(folder)
    check_modes(tally, folder)
    check_access_lists(tally, folder)
    check_links(tally, folder)
    check_deep(tally, folder)
    check_nobody(tally, folder)
    check_turns(tally, folder)
    check_faults(tally, folder, shim)
    check_signal_at_calls(tally, folder, shim)
    check_random_signals(tally, folder, rng, rounds)
    check_nameless(tally)
