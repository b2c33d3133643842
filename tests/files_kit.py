"""Runs of the viewer and the page maker in a folder of their own, for the tests of their files."""

import os
import resource
import shutil
import signal
import subprocess
import tempfile

import make_kit
import reference_run
from make_kit import read, write
from view_making import VIEW

MAKE = make_kit.PROGRAM
PLAN = "resolution 400\nstripe\nmask m.pbm\npencil-mask m.pbm at 3 4\npencil-image none\n"
READ = ("m.pbm", "p.plan", "in.page")
OUTPUTS = ("p.page", "p.sheet", "p.pencil", "p.sheet.sha256")
NOBODY = 65534
SECONDS = 60         # by the clock; others may work on the machine
NAMELESS = getattr(os, "O_TMPFILE", 0)


class Run:
    """A run that has ended: its status and its lines."""

    def __init__(self, words, folder, **settings):
        settings = {"stdout": subprocess.PIPE, "stderr": subprocess.PIPE,
                    "stdin": subprocess.DEVNULL, **settings}
        done = subprocess.run(words, cwd=folder, timeout=SECONDS, check=False, **settings)
        self.status = done.returncode
        self.told = (done.stdout or b"").decode("utf-8", "replace")
        self.wrong = (done.stderr or b"").decode("utf-8", "replace")

    def __str__(self):
        return "status %s, '%s' '%s'" % (self.status, self.told[-300:], self.wrong[-300:])


class Folder:
    """A folder with pictures and a plan, and the page, sheet, pencil file and side file made of them; `new` is
    what these are, and `picture` what the viewer makes of the page."""

    def __init__(self, within=None):
        self.kept = tempfile.TemporaryDirectory(prefix="files.", dir=within)
        self.name = self.kept.name
        os.chmod(self.name, 0o755)
        write(self.path("m.pbm"), make_kit.pbm(make_kit.strokes(200, 90)))
        write(self.path("p.plan"), PLAN)
        self.made = Run(self.making(), self.name)
        shutil.copy(self.path("p.page"), self.path("in.page"))      # without its pencil
        self.shown = Run(self.showing(), self.name)
        self.new = {name: self.octets(name) for name in OUTPUTS}
        self.picture = self.octets("a.png")

    def path(self, name):
        return os.path.join(self.name, name)

    def octets(self, name):
        """Of a file, or None."""
        return read(self.path(name)) if os.path.lexists(self.path(name)) else None

    def sub(self, name, mode=0o755, owner=0):
        """A folder within, with the plan and its picture."""
        inner = self.path(name)
        os.mkdir(inner)
        for file in ("m.pbm", "p.plan"):
            shutil.copy(self.path(file), inner)
        os.chmod(inner, mode)
        if owner:
            os.chown(inner, owner, owner)
        return inner

    def making(self, outputs=OUTPUTS):
        return [MAKE, "p.plan", "-o", outputs[0], "--pencil", *outputs[1:3]]

    def showing(self, page="in.page", out="a.png"):
        return [VIEW, page, "-o", out]


def old_octets(name):
    return b"an old " + name.encode()


def put_old(folder, names):
    """Old files there and nothing else but what is read; answers their numbers in the file system."""
    for name in os.listdir(folder):
        if name not in READ:
            os.remove(os.path.join(folder, name))
    for name in names:
        write(os.path.join(folder, name), old_octets(name))
        os.chmod(os.path.join(folder, name), 0o640)
    return {name: os.stat(os.path.join(folder, name)).st_ino for name in names}


def found(folder):
    """All that stands there but what is read."""
    return {name: read(os.path.join(folder, name)) for name in sorted(os.listdir(folder))
            if name not in READ}


def build_faults(folder):
    """tests/driver/file_faults.c, for LD_PRELOAD."""
    shim = folder.path("file_faults.so")
    source = os.path.join(reference_run.DRIVER, "file_faults.c")
    subprocess.run(["cc", "-O1", "-D_GNU_SOURCE", "-shared", "-fPIC", source, "-o", shim], check=True)
    return shim


def as_nobody():
    os.setgroups([])
    os.setgid(NOBODY)
    os.setuid(NOBODY)


def plain_signals():
    """Under nohup, or in the background of a shell, some are ignored by all that is started. No signal
    leaves a core."""
    resource.setrlimit(resource.RLIMIT_CORE, (0, 0))
    for number in (signal.SIGHUP, signal.SIGINT, signal.SIGQUIT, signal.SIGTERM, signal.SIGPIPE):
        signal.signal(number, signal.SIG_DFL)


def has_nameless(folder):
    try:
        os.close(os.open(folder, NAMELESS | os.O_WRONLY))
        return NAMELESS != 0
    except OSError:
        return False
