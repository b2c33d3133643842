"""`make install` into an empty prefix: what stands there, a small C program that finds the library
and both headers through pkg-config and links it both ways, and `make uninstall`.

The program is compiled and run with nothing of this repository in its paths.
"""

import os
import re
import shutil
import subprocess
import sys
import tempfile

import reference_run
from page_making import MASK, start, stripe

PROGRAM = r"""#include <spirerook.h>
#include <spirerook_colour.h>
#include <stdio.h>
int main(void)
{
    static uint8_t page[1000], sheet[SPIREROOK_PAGE_SHEET_OCTETS], red[3] = {138, 221, 178};
    size_t octets = fread(page, 1, sizeof page, stdin);
    spirerook_answer answer = spirerook_read(page, octets, sheet, sizeof sheet);
    printf("%s at %u, %u records\n", spirerook_name(answer.number), (unsigned)answer.place, (unsigned)answer.count);
    spirerook_lab_to_srgb(red, red);
    printf("%d %d %d\n", red[0], red[1], red[2]);
    return answer.number != SPIREROOK_DONE;
}
"""
PAGE = start() + stripe() + MASK + b"\xff\xd9\xff\xd9"
FILES = ["include/spirerook.h", "include/spirerook_colour.h", "lib/libspirerook.a", "lib/libspirerook.so",
         "lib/libspirerook.so.2", "lib/libspirerook.so.%s", "lib/pkgconfig/spirerook.pc"]


def make(*words):
    """(status, what it says); the variables of a make above this one do not reach it."""
    clean = {key: value for key, value in os.environ.items() if not key.startswith("MAKE")}
    done = subprocess.run(["make", "--no-print-directory", "-C", reference_run.ROOT, *words],
                          env=clean, check=False, stdout=subprocess.PIPE, stderr=subprocess.STDOUT)
    return done.returncode, done.stdout.decode("utf-8", "replace")


def files_below(folder):
    return sorted(os.path.relpath(os.path.join(path, file), folder)
                  for path, _, files in os.walk(folder) for file in files)


def pkg_config(prefix, *words):
    """What pkg-config tells of the library that is installed there."""
    told = subprocess.run(["pkg-config", *words, "spirerook"], check=False, stdout=subprocess.PIPE,
                          stderr=subprocess.STDOUT, env={"PATH": os.environ["PATH"],
                          "PKG_CONFIG_LIBDIR": os.path.join(prefix, "lib", "pkgconfig")})
    return told.returncode, told.stdout.decode().split()


def check_program(tally, prefix, folder, how, flags):
    """The program, linked one way, reads a page and refuses a cut one."""
    status, words = pkg_config(prefix, "--cflags", "--libs")
    tally.check(status == 0, "pkg-config: %s" % words)
    source, program = os.path.join(folder, "ten.c"), os.path.join(folder, "ten_" + how)
    with open(source, "w", encoding="ascii") as file:
        file.write(PROGRAM)
    built = subprocess.run(["cc", "-std=c11", "-Wall", "-Wextra", "-Werror", source, "-o", program,
                            *words, *flags, "-lm"], cwd=folder, check=False, stderr=subprocess.PIPE)
    tally.check(built.returncode == 0, "%s: %s" % (how, built.stderr.decode()[:500]))
    if built.returncode != 0:
        return
    paths = {"LD_LIBRARY_PATH": os.path.join(prefix, "lib")} if how == "shared" else {}
    for page, due in ((PAGE, (0, b"Done at 0, 3 records\n231 69 8\n")),
                      (PAGE[:-1], (1, b"Short at %d, 0 records\n231 69 8\n" % (len(PAGE) - 2)))):
        ran = subprocess.run([program], input=page, env=paths, check=False, stdout=subprocess.PIPE)
        tally.check((ran.returncode, ran.stdout) == due, "%s: %s" % (how, ran))
    needed = subprocess.run(["readelf", "-d", program], check=True,
                            stdout=subprocess.PIPE).stdout.decode()
    tally.check(("libspirerook.so.2" in needed) == (how == "shared"), "%s links %s" % (how, needed))


def check_shared(tally, path):
    """Its soname, no text relocation, no stack that can be executed, only calls exported."""
    told = subprocess.run(["readelf", "-Wdl", path], check=True,
                          stdout=subprocess.PIPE).stdout.decode()
    tally.check("soname: [libspirerook.so.2]" in told, "no soname:\n%s" % told)
    tally.check("TEXTREL" not in told, "text is relocated:\n%s" % told)
    stack = re.search(r"GNU_STACK.*", told)
    tally.check(stack is not None and "RWE" not in stack[0], "the stack: %s" % stack)
    needed = re.findall(r"Shared library: \[(.*)\]", told)
    tally.check(needed in ([], ["libc.so.6"]), "it needs %s" % needed)
    archive = reference_run.exported(os.path.join(reference_run.ROOT, "build", "libspirerook.a"))
    tally.check(reference_run.exported(path) == archive, "other names than the archive's")


def check_install(tally, folder):
    prefix = os.path.join(folder, "prefix")
    status, told = make("install", "PREFIX=" + prefix)
    tally.check(status == 0, "make install: %s" % told[-500:])
    version = "".join(pkg_config(prefix, "--modversion")[1])
    with open(os.path.join(reference_run.HEADERS, "spirerook.h"), encoding="ascii") as header:
        tally.check('#define SPIREROOK_VERSION "%s"\n' % version in header.read(),
                    "pkg-config has version '%s'" % version)
    due = sorted(name.replace("%s", version) for name in FILES)
    tally.check(files_below(prefix) == due, "installed: %s" % files_below(prefix))
    check_shared(tally, os.path.join(prefix, "lib", "libspirerook.so"))
    check_program(tally, prefix, folder, "shared", [])
    check_program(tally, prefix, folder, "static", ["-static"])
    status, told = make("uninstall", "PREFIX=" + prefix)
    tally.check(status == 0 and files_below(prefix) == [], "make uninstall leaves %s: %s"
                % (files_below(prefix), told[-300:]))


def check_staged(tally, folder):
    """With DESTDIR the files stand below it, and name the prefix without it."""
    stage = os.path.join(folder, "stage")
    status, told = make("install", "PREFIX=/opt/x", "DESTDIR=" + stage)
    tally.check(status == 0, "make install DESTDIR: %s" % told[-500:])
    tally.check(len(files_below(os.path.join(stage, "opt", "x"))) == len(FILES),
                "staged: %s" % files_below(stage))
    told = pkg_config(os.path.join(stage, "opt", "x"), "--variable=libdir")
    tally.check(told == (0, ["/opt/x/lib"]), "a staged pkg-config file tells %s" % (told,))
    make("uninstall", "PREFIX=/opt/x", "DESTDIR=" + stage)
    tally.check(files_below(stage) == [], "make uninstall leaves %s" % files_below(stage))
    status, told = make("install", "PREFIX=some/where")
    tally.check(status != 0 and "must be an absolute path" in told, "a relative prefix: %s" % told)


def check_programs(tally, folder):
    """The viewer and the page maker run where they are put, and are taken away again."""
    prefix = os.path.join(folder, "programs")
    status, told = make("install-programs", "PREFIX=" + prefix)
    tally.check(status == 0 and files_below(prefix) == ["bin/spirerook-make", "bin/spirerook-view"],
                "make install-programs: %s %s" % (files_below(prefix), told[-300:]))
    for name in files_below(prefix):
        ran = subprocess.run([os.path.join(prefix, name), "--version"], check=False,
                             stdout=subprocess.PIPE)
        words = ran.stdout.decode().split()
        tally.check(ran.returncode == 0 and words[:1] == [os.path.basename(name)], "%s: %s" % (name, ran))
    make("uninstall", "PREFIX=" + prefix)
    tally.check(files_below(prefix) == [], "make uninstall leaves %s" % files_below(prefix))


def main():
    tally = reference_run.Tally()
    if not os.path.exists(os.path.join(reference_run.ROOT, "build", "libspirerook.a")):
        tally.check(False, "no build/libspirerook.a: make it first")
        return tally.end()
    if shutil.which("pkg-config") is None:
        tally.check(False, "no pkg-config: bash tests/need pkg-config:pkgconf installs it")
        return tally.end()
    with tempfile.TemporaryDirectory() as folder:
        check_install(tally, folder)
        check_staged(tally, folder)
        check_programs(tally, folder)
    return tally.end()


if __name__ == "__main__":
    sys.exit(main())
