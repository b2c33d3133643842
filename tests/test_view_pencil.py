"""No page looks whole that is not: the viewer finds a page's pencil, takes none that is not the
page's own, and its last line says which was shown."""

import os
import shutil
import subprocess
import sys
import tempfile

import make_kit
import reference_run
import test_view
import view_making
import view_reference
from view_making import Coders, Page, Shown, read, three, write
from view_reference import Layer

WIDTH, HEIGHT, RED = 64, 24, (120, 220, 200)
OUT = "; --no-pencil shows the page without it"
SIZE = "%d by %d pixels" % (WIDTH, HEIGHT)


def block(left, top, width, height):
    """A mask that is 1 in a rectangle."""
    return [[int(left <= x < left + width and top <= y < top + height) for x in range(WIDTH)]
            for y in range(HEIGHT)]


def cue_page(coders, top):
    """A page with a cue, and a pencil that strikes it."""
    layers = three(200) + [Layer(4, (0, 0, 0), 200), Layer(5, RED, 200)]
    coders.code(layers[1], 4, block(8, top, 40, 8))
    coders.code(layers[3], 4, block(4, top + 3, 50, 2))
    return Page(WIDTH, 200, 4).add(layers, HEIGHT)


class Folder:
    """A folder that the viewer works in, with the pages show and other: all of their records are
    the same, and all of their data is of the same length."""

    def __init__(self, coders):
        self.kept = tempfile.TemporaryDirectory(prefix="pencil.")
        self.name = self.kept.name
        self.models = {"show": cue_page(coders, 2), "other": cue_page(coders, 12)}
        for name, model in self.models.items():
            write(self.path(name + ".page"), model.octets())
            for end, octets in zip((".sheet", ".pencil"), model.sheet_and_pencil()):
                write(self.path(name + end), octets)
            self.write_side(name)

    def path(self, name):
        return os.path.join(self.name, name)

    def write_side(self, name):
        view_making.write_side(*(self.path(name + end) for end in (".page", ".sheet", ".pencil")))

    def show(self, *words, **settings):
        return Shown(words, cwd=self.name, **settings)

    def picture(self, *words):
        """(run, picture) or (run, None)."""
        shown = Shown([*words, "-o", "out.png"], self.path("out.png"), cwd=self.name)
        if shown.out:
            os.remove(self.path("out.png"))
        return shown, view_reference.Png(shown.out) if shown.out else None

    def change(self, name, at=-1):
        """One octet of a file is changed."""
        octets = bytearray(read(self.path(name)))
        octets[at] ^= 1
        write(self.path(name), octets)


def check_refused(tally, shown, due):
    tally.check(shown.status == 1 and shown.wrong == due + "\n" and not shown.told,
                "status %s, '%s' and '%s', not '%s'" % (shown.status, shown.wrong, shown.told, due))


def check_last(tally, shown, due, status=0):
    """The last line, and no other is like it."""
    lines = shown.told.splitlines() or [""]
    tally.check(shown.status == status and lines[-1] == due and not shown.wrong,
                "status %s, last '%s' (%s), not '%s'" % (shown.status, lines[-1], shown.wrong, due))
    tally.check(sum(" pixels, " in line for line in lines) == 1, "not one line of the page: %s" % lines)


def is_as_due(picture, model):
    return picture and view_reference.compared(test_view.due_lines(model), picture).wrong == 0


# Another page's pencil

def check_other_page(tally, folder):
    show, other = folder.models["show"], folder.models["other"]
    same = [len(read(folder.path("show" + end))) == len(read(folder.path("other" + end)))
            for end in (".page", ".pencil")]
    tally.check(all(same) and read(folder.path("show.sheet")) == read(folder.path("other.sheet")),
                "the two pages can be told apart by their records")
    for model, name in ((show, "show"), (other, "other")):
        run, picture = folder.picture(name + ".page", "--pencil", name + ".sheet", name + ".pencil")
        tally.check(is_as_due(picture, model) and run.status == 0, "%s: %s" % (name, run.wrong))
    shown, picture = folder.picture("show.page", "--pencil", "other.sheet", "other.pencil")
    check_refused(tally, shown, "other.pencil: refused: it is not the pencil of show.page: "
                  "other.sheet.sha256 has the digest of another page")
    tally.check(picture is None, "another page's pencil is shown")
    check_refused(tally, folder.show("show.page", "--pencil", "show.sheet", "other.pencil"),
                  "other.pencil: refused: it is not the pencil of show.page: show.sheet.sha256 has "
                  "the digest of another pencil file")
    # what is refused would show a strike in another place, and say nothing
    words = ("show.page", "--pencil", "other.sheet", "other.pencil", "--no-digests")
    shown, picture = folder.picture(*words)
    tally.check(picture and not is_as_due(picture, show), "the strike is where it should be")
    check_last(tally, shown, "show.page: %s, all seen; pencil: other.sheet, other.pencil, not checked "
               "(--no-digests)" % SIZE)
    # the names do not matter, the octets do
    for end in (".page", ".sheet", ".pencil"):
        shutil.copy(folder.path("show" + end), folder.path("copy" + end))
    shutil.copy(folder.path("show.sheet.sha256"), folder.path("copy.sheet.sha256"))
    check_last(tally, folder.show("copy.page", "--pencil", "copy.sheet", "copy.pencil"),
               "copy.page: %s, all seen; pencil: copy.sheet, copy.pencil" % SIZE)


def check_changes(tally, folder):
    """One octet changed in the page's mask, in a record that stays good, and in the pencil file."""
    x = 3 * 28 + 5             # layer 4, an octet of its place
    words = "%s: refused: it is not the %s of show.page: show.sheet.sha256 has the digest of another %s"
    for name, at, due in (
            ("show.page", len(read(folder.path("show.page"))) - 12, ("show.pencil", "pencil", "page")),
            ("show.sheet", x, ("show.sheet", "sheet", "sheet")),
            ("show.pencil", 2, ("show.pencil", "pencil", "pencil file")),
            ("show.pencil", -3, ("show.pencil", "pencil", "pencil file"))):
        folder.change(name, at)
        given = ("show.page", "--pencil", "show.sheet", "show.pencil")
        check_refused(tally, folder.show(*given), words % due)
        check_refused(tally, folder.show("show.page"), words % due + OUT)
        check_refused(tally, folder.show("show.page", "--list"), words % due + OUT)
        folder.change(name, at)
    longer = read(folder.path("show.pencil"))
    write(folder.path("show.pencil"), longer + b"\0")
    check_refused(tally, folder.show("show.page"), words % ("show.pencil", "pencil", "pencil file") + OUT)
    write(folder.path("show.pencil"), longer)
    check_last(tally, folder.show("show.page"), "show.page: %s, all seen; pencil: show.sheet, "
               "show.pencil" % SIZE)


# The side file

def sides(good):
    """(octets, line, words) of side files that are not well formed."""
    one, two, three_ = good.splitlines(True)
    form, name = "it is not a digest and a name, as sha256sum has them", "its name is not as sha256sum has it"
    count = "there are just three, of the page, of the sheet and of the pencil file"
    yield b"", 1, count
    yield one, 2, count
    yield one + two, 3, count
    yield good + good, 4, count
    yield good + b"\n", 4, count
    yield good + b"x", 4, count
    yield good[:-1], 3, "it does not end"
    yield good.replace(b"\n", b"\r\n"), 1, "it ends with a carriage return"
    yield one + two + three_[:-1] + b"\r\n", 3, "it ends with a carriage return"
    yield b"\n" + good, 1, form
    yield b"\xef\xbb\xbf" + good, 1, form
    yield b" " + good, 1, form
    yield one.upper() + two + three_, 1, form
    yield one[1:] + two + three_, 1, form
    yield b"g" + one[1:] + two + three_, 1, form
    yield one + two[:20] + b"\0" + two[21:] + three_, 2, form
    yield one.replace(b"  ", b" ") + two + three_, 1, form
    yield one.replace(b"  ", b"\t ") + two + three_, 1, form
    yield one.replace(b"  ", b" \0") + two + three_, 1, form
    yield one[:64] + b"\n" + two + three_, 1, form
    yield one[:66] + b"\n" + two + three_, 1, form
    yield b"SHA256 (show.page) = " + one[:64] + b"\n" + two + three_, 1, form
    yield one + two[:-1] + b"\0\n" + three_, 2, name
    yield one + two[:70] + b"\r" + two[70:] + three_, 2, name
    yield one + two + b"\\" + three_[:-1] + b"\\\n", 3, name
    yield one + two + b"\\" + three_[:-1] + b"\\t\n", 3, name
    yield one + two + b"\\" + three_[:-1] + b"\\\0\n", 3, name
    yield bytes(1000), 1, "it does not end"
    yield bytes(100000), 1, "it is too long"
    yield one[:66] + b"a" * (65536 + 67 - len(good)) + b"\n" + two + three_ + b"\n", 1, "it is too long"


def check_side(tally, folder):
    side, given = folder.path("show.sheet.sha256"), ("show.page", "--pencil", "show.sheet", "show.pencil")
    good = read(side)
    for octets, line, words in sides(good):
        write(side, octets)
        due = "show.sheet.sha256: refused at line %d: %s" % (line, words)
        check_refused(tally, folder.show(*given), due)
        check_refused(tally, folder.show("show.page"), due + OUT)
    write(side, good.replace(b"  ", b" *"))      # as sha256sum -b has it
    check_last(tally, folder.show(*given), "show.page: %s, all seen; pencil: show.sheet, show.pencil" % SIZE)
    one, two, three_ = good.splitlines(True)
    write(side, three_ + two + one)
    check_refused(tally, folder.show(*given), "show.pencil: refused: it is not the pencil of show.page: "
                  "show.sheet.sha256 has the digest of another page")
    os.remove(side)
    check_refused(tally, folder.show(*given), "show.pencil: refused: no show.sheet.sha256 tells that it "
                  "belongs to show.page (--no-digests takes it all the same)")
    for words in ((), ("--no-digests",)):
        check_refused(tally, folder.show("show.page", *words), "show.sheet: refused: no show.sheet.sha256 "
                      "tells that it belongs to show.page, and where its pencil file is" + OUT)
    check_last(tally, folder.show(*given, "--no-digests"), "show.page: %s, all seen; pencil: show.sheet, "
               "show.pencil, not checked (--no-digests)" % SIZE)
    os.mkdir(side)
    check_refused(tally, folder.show(*given), "show.sheet.sha256: cannot be read: Is a directory")
    os.rmdir(side)
    os.symlink("nowhere", side)
    check_refused(tally, folder.show(*given), "show.sheet.sha256: cannot be read: No such file or directory")
    os.remove(side)
    os.mkfifo(side)                              # nobody writes to it: this must not wait
    check_refused(tally, folder.show("show.page", seconds=30),
                  "show.sheet.sha256: cannot be read: this is no plain file" + OUT)
    os.remove(side)
    write(side, good)


def check_names(tally, folder):
    """The third line's name, seen from the side file's folder, whatever letters it has."""
    side, pencil = folder.path("show.sheet.sha256"), read(folder.path("show.pencil"))
    lines = read(side).splitlines(True)
    os.mkdir(folder.path("sub"))
    away = tempfile.TemporaryDirectory()
    names = ["a b", "-", "\\", "a\\nb", "a\nb", "\r", "*", "sub/p", "sub/../q", os.path.join(away.name, "p"),
             "p\u00e9n", " ", "a" * 200]
    for name in names:
        place = os.path.join(folder.name, name)
        write(place, pencil)
        escaped = name.replace("\\", "\\\\").replace("\n", "\\n").replace("\r", "\\r")
        third = lines[2][:66] + escaped.encode() + b"\n"
        write(side, lines[0] + lines[1] + (b"\\" if escaped != name else b"") + third)
        # lines for people escape a name in their own way
        told = name.replace("\\", "\\\\").replace("\n", "\\n").replace("\r", "\\x0D")
        check_last(tally, folder.show("show.page"), "show.page: %s, all seen; pencil: show.sheet, %s"
                   % (SIZE, told))
        shown = Shown([folder.path("show.page")])
        due = told if name.startswith("/") else "%s/%s" % (folder.name, told)
        check_last(tally, shown, "%s: %s, all seen; pencil: %s, %s" % (
            folder.path("show.page"), SIZE, folder.path("show.sheet"), due))
        os.remove(place)
        check_refused(tally, folder.show("show.page"), "%s: cannot be read: No such file or directory%s"
                      % (told, OUT))
    write(side, b"".join(lines))


# Sheets beside a page

def check_beside(tally, folder):
    """Both names, one at a time and both at once."""
    for end in ("", ".sha256"):
        os.rename(folder.path("show.sheet" + end), folder.path("show.page.sheet" + end))
    check_last(tally, folder.show("show.page"),
               "show.page: %s, all seen; pencil: show.page.sheet, show.pencil" % SIZE)
    for end in ("", ".sha256"):
        shutil.copy(folder.path("show.page.sheet" + end), folder.path("show.sheet" + end))
    both = ("show.page: refused: both show.page.sheet and show.sheet stand beside it; --pencil SHEET FILE "
            "tells which, --no-pencil shows the page without them")
    check_refused(tally, folder.show("show.page"), both)
    check_refused(tally, folder.show("show.page", "--list"), both)
    check_last(tally, folder.show("show.page", "--pencil", "show.sheet", "show.pencil"),
               "show.page: %s, all seen; pencil: show.sheet, show.pencil" % SIZE)
    check_last(tally, folder.show("show.page", "--no-pencil"), "show.page: %s, all seen; pencil left out "
               "(--no-pencil): show.page.sheet, show.sheet" % SIZE)
    shown = folder.show("show.page", "--no-pencil", "-o", "show.sheet")
    tally.check(shown.status == 2 and shown.wrong == "spirerook-view: -o show.sheet: the picture would take the "
                "place of the page's sheet\n", "a picture over a sheet: %s %s" % (shown.status, shown.wrong))
    os.remove(folder.path("show.sheet"))
    os.link(folder.path("show.page.sheet"), folder.path("show.sheet"))
    check_refused(tally, folder.show("show.page"), both)


def check_page_names(tally, folder):
    """Pages without an ending, with one only, and in another folder than the one of their name."""
    page = read(folder.path("show.page"))
    os.mkdir(folder.path("away.d"))
    for name, sheets in (("bare", ("bare.sheet",)), (".page", (".page.sheet",)), ("x.sheet", ("x.sheet.sheet",)),
                         ("a.b.c", ("a.b.c.sheet", "a.b.sheet")), ("away.d/bare", ("away.d/bare.sheet",)),
                         ("end.", ("end..sheet", "end.sheet"))):
        write(folder.path(name), page)
        check_last(tally, folder.show(name), "%s: %s, all seen; no pencil given" % (name, SIZE))
        for sheet in sheets:
            write(folder.path(sheet), b"")
            check_last(tally, folder.show(name, "--no-pencil"), "%s: %s, all seen; pencil left out "
                       "(--no-pencil): %s" % (name, SIZE, sheet))
            check_refused(tally, folder.show(name), "%s: refused: no %s.sha256 tells that it belongs to %s, "
                          "and where its pencil file is%s" % (sheet, sheet, name, OUT))
            os.remove(folder.path(sheet))
    os.symlink("../show.page", folder.path("away.d/link.page"))
    real = os.path.realpath(folder.name)
    check_last(tally, folder.show("away.d/link.page"), "away.d/link.page: %s, all seen; pencil: "
               "%s/show.sheet, %s/show.pencil" % (SIZE, real, real))


def check_links(tally, folder):
    """A page that is named by links, one behind the other, or by a descriptor: the sheet may stand beside
    each of the names."""
    for name in ("desk", "run", "store"):
        os.mkdir(folder.path(name))
    os.rename(folder.path("show.page"), folder.path("store/0412.page"))
    os.symlink("../store/0412.page", folder.path("run/show.page"))
    os.symlink("../run/show.page", folder.path("desk/today.page"))
    ends = (".sheet", ".sheet.sha256", ".pencil")
    for end in ends:
        os.rename(folder.path("show" + end), folder.path("run/show" + end))
    for name, seen in (("run/show.page", "run/"), ("desk/today.page", "desk/../run/")):
        check_last(tally, folder.show(name), "%s: %s, all seen; pencil: %sshow.sheet, %sshow.pencil" % (
            name, SIZE, seen, seen))
    write(folder.path("store/0412.sheet"), b"")
    check_refused(tally, folder.show("desk/today.page"), "desk/today.page: refused: both desk/../run/show.sheet "
                  "and %s/store/0412.sheet stand beside it; --pencil SHEET FILE tells which, --no-pencil shows "
                  "the page without them" % os.path.realpath(folder.name))
    os.remove(folder.path("store/0412.sheet"))
    check_lost_names(tally, folder, ends)


def check_lost_names(tally, folder, ends):
    """Links that lead to a name which is too long, is gone, or may not be looked at."""
    names = [folder.path("run/show" + end) for end in (".page", *ends)]
    deep = os.open(folder.name, os.O_PATH)
    for _ in range(25):
        os.mkdir("x" * 200, dir_fd=deep)
        deep, above = os.open("x" * 200, os.O_PATH, dir_fd=deep), deep
        os.close(above)
    os.mkdir("in", dir_fd=deep)
    for name in names:
        to = os.open("in/" + os.path.basename(name), os.O_WRONLY | os.O_CREAT, dir_fd=deep)
        os.write(to, read(name))
        os.close(to)
    os.symlink("in/show.page", "a.page", dir_fd=deep)
    shown = Shown(["a.page"], preexec_fn=lambda: os.fchdir(deep))
    check_last(tally, shown, "a.page: %s, all seen; pencil: in/show.sheet, in/show.pencil" % SIZE)
    os.close(deep)
    check_long(tally, folder)
    os.mkdir(folder.path("shut"))
    for name in names:
        shutil.copy(name, folder.path("shut"))
    page = os.open(folder.path("shut/show.page"), os.O_RDONLY)
    given = "/dev/fd/%d" % page
    shutil.copy(names[0], folder.path("shut/new"))
    os.replace(folder.path("shut/new"), folder.path("shut/show.page"))
    shut = os.path.realpath(folder.path("shut"))
    check_last(tally, folder.show(given, pass_fds=[page]), "%s: %s, all seen; pencil: %s/show.sheet, "
               "%s/show.pencil" % (given, SIZE, shut, shut))
    os.close(page)
    if os.getuid() == 0:
        page = os.open(folder.path("shut/show.page"), os.O_RDONLY)
        os.chmod(shut, 0o700)
        os.chmod(folder.name, 0o755)
        view = shutil.copy(view_making.VIEW, folder.path("view"))
        shown = folder.show("/dev/fd/%d" % page, view=view, pass_fds=[page], preexec_fn=lambda: os.setuid(65534))
        tally.check(shown.status == 1 and not shown.told, "a sheet that may not be looked at: %s" % shown.told)
        os.close(page)


def check_long(tally, folder):
    """A page whose name is just short enough, beside a sheet whose name is not: nobody can look there."""
    page = read(folder.path("run/show.page"))
    left = 4095 - len(folder.name) - len("/show.page")
    deep = folder.name + ("/" + "y" * 200) * (left // 201 - 1)
    left = 4095 - len(deep) - len("/show.page")
    deep += "/" + "y" * (left // 2 - 1) + "/" + "z" * (left - left // 2 - 1)
    os.makedirs(deep)
    write(deep + "/show.page", page)
    shown = Shown([deep + "/show.page"])
    tally.check(shown.status == 1 and not shown.told, "a sheet of too long a name: %s" % shown.told[-60:])
    name = "n" * 250 + ".page"                  # no sheet can be named so
    write(folder.path(name), page)
    check_last(tally, folder.show(name), "%s: %s, all seen; no pencil given" % (name, SIZE))


def check_bad_sheets(tally, folder):
    """Anything of the name counts: what cannot be read, and what is no sheet."""
    sheet, good = folder.path("show.sheet"), read(folder.path("show.sheet"))
    for make, why in ((lambda: os.symlink("nowhere", sheet), "No such file or directory"),
                      (lambda: os.symlink("show.sheet", sheet), "Too many levels of symbolic links"),
                      (lambda: os.mkdir(sheet), "Is a directory"),
                      (lambda: os.mkfifo(sheet), "this is no plain file")):
        os.remove(sheet)
        make()
        check_refused(tally, folder.show("show.page", seconds=30), "show.sheet: cannot be read: %s%s" % (why, OUT))
        check_last(tally, folder.show("show.page", "--no-pencil"), "show.page: %s, all seen; pencil left out "
                   "(--no-pencil): show.sheet" % SIZE)
        (os.rmdir if os.path.isdir(sheet) else os.remove)(sheet)
        write(sheet, good)
    for octets, due in ((b"", "BadSheet (14) at record 0"), (good[:-1], "BadSheet (14) at record 4"),
                        (good * 400, "BadSheet (14) at record 5")):
        write(sheet, octets)
        folder.write_side("show")
        shown = folder.show("show.page")
        tally.check(shown.status == 1 and shown.wrong.startswith("show.sheet: refused: %s" % due)
                    and shown.wrong.endswith(OUT + "\n"), "a sheet of %d octets: %s" % (len(octets), shown.wrong))
    write(sheet, good[:28 * 3] + good)
    folder.write_side("show")
    tally.check(folder.show("show.page").status == 1, "a sheet of more stripes is taken")
    write(sheet, good)
    folder.write_side("show")


def check_rights(tally, folder):
    """Files that may not be read. Root may read all, so it turns into somebody else."""
    os.chmod(folder.name, 0o755)
    settings = {"preexec_fn": lambda: os.setuid(65534)} if os.getuid() == 0 else {}
    view = shutil.copy(view_making.VIEW, folder.path("view"))
    for name in ("show.sheet", "show.sheet.sha256", "show.pencil"):
        os.chmod(folder.path(name), 0)
        try:
            shown = folder.show("show.page", view=view, **settings)
        except (OSError, subprocess.SubprocessError) as why:
            print("rights are not tried: %s" % why)
            return
        check_refused(tally, shown, "%s: cannot be read: Permission denied%s" % (name, OUT))
        os.chmod(folder.path(name), 0o644)


# The last line

def check_last_lines(tally, folder):
    page = "show.page: %s, " % SIZE
    pencil = "; pencil: show.sheet, show.pencil"
    unseen = WIDTH * HEIGHT     # pixels; the strike has 100
    squares, grey = ", drawn as green squares on magenta", ", drawn as #808080 (--unseen)"
    for words, due, status in (
            ((), page + "all seen" + pencil, 0), (("-o", "out.png"), page + "all seen" + pencil, 0),
            (("--times",), page + "all seen" + pencil, 0),
            (("--times", "-o", "out.png"), page + "all seen" + pencil, 0),
            (("--stripe", "0"), "show.page: stripe 0 alone (--stripe): %s, all seen%s" % (SIZE, pencil), 0),
            (("--stripe", "0", "--list"), "show.page: stripe 0 alone (--stripe): %s, not decoded (--list)%s"
             % (SIZE, pencil), 0),
            (("--list",), page + "not decoded (--list)" + pencil, 0),
            (("--list", "--no-pencil"), page + "not decoded (--list); pencil left out (--no-pencil): "
             "show.sheet", 0),
            (("--no-pencil",), page + "all seen; pencil left out (--no-pencil): show.sheet", 0),
            (("--no-digests",), page + "all seen" + pencil + ", not checked (--no-digests)", 0),
            (("--no-pencil", "--no-digests"), page + "all seen; pencil left out (--no-pencil): show.sheet", 0),
            (("--unread", "0:4"), page + "%d of %d unseen" % (unseen, unseen) + pencil, 3),
            (("--unread", "0:4", "-o", "out.png"),
             page + "%d of %d unseen" % (unseen, unseen) + squares + pencil, 3),
            (("--unread", "0:2", "--unseen", "808080"),
             page + "%d of %d unseen" % (unseen - 100, unseen) + pencil, 3),
            (("--unread", "0:2", "--unseen", "808080", "-o", "out.png"),
             page + "%d of %d unseen" % (unseen - 100, unseen) + grey + pencil, 3),
            (("--unread", "0:4", "--unseen", "#808080", "-o", "out.png"),
             page + "%d of %d unseen" % (unseen, unseen) + grey + pencil, 3),
            (("--unseen", "808080"), page + "all seen" + pencil, 0),
            (("--unseen", "808080", "--list"), page + "not decoded (--list)" + pencil, 0)):
        shown = folder.show("show.page", *words)
        check_last(tally, shown, due, status)
        before = shown.told.splitlines()[-2:-1]
        if "-o" in words:
            tally.check(before == ["out.png: written"], "before the last: %s" % before)
        elif "--list" not in words:
            tally.check(before == ["no picture was asked for (-o OUT.png)"], "before the last: %s" % before)
    whole, bare = folder.picture("show.page"), folder.picture("show.page", "--no-pencil")
    tally.check(is_as_due(whole[1], folder.models["show"]), "a pencil that was found is not shown")
    tally.check(bare[1] and not is_as_due(bare[1], folder.models["show"]), "--no-pencil shows the pencil")
    for name in ("show.sheet", "show.sheet.sha256", "show.pencil"):
        octets = read(folder.path(name))
        shown = folder.show("show.page", "-o", name)
        tally.check(shown.status == 2 and shown.wrong == "spirerook-view: -o %s: the picture would take the "
                    "place of what is read\n" % name and read(folder.path(name)) == octets,
                    "-o %s: %s" % (name, shown.wrong))
    os.mkdir(folder.path("alone"))
    shutil.copy(folder.path("show.page"), folder.path("alone"))
    for words in ((), ("--no-pencil",), ("--no-digests",)):
        check_last(tally, folder.show("alone/show.page", *words),
                   "alone/show.page: %s, all seen; no pencil given" % SIZE)


def check_forged(tally, folder):
    """A name that ends as the line could, or begins as one."""
    side = folder.path("show.sheet.sha256")
    lines = read(side).splitlines(True)
    name = "p; no pencil given"
    shutil.copy(folder.path("show.pencil"), folder.path(name))
    write(side, lines[0] + lines[1] + lines[2][:66] + name.encode() + b"\n")
    check_last(tally, folder.show("show.page"), "show.page: %s, all seen; pencil: show.sheet, p\\x3B no pencil "
               "given" % SIZE)
    page = "a: %s, all seen; no pencil given" % SIZE
    shutil.copy(folder.path("show.page"), folder.path(page))
    shown = folder.show(page, "--unread", "0:2")
    tally.check("all seen;" not in shown.told.splitlines()[-1], "the last line: %s" % shown.told)


# What the page maker writes

PLAN = "resolution 200\nstripe\nmask m.pbm\npencil-mask m.pbm at 1 2\npencil-image none base 505050\n"


def check_maker(tally, folder):
    """sha256sum takes it, and would have written the same; the viewer finds the pencil by it."""
    write(folder.path("m.pbm"), make_kit.pbm(block(8, 4, 40, 8)))
    write(folder.path("p.plan"), PLAN.encode())
    os.mkdir(folder.path("pages"))
    for stem in ("plain", "with blanks", "a\nb", "a\\b", "a\\nb", "\r", "\u00e9\u4e2d", " "):
        names = [stem + end for end in (".page", ".sheet", ".pencil")]
        make_kit.run(folder.name, "p.plan", "-o", names[0], "--pencil", *names[1:], program=make_kit.PROGRAM)
        side = folder.path(names[1] + ".sha256")
        if not os.path.exists(side):
            tally.check(False, "no side file for %r" % stem)
            continue
        summed = subprocess.run(["sha256sum", "--", *names], cwd=folder.name, check=True,
                                stdout=subprocess.PIPE).stdout
        tally.check(summed == read(side), "%r: %s, not %s" % (stem, read(side), summed))
        done = subprocess.run(["sha256sum", "-c", "--strict", "--quiet", side], cwd=folder.name, check=False)
        tally.check(done.returncode == 0, "sha256sum -c refuses the side file of %r" % stem)
        shown = folder.show(names[0])
        tally.check(shown.status == 0 and "; pencil: " in shown.told.splitlines()[-1], "%r: %s" % (
            stem, shown.wrong))
    make_kit.run(folder.name, "p.plan", "-o", "pages/far.page", "--pencil", "far.sheet", "pages/far.pencil",
                 program=make_kit.PROGRAM)
    done = subprocess.run(["sha256sum", "-c", "--strict", "--quiet", "far.sheet.sha256"], cwd=folder.name,
                          check=False, stderr=subprocess.PIPE)
    tally.check(done.returncode == 0, "files in two folders: %s" % done.stderr)
    os.rename(folder.path("pages/far.page"), folder.path("far.page"))
    check_last(tally, folder.show("far.page"), "far.page: %s, all seen; pencil: far.sheet, "
               "%s/pages/far.pencil" % (SIZE, os.path.realpath(folder.name)))


def main():
    tally = reference_run.Tally()
    if not view_making.prepare(tally):
        return tally.end()
    coders = Coders()
    for check in (check_other_page, check_changes, check_side, check_names, check_beside, check_page_names,
                  check_links, check_bad_sheets, check_rights, check_last_lines, check_forged, check_maker):
        failed = tally.failed
        check(tally, Folder(coders))
        print("%s: %s" % (check.__name__, "good" if tally.failed == failed else "FAILED"))
    return tally.end()


if __name__ == "__main__":
    sys.exit(main())
