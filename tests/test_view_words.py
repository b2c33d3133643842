"""What the viewer says of colours that it does not follow, and of options that do not fit: each fault
names the option and the value."""

import sys

import page_making
import reference_run
import view_making
from test_view_pencil import Folder
from view_making import Coders, read, write

# Gamut and illuminant

def segment(kind, data):
    return b"\xff\xed" + page_making.big(len(data) + 6, 2) + b"MRC" + bytes([kind]) + data


GAMUT = b"".join(page_making.big(number, 2) for number in (0, 100, 128, 170, 96, 200))
D50, D65 = b"\0D50", b"\0D65"


def check_colours(tally, folder):
    page = read(folder.path("show.page"))       # and no sheet stands beside the copies
    one = "page: its colours are shown in the default range, but it has a gamut segment at octet %d\n"
    two = "page: its colours are shown under D50, but it has an illuminant segment at octet %d\n"
    for segments, due in (
            ([], ""), ([(10, GAMUT)], ""), ([(11, D50)], ""), ([(10, GAMUT), (11, D50), (12, b"x")], ""),
            ([(10, GAMUT[:-1] + b"\0")], one % 22), ([(10, b"\1" + GAMUT[1:])], one % 22),
            ([(10, b"")], one % 22), ([(10, GAMUT + b"\0")], one % 22), ([(10, GAMUT[:-1])], one % 22),
            ([(11, D65)], two % 22), ([(11, b"")], two % 22), ([(11, D50 + b"\0")], two % 22),
            ([(11, D65), (10, GAMUT[::-1])], two % 22 + one % 34),
            ([(200, bytes(65529)), (11, b"\0\0SA"), (10, GAMUT), (11, D50), (3, b"")], two % (22 + 65537)),
            ([(12, segment(10, b"")), (254, segment(11, D65))], ""), ([(11, D65)] * 3, two % 22 + two % 34 + two % 46)):
        put = b"".join(segment(kind, data) for kind, data in segments)
        write(folder.path("page"), page[:22] + put + page[22:])
        for words in ((), ("--list",)):
            shown = folder.show("page", *words)
            tally.check(shown.status == 0 and shown.told.startswith(due + "page: stripe 0, layer 1: ")
                        and shown.told.count("its colours are shown") == due.count("\n"),
                        "%s: %s %s" % (segments[:1], shown.wrong, shown.told))


# Options

LAYER = "STRIPE:LAYER, a stripe from 0 to 63 and a layer from 1 to 15"
COLOUR = "RRGGBB, six hexadecimal digits of red, green and blue"
SECONDS = "N or N:M, N from 1 to 3600 seconds of the processor and M from N to 86400 by the clock"
FAULTS = [
    ("", "no page is named; --help tells how"), ("--list", "no page is named; --help tells how"),
    ("show.page --nothing", "--nothing: no such option; --help tells of all"),
    ("-x show.page", "-x: no such option; --help tells of all"),
    ("show.page b.page", "b.page: a second page; the first is show.page"),
    ("show.page -o", "-o: needs the name of a picture"), ("show.page -o ''", "-o '': an empty name"),
    ("''", "'': an empty name"),
    ("show.page --pencil", "--pencil: needs the names of a sheet and of its pencil file"),
    ("show.page --pencil a", "--pencil a: needs the names of a sheet and of its pencil file"),
    ("show.page --pencil '' b", "--pencil '' b: an empty name"),
    ("show.page --pencil a b --no-pencil", "--pencil a b: not together with --no-pencil"),
    ("--no-pencil --pencil a b show.page", "--pencil a b: not together with --no-pencil"),
    ("show.page --list -o x.png", "-o x.png: not together with --list, which writes no picture"),
    ("show.page --pencil a b --pencil c d", "--pencil c d: given twice"),
    ("show.page -o a.png -o b.png", "-o b.png: given twice"),
    ("show.page --stripe 0 --stripe 0", "--stripe 0: given twice"),
    ("show.page --stripe", "--stripe: needs a number from 0 to 63"),
    *(("show.page --stripe " + word, "--stripe %s: not a number from 0 to 63" % word)
      for word in ("64", "x", "''", "-1", "0.5", "--list")),
    ("show.page --stripe 1", "--stripe 1: the page has no such stripe"),
    ("show.page --unread", "--unread: needs " + LAYER),
    *(("show.page --unread " + word, "--unread %s: not %s" % (word, LAYER))
      for word in ("0", "0:", ":1", "0:0", "0:16", "64:1", "0:1:2", "x", "--list")),
    ("show.page --unread 0:2 64:1", "--unread 64:1: not " + LAYER),
    ("show.page --unread 0:2 7:1", "--unread 7:1: the page has no such stripe"),
    ("show.page --unread 0:6", "--unread 0:6: the stripe has no such layer"),
    ("show.page --unread 0:4 --no-pencil", "--unread 0:4: the stripe has no such layer"),
    ("show.page --unread 0:5", "--unread 0:5: the layer is not coded, so nothing of it is read"),
    ("show.page --unseen", "--unseen: needs " + COLOUR),
    *(("show.page --unseen " + word, "--unseen %s: not %s" % (word, COLOUR))
      for word in ("''", "#", "80808", "#80808", "8080800", "##808080", "808080#", "80808G", "0x8080", "-80808",
                   "+80808", "80.808", "888", "grey", "--list", "\uff18080", "\u0661\u0662\u0663")),
    ("show.page --unseen 808080 --unseen 808080", "--unseen 808080: given twice"),
    ("show.page --memory", "--memory: needs a size, at most 4G, as 300K, 512M or 2G"),
    *(("show.page --memory " + word, "--memory %s: at most 4G, as 300K, 512M or 2G" % word)
      for word in ("5G", "4097M", "1T", "1.5G", "1GB", "''", "M", "18446744073709551617")),
    ("show.page --seconds", "--seconds: needs " + SECONDS),
    *(("show.page --seconds " + word, "--seconds %s: not %s" % (word, SECONDS))
      for word in ("0", "3601", "x", "''", "1.5", "-1", "5:", "5:4", "5:86401", "5:x", "5:6:7", ":6", "5s")),
]


def check_options(tally, folder):
    for line, due in FAULTS:
        shown = folder.show(*("" if word == "''" else word for word in line.split()))
        tally.check(shown.status == 2 and shown.wrong == "spirerook-view: %s\n" % due and not shown.told,
                    "%s: status %s, '%s', not '%s'" % (line, shown.status, shown.wrong, due))
    for line in ("--seconds 1", "--seconds 3600", "--seconds 5:5", "--seconds 3600:86400", "--no-sandbox",
                 "--no-digests --no-pencil", "--memory 4G --stripe 0", "--no-pencil --no-pencil",
                 "--unseen 09AFaf", "--unseen #09afAF", "--unseen 000000 --list", "--unseen ffffff --stripe 0"):
        shown = folder.show("show.page", *line.split())
        tally.check(shown.status == 0 and not shown.wrong, "%s: %s" % (line, shown.wrong))
    told = folder.show("--help").told
    for word in ("--seconds N", "--no-sandbox", "--no-pencil", "--no-digests", "--pencil SHEET FILE",
                 "--unseen RRGGBB"):
        tally.check(word in told, "--help does not tell of " + word)


# Names

HIDDEN = "\x1b\x7f\x9b\xad\u034f\u061c\u115f\u17b4\u180e\u200b\u200f\u2028\u202e\u2060\u2066\u3164\ufe0f\ufeff\uffa0" \
    "\ufff0\ufffa\U0001bca0\U0001d173\U000e0041\U000e0100"


def check_names(tally, folder):
    """What is not seen, or moves what is, stands escaped in a line; letters of all tongues do not."""
    for letter in HIDDEN:
        due = "sh%sow.page: cannot be read: No such file or directory\n" % "".join(
            "\\x%02X" % octet for octet in letter.encode())
        shown = folder.show("sh%sow.page" % letter)
        tally.check(shown.wrong == due, "U+%04X: %s" % (ord(letter), shown.wrong))
    shown = folder.show("\u00e9\u0416\u4e2d\u0939 \U0001f3ad.page")
    tally.check(shown.wrong.startswith("\u00e9\u0416\u4e2d\u0939 \U0001f3ad.page: "), shown.wrong)


def main():
    tally = reference_run.Tally()
    if not view_making.prepare(tally):
        return tally.end()
    coders = Coders()
    for check in (check_colours, check_options, check_names):
        check(tally, Folder(coders))
    return tally.end()


if __name__ == "__main__":
    sys.exit(main())
