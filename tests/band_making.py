"""Bands, made from the words of tests/bands.md, and the bands due; and what the lines of
tests/lines.md say of bands.

The octets of a band are put together here, not by any painter.
"""

import re

import line_making
from line_making import GREY

ROOM = 1000


def as_band(case, room, unseen=None):
    """The case of a band from that of a line, told the unseen colour or not, of the same stripe."""
    return (*case[:3], room, case[4], *(case[6:] if unseen is None else unseen))


def lines_of(words):
    """The lines of the column `band`, each as the column `line` of tests/lines.md has it."""
    words = re.sub(r"(\d+)\*\(([^()]*)\)", lambda m: "/".join([m[2]] * int(m[1])), words)
    return words.split("/") if words else []


def band_of(words, unseen):
    """The octets of the column `band`."""
    return b"".join(line_making.line_of(line, unseen) for line in lines_of(words))


class Asked:
    """A call and what is due of it: its answer, and the octets that stand somewhere in the band."""

    def __init__(self, what, case, answer, octets=b"", at=0):
        self.what, self.case, self.answer, self.octets, self.at = what, case, answer, octets, at

    def is_due(self, got):
        answer, octets = got
        return answer == self.answer and octets[self.at:self.at + len(self.octets)] == self.octets


def told_unseen(unseens):
    """Unseen colours of a table of lines, where None is grey untold: a band is told always."""
    return list(dict.fromkeys(GREY if unseen is None else unseen for unseen in unseens))


class Case(line_making.Case):
    """A row of tests/bands.md: its number, name, what is lent, the call, the answer and the band."""

    room = ROOM

    def __init__(self, cells):
        super().__init__([*cells[:5], cells[5] + " 0", *cells[6:]])

    def due(self, unseen=GREY):
        return self.answer, band_of(self.pixels, unseen)

    def unseens(self):
        return told_unseen(super().unseens())

    def asked(self, unseen):
        case = as_band(super().work(unseen), self.room)
        return Asked("%s, unseen %d %d %d" % (self.told(), *unseen), case, *self.due(unseen))

    def has_shape(self):
        """The band has the lines of its stripe, each as wide as the page."""
        lines = [len(line_making.line_of(line, GREY)) for line in lines_of(self.pixels)]
        return not lines or lines == [4 * self.named.width] * self.named.height

    def told(self):
        return "band %s, %s: %s" % (self.number, self.name, self.answer)


def table():
    return line_making.table("bands.md", Case)


# What tests/lines.md says of bands

def has_band(line):
    """Whether a row of that table says something of its stripe's band: each does but those that are
    refused for their line."""
    return line.answer != "refused 17 0" or line.named is None


def asked_of_line(line, unseen):
    """A row of that table as a call for the whole stripe, in as much more room as the band has more
    octets: its refusal, or its line at its place in the band."""
    answer, octets = line.due(unseen)
    what, case = "the band of " + line.told(), line.work(unseen)
    if not octets:
        # where a line has no room, the band has none either
        return Asked(what, as_band(case, line.room), answer)
    size = 4 * line.named.width * line.named.height
    return Asked(what, as_band(case, line.room - len(octets) + size), "done %d" % size, octets,
                 line.line * len(octets))


def asked_of_lines(lines):
    return [asked_of_line(line, unseen) for line in lines if has_band(line)
            for unseen in told_unseen(line.unseens())[-2:]]
