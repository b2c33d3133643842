"""tell.py <LOG >docs/BENCH.md: the ratios of a run of `make bench` as a page."""

import platform
import re
import sys
import textwrap

HEAD = """# How fast it is

`make bench` builds the proved calls and the same work in plain C, checks that both give the same
answers, and times them side by side, in turns, in one run. Only ratios are told: the library's time
over the other's, so below 1 it is faster. Seconds belong to a machine. `make bench >LOG` and
`python3 bench/tell.py <LOG >docs/BENCH.md` make this page again; all figures are of one run on
shared processors, %s.
""" % platform.machine()

def wrapped(said):
    return textwrap.fill(said, 100, break_on_hyphens=False)


def table(title, said, columns, rows):
    print("\n## %s\n\n%s\n\n| %s |\n|%s" % (title, wrapped(said), " | ".join(columns), "---|" * len(columns)))
    for row in rows:
        print("| %s |" % " | ".join(row))


def block(lines, begin):
    """The rows after a heading, up to the next empty line."""
    at = next(k for k, line in enumerate(lines) if begin in line) + 1
    rows = []
    while at < len(lines) and lines[at].strip():
        rows.append(lines[at])
        at += 1
    return rows


def name_and_numbers(line):
    """A row's name, and its numbers; limits, which follow a ratio, are left in."""
    found = re.match(r"(.*?)  +([-\d.!].*)$", line.strip() if not line.startswith(" ") else line[1:])
    return found[1].strip(), found[2].replace("!", "").split()


def judge(lines):
    rows = [name_and_numbers(line) for line in block(lines, "Rattle ns       C ns")]
    table("The judge, and finding a stripe", "A sheet judged, and a stripe found in a sheet that was judged, beside C.", ("what", "beside C"),
          [(name, numbers[2]) for name, numbers in rows])


BEFORE = "beside the library before"


def has_before(lines):
    """Whether BEFORE named an archive: then a ratio more stands at the end of each row."""
    return any(BEFORE in line for line in lines)


def tell_lines(lines, begin, *words):
    """The lines behind a heading, up to the next, that have one of these words: as sentences."""
    at = next(k for k, line in enumerate(lines) if begin in line) + 1
    end = next((k for k in range(at, len(lines)) if "best of many rounds" in lines[k]), len(lines))
    told = [line.strip().replace("!", "") for line in lines[at:end] if any(word in line for word in words)]
    if told:
        print("\n" + wrapped(" ".join("%s%s." % (line[0].upper(), line[1:]) for line in told)))


GREY = ": grey layers take "


def pages(lines):
    rows, begin = [], "/ octets  limit"
    for line in block(lines, begin):
        name, numbers = line[:36].strip(), line[36:].replace("!", " ")
        rows.append((name, numbers[33:42].strip(), numbers[49:60].strip(), *(numbers.split()[-1:] if has_before(lines) else ())))
    columns = ("page", "beside C by octets", "beside C by memchr", BEFORE)
    table("Reading a page", "Beside C that looks at each octet, and C that finds FF by memchr.", columns[:len(rows[0])], rows)
    tell_lines(lines, begin, ": an octet of 16 MB takes ")
    tell_lines(lines, begin, GREY)


def writes(lines):
    rows, begin = [], "copy + read  / octets"
    for line in block(lines, begin):
        name, numbers = line[:36].strip(), line[36:].split()
        rows.append((name, *(numbers[4:7] if numbers[3] != "-" else [*numbers[4:6], ""]), *(numbers[-1:] if has_before(lines) else ())))
    columns = ("page", "beside C by octets", "beside C by memchr", "beside copy and read", BEFORE)
    table("Writing a page", "Beside the same in C, and beside one memcpy of the page and one proved reading of it.", columns[:len(rows[0])], rows)
    tell_lines(lines, begin, GREY)


def line_ratios(line):
    """A row's name, and its ratios: of s sides there are s times, then s - 1 ratios."""
    numbers = re.findall(r"\d+\.\d+", line[46:])
    return line[:46].strip(), numbers[(len(numbers) + 1) // 2:]


def lines_of_pixels(lines):
    beside = ("beside literal C", "beside C by rows", BEFORE)
    groups = {}
    for line in block(lines, "nanoseconds a pixel, best"):
        name, ratios = line_ratios(line)
        groups.setdefault(int(name.split()[0]), []).append([float(ratio) for ratio in ratios])
    rows = [("%d layers, %d rows" % (layers, len(ratios)), *("%.2f to %.2f" % (min(column), max(column)) for column in zip(*ratios)))
            for layers, ratios in sorted(groups.items())]
    table("A line of pixels", "Beside the literal C composer, which does the paper's rule for each layer of each pixel, and beside C "
          "that finds each layer's row once a line and goes from the highest pair down. Rows differ in the resolution, the masks (in runs, at "
          "random) and in what is read; the limit is 1.3 of the literal one.", ("stripe", *beside[:len(rows[0]) - 1]), rows)
    others = [line_ratios(line) for line in block(lines, "microseconds a line")]
    table("Lines of other kinds", "The same, a line each. The library before is that whose archive BEFORE named." if len(rows[0]) > 3 else "The same, a line each.", ("line", *beside[:len(rows[0]) - 1]), [(name, *ratios) for name, ratios in others])
    for line in lines:
        if line.startswith(BEFORE):
            print("\n" + wrapped("B%s." % line[1:].rstrip()))


def ratio_groups(lines, begin, columns):
    """The least and the largest of some columns of a block, for each number of layers."""
    groups = {}
    for line in block(lines, begin):
        numbers = re.findall(r"\d+\.\d+", line[46:])
        groups.setdefault(int(line.split()[0]), []).append([float(numbers[k]) for k in columns])
    return [("%d layers, %d rows" % (layers, len(ratios)), *("%.2f to %.2f" % (min(column), max(column)) for column in zip(*ratios)))
            for layers, ratios in sorted(groups.items())]


def greys(lines):
    begin = "grey layers, nanoseconds a pixel"
    table("A line of grey layers", "All image layers grey, one octet a sample, beside the same greys as coloured layers, three octets a sample: the "
          "same page, the same line octet for octet, in turns. Then beside the composers in C, which are lent the grey layers too.",
          ("stripe", "beside coloured", "beside literal C", "beside C by rows"), ratio_groups(lines, begin, (2, 3, 4)))
    tell_lines(lines, begin, "lines of grey layers take ")


def band_rows(lines, begin):
    """The rows of a block of bands, one table row for each stripe and kind of mask, a column for each kind of reading."""
    rows = {}
    for line in block(lines, begin):
        name, numbers = line[:46].strip(), re.findall(r"\d+\.\d+", line[46:])
        what, read = name.rsplit(", ", 1)
        rows.setdefault(re.sub(" +", " ", what).strip(), {})[read] = (numbers[3], numbers[4])
    return rows


def bands(lines):
    begin, beside = "bands, ns a pixel", ("beside C", "beside lines")
    rows = band_rows(lines, begin)
    kinds = list(next(iter(rows.values())))
    earlier = any("lines is the line call of the library before" in line for line in lines)
    table("A band of pixels", "A stripe of 2480 by 96 pixels in one call, beside tuned C that paints layer by layer too, sixteen pixels a step; then "
          "beside the line call%s, once a line. All layers are read; or both of every other pair above layer 3 are unread; or masks and images in turn."
          % (" of an earlier library, which went pixel by pixel" if earlier else ""),
          ("stripe", *("%s, %s" % (kind, what) for what in beside for kind in kinds)),
          [(name, *(row[kind][k] for k in range(2) for kind in kinds)) for name, row in rows.items()])
    tell_lines(lines, begin, " bands are over the limit", " bands with masks in runs ")
    begin = "other bands, ns a pixel"
    table("Bands of other kinds", "The same, all layers read.", ("stripe", *beside),
          [(re.sub(" +", " ", line[:46].strip()), *re.findall(r"\d+\.\d+", line[46:])[3:5]) for line in block(lines, begin)])
    tell_lines(lines, begin, " other bands are over the limit", "a band filled by memset ")
    begin = "one line, ns a pixel"
    table("A line beside the C of a band", "The line call beside one line by the C that paints bands; the limit is 1.5.", ("stripe", "beside C"),
          ratio_groups(lines, begin, (2,)))
    tell_lines(lines, begin, " lines are over the limit")


def viewer(lines):
    at = next(k for k, line in enumerate(lines) if line.startswith("the viewer on"))
    print("\n## The viewer\n\n%s\n\n| part | share |\n|---|---|" % wrapped("T%s." % lines[at][1:].rstrip()))
    for line in lines[at + 1:at + 6]:
        part, share = line.rsplit(None, 1)
        print("| %s | %s |" % (part.strip(), share))
    ratio = re.search(r"C that paints bands: ([\d.]+), limit ([\d.]+)", lines[at + 6])
    print("\n" + wrapped("Composing through the library takes %s of what the same viewer takes with the C that paints bands in "
                         "its place; the limit is %s. The picture is the same, octet for octet." % ratio.groups()))
    tell_lines(lines, "composing through the library", "a grey page of ")


def main():
    lines = sys.stdin.read().splitlines()
    print(HEAD, end="")
    for part in (judge, pages, writes, lines_of_pixels, greys, bands, viewer):
        part(lines)


if __name__ == "__main__":
    main()
