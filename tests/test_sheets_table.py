"""Holds the judge, by the reference and by the library's exported call, to tests/sheets.md: each
sheet lent against both edges of memory."""

import sys

import calls
import reference_run
import sheet_making


def check_table(tally, cases):
    """Numbers run from 1 without a gap and no name stands twice."""
    numbers = [case.number for case in cases]
    tally.check(numbers == [str(k + 1) for k in range(len(cases))], "the numbers of the table")
    tally.check(len({case.name for case in cases}) == len(cases), "a name stands twice")


def check_stripes(tally, case):
    """A good sheet's answer tells its stripes too, which the call does not count."""
    last = len(case.sheet) // sheet_making.RECORD - 1
    stripes = sheet_making.get(case.sheet, last, "stripe") + 1
    tally.check(case.answer.split()[2] == str(stripes), "%s, but it has %d stripes"
                % (case.line(), stripes))


def due(case):
    """What the judge's driver answers: `good` and the records, or the refusal."""
    words = case.answer.split()
    return " ".join(words[:2] if words[0] == "good" else words), b""


def main():
    tally = reference_run.Tally()
    cases = sheet_making.table()
    check_table(tally, cases)
    for case in cases:
        if case.answer.startswith("good"):
            check_stripes(tally, case)
    both = calls.Both(tally, calls.ALL["judge"])
    both.check([(case.line(), (case.sheet,), due(case)) for case in cases])
    print("%d sheets judged by the reference%s"
          % (len(cases), " and by the library" if both.library else " alone"))
    return tally.end()


if __name__ == "__main__":
    sys.exit(main())
