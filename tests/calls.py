"""The calls in one form: a case is what a driver is given, an answer its line and octets."""

import counts
import page_making
import reference_run

RUN = 400            # cases in one run of a driver
RUN_OCTETS = 10 ** 7 # and octets of them
MANY = 60 * 28       # a sheet of more octets than this is judged by itself: the reference is slow
LARGE = 1000000      # and so is a case of more octets than this


def read_answers(program, cases):
    """The reader prints a sheet as its listing."""
    return [(page_making.answer(lines), lines.encode()) if lines[:1].isdigit()
            else (lines.strip(), b"") for lines in reference_run.read_many(program, cases)]


class Call:
    """A call: how its driver answers cases, and where what is in a case."""

    def __init__(self, name, octets, room, sheet, many=reference_run.call_many, unseen=None,
                 share=1):
        self.name, self.many = name, many
        self.octets = octets    # the places of octets in a case
        self.room = room        # the place of the room, or None
        self.sheet = sheet      # the place of the sheet, or None
        # the places of numbers that are octets: of the unseen colour, from `unseen` on
        self.small = () if unseen is None else range(unseen, unseen + 3)
        self.share = share      # of the random cases of a call, where one has them with another

    def batches(self, cases):
        """The cases in runs of the driver, large ones alone: a run has only so much time."""
        batch, octets = [], 0
        for k, case in enumerate(cases):
            size = sum(len(case[at]) for at in self.octets) + (case[self.room] if self.room else 0)
            if size > LARGE or (self.sheet is not None and len(case[self.sheet]) > MANY):
                yield [k]
                continue
            batch, octets = batch + [k], octets + size
            if len(batch) == RUN or octets > RUN_OCTETS:
                yield batch
                batch, octets = [], 0
        if batch:
            yield batch

    def answers(self, program, cases):
        """(answer, octets) of each case"""
        answers = [None] * len(cases)
        for batch in self.batches(cases):
            for k, got in zip(batch, self.many(program, [cases[k] for k in batch])):
                answers[k] = got
        return answers


ALL = {call.name: call for call in (
    Call("read", (0,), 1, None, read_answers), Call("write", (0, 1), 2, 0),
    Call("line", (0, 1, 2), 3, 0, share=0.5), Call("data", (0, 1, 2), None, 0),
    Call("judge", (0,), None, 0), Call("line_unseen", (0, 1, 2), 3, 0, unseen=6, share=0.5),
    Call("band", (0, 1, 2), 3, 0, unseen=5, share=0.5))}
# in the words of tests/driver/any_call.h
NUMBERS = {name: k for k, name in enumerate(ALL)}
MOST_NUMBERS = 5


def told_numbers(numbers):
    """The numbers that a call is told, and 0 for those that it has not."""
    return [*numbers, *[0] * (MOST_NUMBERS - len(numbers))]


class Answering:
    """Whoever answers cases with their (answer, octets)s, and has a tally for what is wrong."""

    def check(self, works):
        """Cases whose answers are known: (what, case, (answer, octets)); answers them."""
        answers = self.answers(lambda k: works[k][0], [case for _, case, _ in works])
        for (told, _, due), got in zip(works, answers):
            self.tally.check(got == due, "%s: %s is due, but the reference: %s"
                             % (told, due[0], difference(due, got)))
        return answers


class Both(Answering):
    """The reference of a call, and beside it the library, if there is one."""

    def __init__(self, tally, call, name=None, flags=("-O2",), library=None, counted=None):
        self.tally, self.call = tally, call
        self.reference = reference_run.build(name or "reference_%s_plain" % call.name,
                                             flags=flags, parts=reference_run.parts_of(call.name))
        self.library = library or reference_run.build_library_driver(tally, call.name)
        self.counts = counted or counts.Counts()
        self.compared = 0

    def answers(self, told, cases):
        """What the reference answers to each case, which the library answers too;
        `told` names one of them by its number."""
        answers = self.call.answers(self.reference, cases)
        broken = [k for k, (answer, _) in enumerate(answers) if counts.number_of(answer) < 0]
        for k in broken[:5]:
            self.tally.check(False, "%s: the reference says %s" % (told(k), answers[k][0]))
        self.counts.add(self.call.name, [answer for answer, _ in answers])
        if self.library is not None:
            got = self.call.answers(self.library, cases)
            wrong = [k for k in range(len(cases)) if got[k] != answers[k]]
            for k in wrong[:5]:
                self.tally.check(False, "%s %s: %s" % (self.call.name, told(k),
                                                       difference(answers[k], got[k])))
            if not wrong:
                self.tally.check(True, "")
            self.compared += len(cases)
        return answers


class Siblings(Answering):
    """Calls that differ in how many numbers they take: each case is for the one whose number of
    parts it has, given as {parts: Both}."""

    def __init__(self, tally, boths):
        self.tally, self.boths = tally, boths

    def answers(self, told, cases):
        answers = [None] * len(cases)
        for parts, both in self.boths.items():
            own = [k for k, case in enumerate(cases) if len(case) == parts]
            got = both.answers(lambda k, own=own: told(own[k]), [cases[k] for k in own])
            for k, answer in zip(own, got):
                answers[k] = answer
        return answers


def difference(due, got, one="the reference", other="the library"):
    """What one says and the other, and the first octet in which they differ."""
    where = ""
    if due[1] != got[1]:
        at = next((k for k, pair in enumerate(zip(due[1], got[1])) if pair[0] != pair[1]),
                  min(len(due[1]), len(got[1])))
        where = "; octet %d is another" % at
    return "%s says %s, %s %s%s" % (one, due[0], other, got[0], where)
