"""Plants faults in copies of the reference, one each, and tells who finds them.

A fault is (file, what goes wrong, the text of the file, the text in its place).
"""

import concurrent.futures
import os
import shutil

import reference_run


class Planted:
    """A copy of the reference with one fault in it."""

    def __init__(self, group, number, fault):
        file, _, old, new = fault
        self.name = os.path.join(group, str(number))
        self.folder = os.path.join(reference_run.ROOT, "build", self.name)
        shutil.rmtree(self.folder, ignore_errors=True)
        shutil.copytree(reference_run.SOURCES, self.folder)
        with open(os.path.join(self.folder, file), encoding="utf-8") as source:
            text = source.read()
        self.times = text.count(old)
        self.built = {}
        with open(os.path.join(self.folder, file), "w", encoding="utf-8") as faulty:
            faulty.write(text.replace(old, new))

    def build(self, parts):
        """A program over it. No warnings here: a fault may leave a name unused."""
        if parts not in self.built:
            name = os.path.join(self.name, os.path.basename(parts[-1])[:-2])
            self.built[parts] = reference_run.build(name, self.folder, ("-O1", "-w"), parts)
        return self.built[parts]


def check_all(tally, group, faults, found_by):
    """Plants each fault, two at a time; `found_by(planted, number)` answers who finds it, or None.
    A fault whose text does not stand just once fails too."""
    def outcome(numbered):
        planted = Planted(group, *numbered)
        return planted.times, found_by(planted, numbered[0]) if planted.times == 1 else None

    with concurrent.futures.ThreadPoolExecutor(max_workers=2) as workers:
        for fault, (times, finder) in zip(faults, workers.map(outcome, enumerate(faults))):
            told = "%s: %s: " % fault[:2]
            tally.check(finder is not None, told + (
                "nobody found it" if times == 1 else "its text stands %d times" % times))
            if finder is not None:
                print(told + "found by " + finder)
    print("%d faults" % len(faults))


def check_table(name, faults, groups, found_by, names=None):
    """A program that holds the reference of a call, each time with one fault, to its table:
    `found_by(program, cases)` answers the first of a group of cases that the table has otherwise,
    or None. Groups come in the order of the time that they take; `names` has the call of each,
    where it is not `name` for all. Answers the exit status."""
    tally = reference_run.Tally()
    asked = list(zip(names or [name] * len(groups), groups))
    for call, cases in asked:
        sound = reference_run.build("reference_%s_sound" % call, parts=reference_run.parts_of(call))
        tally.check(found_by(sound, cases) is None, "the sound reference does not fit the table")

    def first(planted, _):
        return next(filter(None, (found_by(planted.build(reference_run.parts_of(call)), cases)
                                  for call, cases in asked)), None)

    check_all(tally, "faults_" + name, faults, first)
    return tally.end()
