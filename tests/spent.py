"""The processor's seconds of each proof and each must-fail edit of a run of `rt ci`, which itself
tells no times.

  spent.py watch FILE    looks at the prover's processes until it is ended, and keeps FILE
  spent.py table FILE    prints the table of it
  spent.py steps FILE    prints its proofs and edits, seconds and name, one a line

It looks at /proc twice a second, so that each figure is up to half a second too low, and what took
less than that may not be seen at all; what an earlier run proved is not proved again and has no
figure. It reads and never touches: where /proc cannot be read there is no table, and nothing else
is lost.
"""

import glob
import json
import os
import re
import signal
import sys
import time

ROOT = os.path.dirname(os.path.dirname(os.path.abspath(__file__)))
PROVER = "/bin/rattle"
STEP = 0.5               # seconds between two looks
MOST_CHECK, MOST_EDIT = 45, 12
PROOF = re.compile(r"crates/(\w+)/src/")
ROOM = re.compile(r".*/rt-edit-(\d+)-[^/]+")   # a copy of a crate with an edit in it, and whose
UNEDITED = "(as it stands)"     # the check that a crate's edits begin with


def made_by(edit, crate):
    """{file of the crate: its text} with a must-fail edit in it, as rt makes it."""
    texts, path, old = {}, "", ""
    for line in open(edit, encoding="utf-8").read().split("\n"):
        if line.startswith("file: "):
            path = line[6:].strip()
            if path not in texts:
                with open(os.path.join(ROOT, "crates", crate, path), encoding="utf-8") as file:
                    texts[path] = file.read()
        elif line.startswith("old: "):
            old = line[5:]
        elif line.startswith("new:"):
            texts[path] = texts[path].replace(old, line[4:].removeprefix(" "))
    return texts


def edit_in(room, crate):
    """Which edit of the crate stands in a copy of it."""
    for edit in glob.glob(os.path.join(ROOT, "crates", crate, "must-fail", "*.edit")):
        try:
            if all(open(os.path.join(room, path), encoding="utf-8").read() == text
                   for path, text in made_by(edit, crate).items()):
                return os.path.basename(edit)[:-5]
        except (OSError, ValueError, KeyError):
            continue        # it is no edit, or the copy is gone
    return UNEDITED


def is_ours(process):
    """Whether a process was started in this checkout."""
    try:
        return os.readlink("/proc/%s/cwd" % process) == ROOT
    except OSError:
        return False


def work_of(words, folder):
    """Which crate, and which edit of it or "", the words of a process prove; or None."""
    if not words[0].endswith(PROVER) or "--crate-name" not in words:
        return None
    room = ROOM.fullmatch(folder)
    if room and is_ours(room[1]):
        crate = words[words.index("--crate-name") + 1]
        return crate, edit_in(folder, crate)
    for word in words:
        found = PROOF.match(os.path.relpath(os.path.join(folder, word), ROOT))
        if found:
            return found[1], ""
    return None


def told(process, name):
    with open(os.path.join(process, name), encoding="utf-8", errors="replace") as file:
        return file.read()


def look(process, known):
    """((process, when it began), what it proves, its seconds until now), or None. What it proves is
    asked for once. A prover starts others, of the same words, and each is looked at by itself."""
    if PROVER not in told(process, "cmdline").split("\0")[0]:
        return None
    numbers = told(process, "stat").rpartition(")")[2].split()
    key = process, numbers[19]
    if key not in known:
        words = told(process, "cmdline").split("\0")
        known[key] = work_of(words, os.readlink(os.path.join(process, "cwd")))
    if known[key] is None:
        return None
    # user and system time, its own alone: what it has started and waited for was seen too
    return key, known[key], sum(map(int, numbers[11:13])) / os.sysconf("SC_CLK_TCK")


def save(path, seen):
    """[crate, edit, seconds] of each; the processes of one work are added."""
    sums = {}
    for work, spent in seen.values():
        sums[work] = sums.get(work, 0) + spent
    with open(path + ".part", "w", encoding="ascii") as file:
        json.dump([[*work, spent] for work, spent in sums.items()], file)
    os.replace(path + ".part", path)


def watch(path):
    ended = []
    signal.signal(signal.SIGTERM, lambda *_: ended.append(True))
    seen, known, parent = {}, {}, os.getppid()
    glob.glob("/proc/[0-9]*/stat")[0]       # an error where there is no /proc
    while not ended and os.getppid() == parent:
        for process in glob.glob("/proc/[0-9]*"):
            try:
                found = look(process, known)
            except (OSError, IndexError, ValueError):
                continue                    # it is over, or another's
            if found:
                seen[found[0]] = found[1:]
        save(path, seen)
        time.sleep(STEP)


def rows(spent):
    """(crate, seconds of its check, {edit: seconds}), the dearest first; edits that were not seen
    took next to nothing."""
    crates = {}
    for path in glob.glob(os.path.join(ROOT, "crates", "*", "must-fail", "*.edit")):
        crates.setdefault(path.split(os.sep)[-3], [0, {}])[1][os.path.basename(path)[:-5]] = 0
    for crate, edit, seconds in spent:
        check, edits = crates.setdefault(crate, [0, {}])
        if edit:
            edits[edit] = seconds
        else:
            crates[crate][0] = check + seconds
    made = [(crate, check, edits) for crate, (check, edits) in crates.items()]
    return sorted(made, key=lambda row: (-row[1] - sum(row[2].values()), row[0]))


def count(edits):
    return len(edits.keys() - {UNEDITED})


def marks(check, edits):
    dear = sorted((edit for edit in edits if edits[edit] > MOST_EDIT and edit != UNEDITED),
                  key=lambda edit: -edits[edit])
    return (["! its check is over %d s" % MOST_CHECK] if check > MOST_CHECK else []) + [
        "! edit %s: %.1f s" % (edit, edits[edit]) for edit in dear]


def kept_in(path):
    with open(path, encoding="ascii") as file:
        return json.load(file)


def steps(path):
    for crate, edit, seconds in kept_in(path):
        name = "must-fail %s/%s" % (crate, edit) if edit else "proof of %s" % crate
        print("%.1f\t%s" % (seconds, name))


def table(path):
    spent = kept_in(path)
    if not spent:
        raise ValueError("no process of the prover was seen")
    print("seconds of the processor, checks over %d and edits over %d marked:"
          % (MOST_CHECK, MOST_EDIT))
    form = "%-24s %8s %7s %8s"
    print(form % ("crate", "check", "edits", "seconds"))
    every = rows(spent)
    for crate, check, edits in every:
        row = form % (crate, "%.1f" % check, count(edits), "%.1f" % sum(edits.values()))
        print("  ".join([row, *marks(check, edits)]))
    print(form % ("all of %d" % len(every), "%.1f" % sum(row[1] for row in every),
                  sum(count(row[2]) for row in every),
                  "%.1f" % sum(sum(row[2].values()) for row in every)))


def main():
    commands = {"watch": watch, "table": table, "steps": steps}
    if len(sys.argv) != 3 or sys.argv[1] not in commands:
        sys.exit("use: spent.py watch FILE | table FILE | steps FILE")
    try:
        commands[sys.argv[1]](sys.argv[2])
    except (OSError, IndexError, ValueError) as why:
        if sys.argv[1] != "steps":
            print("no table of the processor's seconds: %s" % why)


if __name__ == "__main__":
    main()
