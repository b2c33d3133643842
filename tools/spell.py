#!/usr/bin/env python3
"""tools/spell.py: brings the names that this repository defines in specs/ and proofs/ to snake case, by the table tools/spelling.tsv (old name, new name).

Run once, at the top, right after the kit's own script that turned the older spelling. It reads words as antt does, so that a dash belongs to a name, and
changes them in code of .antt files, in .rt files (clauses, and fields of a struct that had an inner capital), in both between back quotes in comments, and between back
quotes in the pages of docs/ and the README. Functions of src/ have no such names; strings, inputs, outputs and must-fail edits are left alone.
"""
import glob
import os
import re

TOP = os.path.dirname(os.path.dirname(os.path.abspath(__file__)))
WORD = re.compile(r"[^\s(){}\[\];,.⌜⌝\"`|@]+")
RUST_WORD = re.compile(r"[^\s(){}\[\];:,.⌜⌝\"`|@]+")
TABLE = dict(line.rstrip("\n").split("\t") for line in open(os.path.join(TOP, "tools", "spelling.tsv"), encoding="utf-8"))
# a name in snake case that gives way to a definition is a lemma of its own file: a path, and what stands behind a dot, keeps it
LEMMAS = {old for old in TABLE if "-" not in old and not re.search("[A-Z]", old)}


def word_at(text, match, rust):
    word = match[0]
    if word not in TABLE or rust and word in LEMMAS:
        return word
    if word in LEMMAS and (text[match.start() - 1:match.start()] == "." and text[match.start() - 2:match.start()] != ".{" or text[match.end():match.end() + 1] == "."):
        return word
    if text[max(0, match.start() - 4):match.start()] == "tie.":
        return word
    return TABLE[word]


def code(text, rust):
    return (RUST_WORD if rust else WORD).sub(lambda m: word_at(text, m, rust), text)


def quoted(text, lemmas=True):
    """Names between back quotes; a name with an inner capital or a dash in it is no English word there."""
    return re.sub(r"`([^`\n]+)`", lambda q: "`" + WORD.sub(lambda m: TABLE.get(m[0], m[0]) if m[0] not in LEMMAS or lemmas and m[0] == q[1] else m[0], q[1]) + "`", text)


def by_line(text, mark):
    out = []
    for line in text.split("\n"):
        at = line.find(mark)
        # a mark within a string stays code: no string of these files has one with a name behind it
        out.append(code(line, mark == "//") if at < 0 else code(line[:at], mark == "//") + camel(quoted(line[at:], False)))
    return "\n".join(out)


def camel(text):
    """In a comment: names with an inner capital, which no English word has."""
    return re.sub(r"(?<![\w'-])[a-z][a-z0-9]*[A-Z]\w*(?![\w'-])", lambda m: TABLE.get(m[0], m[0]), text)


def main():
    os.chdir(TOP)
    antt = [p for part in ("specs", "proofs") for p in glob.glob(f"crates/*/{part}/**/*.antt", recursive=True)]
    rust = glob.glob("crates/*/src/**/*.rt", recursive=True)
    pages = glob.glob("docs/*.md") + [p for p in ("README.md", "CONTRIBUTING.md") if os.path.exists(p)]
    turned = 0
    for path, turn in [(p, lambda t: by_line(t, "--")) for p in antt] + [(p, lambda t: by_line(t, "//")) for p in rust] + [(p, quoted) for p in pages]:
        before = open(path, encoding="utf-8").read()
        after = turn(before)
        if after != before:
            turned += 1
            open(path, "w", encoding="utf-8").write(after)
    print(f"spell: {turned} files turned, {len(TABLE)} names")


if __name__ == "__main__":
    main()
