"""Holds docs/STATEMENTS.md and docs/STATEMENTS-INDEX.md to the files that they speak of.

The index has a line for each citation, and no other line begins with a dash:
    - `NAME` (`path/to/file`)
- NAME is a whole word of the file, as it stands there; comments of .rt and .antt files do not count,
  since they outlive what they speak of. A hyphen, a prime and a letter of any script belong to a word.
- Of a .edit file NAME is the label: the file's own name without .edit.
- A file named outside a citation is a fault, since nothing would look into it; so is a line twice.

The page quotes. Above each block stands a line that says what the block is:
    <!-- quote path/to/file NAME [PART ..] -->
- The block is the declaration of NAME as the file has it, with the modules around it: a theorem's
  statement, a definition, a type, the head of a function. Of a record only the PARTs, if they are named,
  and `..` for what is left out. Only its lines are broken anew where they are long.
- `python3 tests/test_statements.py --write` puts all quotations right.
- What is quoted stands in the index, and so does every name in code type in a row of a table.
- A link leads to a file that is there; other than by links and quotations no file is named.
- No row of a table is longer than 200 characters.
The tally counts citations, quotations and links that hold, and faults.
"""
import pathlib
import re
import sys
import tempfile

SPAN = re.compile(r"`([^`]+)`")
CITATION = re.compile(r"- `([^`]+)` \(`([^`]+)`\)")
QUOTE = re.compile(r"<!-- quote (\S+) (\S+)((?: \S+)*) -->")
LINK = re.compile(r"\]\(([^)\s]+)\)")
WORD = r"[\w'’′″‴·-]"
COMMENT = {".rt": "//", ".antt": "--"}
LEAST, WIDE, ROW = 10, 100, 200


# ---- a declaration as its file has it

def indent(line):
    return len(line) - len(line.lstrip(" "))


def below(lines, at):
    """The place behind the line `at` and all that is indented more than it."""
    end = at + 1
    while end < len(lines) and (not lines[end].strip() or indent(lines[end]) > indent(lines[at])):
        end += 1
    while not lines[end - 1].strip():
        end -= 1
    return end


def around(lines, at):
    """The lines that open what a line stands in, outermost first."""
    found, deep = [], indent(lines[at])
    for k in range(at - 1, -1, -1):
        if deep and lines[k].strip() and indent(lines[k]) < deep and not lines[k].strip().startswith("--"):
            found.insert(0, k)
            deep = indent(lines[k])
    return found


def parts_of(lines, parts):
    """A record's head, the parts named with the comments above them, and dots for the others."""
    kept, note, given = [lines[0]], [], set()
    for line in lines[1:]:
        name = re.match(rf"  (?:pub )?({WORD}+) :", line)
        if line.strip().startswith("--"):
            note.append(line)
            continue
        if name and indent(line) == 2:
            wanted = name[1] in parts
            given |= {name[1]}
        if wanted:
            kept += note + [line]
        elif kept[-1] != "  ..":
            kept.append("  ..")
        note = []
    return kept if set(parts) <= given else None


def antt_declaration(lines, name, parts):
    head = re.compile(rf" *(abbrev |unfoldable )?(?:pub )?(?:(record |data ){re.escape(name)} |{re.escape(name)} :)")
    for at, line in enumerate(lines):
        found, outer = head.match(line), around(lines, at)
        if not found or any(not lines[k].strip().startswith("module ") for k in outer):
            continue
        body = lines[at:below(lines, at)]
        if parts:
            body = parts_of(body, parts)
        elif found[1]:
            k = below(lines, at)
            while k < len(lines) and re.match(rf"{' ' * indent(line)}(unfolding|{re.escape(name)}) ", lines[k]):
                body += [] if lines[k].strip().startswith("unfolding") else lines[k:below(lines, k)]
                k = below(lines, k)
        opened = []
        for k in outer:
            opened.append(lines[k])
            while not opened[-1].endswith("where"):
                k += 1
                opened.append(lines[k])
        return body and opened + body
    return None


def rt_declaration(lines, name, parts):
    head = re.compile(rf"(pub )?(extern \"C\" )?(fn|enum|struct) {re.escape(name)}\b")
    for at, line in enumerate(lines):
        if head.match(line) and not parts:
            last = "{" if "fn " in line else "}"
            return lines[at:next(k for k in range(at, len(lines)) if lines[k] == last) + (last == "}")]
    return None


RANKS = (("→", 0), ("↔", 0), ("×", 1), ("⊎", 1), (": Type", 1), ("≡", 2), ("0 where", 99), ("where", 99), ("", 4))


def broken(line):
    """A line in lines that are not too wide, broken before an arrow or the like, the outermost first."""
    if len(line) <= WIDE:
        return [line]
    if line.strip().startswith("--"):
        at, lead = line.rfind(" ", 0, WIDE), " " * indent(line) + "-- "
        return [line[:at]] + broken(lead + line[at + 1:])
    deep, places = 0, []
    for k, c in enumerate(line[:WIDE + 1]):
        deep += (c in "([{") - (c in ")]}")
        if c == " " and k > max(32, indent(line) + 8):
            places.append((2 * deep + next(rank for sign, rank in RANKS if line.startswith(sign, k + 1)), -k))
    at = -min(places)[1]
    lead = indent(line) + (0 if line.strip()[0] in "→×⊎↔≡" else 4)
    return [line[:at]] + broken(" " * lead + line[at + 1:])


def quotation(root, path, name, parts):
    """The lines due, or what is wrong."""
    file = root / path
    if path.startswith("/") or ".." in file.parts or not file.is_file():
        return None, f"no file {path}"
    lines = file.read_text(encoding="utf-8").splitlines()
    found = (rt_declaration if file.suffix == ".rt" else antt_declaration)(lines, name, parts)
    if not found:
        return None, f"{name} is not declared in {path}" + (f" with the parts {' '.join(parts)}" if parts else "")
    return [new for line in found for new in broken(line)], None


# ---- the index

def cited(name, path, root):
    """What is wrong with a citation, or None."""
    file = root / path
    if path.startswith("/") or ".." in file.parts or not file.is_file():
        return f"no file {path}"
    if file.suffix == ".edit":
        return None if name == file.stem else f"{path} is the edit {file.stem}, not {name}"
    text = file.read_text(encoding="utf-8", errors="replace")
    if file.suffix in COMMENT:
        text = re.sub(re.escape(COMMENT[file.suffix]) + ".*", "", text)
    if not re.search(f"(?<!{WORD}){re.escape(name)}(?!{WORD})", text):
        return f"{name} is not in {path}"
    return None


def outside(line, root):
    return [f"`{span}` is named outside a citation" for span in SPAN.findall(line) if "/" in span and (root / span).is_file()]


def look_index(text, root):
    """(citations that hold, as pairs; faults, each with its line)."""
    held, faults = {}, []
    for at, line in enumerate(text.splitlines(), 1):
        found = CITATION.fullmatch(line)
        if found:
            wrong = "cited twice" if found.groups() in held else cited(*found.groups(), root)
            faults += [(at, wrong)] if wrong else []
            held.setdefault(found.groups(), at)
        elif line.startswith("-"):
            faults.append((at, "no citation"))
        else:
            faults += [(at, wrong) for wrong in outside(line, root)]
    if len(held) < LEAST:
        faults.append((0, f"{len(held)} citations, fewer than {LEAST}"))
    return held, faults


# ---- the page

def look_page(text, root, held):
    """(quotations and links that hold; faults; the page with its quotations put right)."""
    lines, names = text.splitlines(), {name for name, _ in held}
    good, faults, new, at = 0, [], [], 0
    while at < len(lines):
        line, quote = lines[at], QUOTE.fullmatch(lines[at])
        new.append(line)
        at += 1
        if quote or line.startswith("```"):
            if not quote or not lines[at:at + 1] or not lines[at].startswith("```"):
                faults.append((at, "a block and the line that says what it quotes stand together"))
                at = at if quote else next((k for k in range(at, len(lines)) if lines[k] == "```"), len(lines)) + 1
                continue
            end = next((k for k in range(at + 1, len(lines)) if lines[k] == "```"), len(lines))
            due, wrong = quotation(root, quote[1], quote[2], quote[3].split())
            if not wrong and (quote[2], quote[1]) not in held:
                wrong = f"{quote[2]} is quoted and not in the index"
            if not wrong and due != lines[at + 1:end]:
                wrong = f"{quote[2]} is quoted otherwise than {quote[1]} has it (--write puts it right)"
            faults += [(at, wrong)] if wrong else []
            good += not wrong
            new += [lines[at]] + (due or lines[at + 1:end]) + ["```"]
            at = end + 1
            continue
        for link in LINK.findall(line):
            there = "://" in link or (root / "docs" / link.partition("#")[0]).exists()
            faults += [] if there else [(at, f"no file {link}")]
            good += there
        faults += [(at, wrong) for wrong in outside(line, root)]
        if line.startswith("|"):
            unknown = [span for span in SPAN.findall(line) if span not in names]
            faults += [(at, f"`{span}` is not in the index") for span in unknown]
            faults += [(at, f"a row of {len(line)} characters")] if len(line) > ROW else []
    return good, faults, "\n".join(new) + "\n"


# ---- made-up pages, right and wrong: without these a look that finds all would pass unnoticed

FILES = {
    "c/A.antt": """good : a-b x′ λ·é.1' (or|) -- gone
-- no : thing
module _ (p : A)
    (q : B) where
  pub told : (s : List) → s ≡ record { n = s }
      → s ≡ q
  told s = refl

unfoldable pub twice : ℕ → ℕ
unfolding told
twice n = n + n

pub record Two (n : ℕ) : Type 0 where
  -- the first
  pub one : ℕ
  pub other : told ≡
      one
""",
    "c/l.rt": "// gone\npub fn pick(n: u8) -> u8\n    ensures { n }\n{\n    n\n}\n",
    "c/same.edit": "",
}
TOLD = "module _ (p : A)\n    (q : B) where\n  pub told : (s : List) → s ≡ record { n = s }\n      → s ≡ q\n"
INDEX_WRONG = {
    "- `goo` (`c/A.antt`)": "goo is not in c/A.antt",
    "- `a` (`c/A.antt`)": "a is not in c/A.antt",
    "- `x` (`c/A.antt`)": "x is not in c/A.antt",
    "- `gone` (`c/A.antt`)": "gone is not in c/A.antt",
    "- `gone` (`c/l.rt`)": "gone is not in c/l.rt",
    "- `good` (`c/B.antt`)": "no file c/B.antt",
    "- `good` (`c`)": "no file c",
    "- `good` (`../r/c/A.antt`)": "no file ../r/c/A.antt",
    "- `other` (`c/same.edit`)": "c/same.edit is the edit same, not other",
    "- `good` (`c/A.antt`)": "cited twice",
    "- `good` (`c/A.antt`), `told` (`c/A.antt`)": "no citation",
    "- good": "no citation",
    "see `c/A.antt`": "`c/A.antt` is named outside a citation",
}
PAGE_WRONG = {
    "<!-- quote c/A.antt tol -->\n```\n```": "tol is not declared in c/A.antt",
    "<!-- quote c/A.antt one -->\n```\n```": "one is not declared in c/A.antt",
    "<!-- quote c/A.antt Two three -->\n```\n```": "Two is not declared in c/A.antt with the parts three",
    "<!-- quote c/B.antt told -->\n```\n```": "no file c/B.antt",
    "<!-- quote c/A.antt told -->\n```\n" + TOLD.replace("q\n", "p\n") + "```": "told is quoted otherwise than c/A.antt has it (--write puts it right)",
    "<!-- quote c/A.antt good -->\n```\n```": "good is quoted and not in the index",
    "<!-- quote c/A.antt told -->\nwords": "a block and the line that says what it quotes stand together",
    "```\nwords\n```": "a block and the line that says what it quotes stand together",
    "[a](../c/B.antt)": "no file ../c/B.antt",
    "see `c/A.antt`": "`c/A.antt` is named outside a citation",
    "| `good` |": "`good` is not in the index",
    "| " + "a" * 200 + " |": "a row of 204 characters",
}


def self_check():
    names = ["a-b", "x′", "λ·é.1'", "or|", "told", "twice", "Two", "one", "refl", "other"]
    right = [f"- `{name}` (`c/A.antt`)" for name in names] + ["- `pick` (`c/l.rt`)", "- `same` (`c/same.edit`)", "words"]
    page = ("<!-- quote c/A.antt told -->\n```text\n" + TOLD + "```\n<!-- quote c/A.antt twice -->\n```\nunfoldable pub twice : ℕ → ℕ\ntwice n = n + n\n```\n"
            "<!-- quote c/A.antt Two other -->\n```\npub record Two (n : ℕ) : Type 0 where\n  ..\n  pub other : told ≡\n      one\n```\n"
            "<!-- quote c/A.antt Two one -->\n```\npub record Two (n : ℕ) : Type 0 where\n  -- the first\n  pub one : ℕ\n  ..\n```\n"
            "<!-- quote c/l.rt pick -->\n```rust\npub fn pick(n: u8) -> u8\n    ensures { n }\n```\nsee [A](../c/A.antt), `good`\n| `told` |\n")
    with tempfile.TemporaryDirectory() as room:
        root = pathlib.Path(room, "r")
        (root / "docs").mkdir(parents=True)
        for path, text in FILES.items():
            (root / path).parent.mkdir(parents=True, exist_ok=True)
            (root / path).write_text(text, encoding="utf-8")
        held, faults = look_index("\n".join(right), root)
        yield from [f"right lines: {len(held)}, {faults}"] if (len(held), faults) != (12, []) else []
        faults = look_index("\n".join(right[:7]), root)[1]
        yield from ["an index of seven citations is not a fault"] if faults != [(0, "7 citations, fewer than 10")] else []
        for line, what in INDEX_WRONG.items():
            faults = look_index("\n".join(["- `good` (`c/A.antt`)"] * ("twice" in what) + right + [line]), root)[1]
            yield from [f"{line}: expected {what}, got {faults}"] if [w for _, w in faults] != [what] else []
        good, faults, new = look_page(page, root, held)
        yield from [f"right page: {good}, {faults}"] if (good, faults, new) != (6, [], page) else []
        for text, what in PAGE_WRONG.items():
            faults = look_page(page + text + "\n", root, held)[1]
            yield from [f"{text}: expected {what}, got {faults}"] if [w for _, w in faults] != [what] else []
        put_right = look_page(page.replace("n + n", "n"), root, held)[2]
        yield from ["a quotation is not put right"] if put_right != page else []
        long = "pub long : (n : ℕ) → " + "n ≡ n → " * 20 + "n"
        yield from ["a long line is broken wrongly"] if " ".join(map(str.strip, broken(long))) != long or max(map(len, broken(long))) > WIDE else []


def main():
    root = pathlib.Path(__file__).resolve().parent.parent
    page, index = root / "docs/STATEMENTS.md", root / "docs/STATEMENTS-INDEX.md"
    wrong = [f"this test is broken: {broken_by}" for broken_by in self_check()]
    held, faults = look_index(index.read_text(encoding="utf-8") if index.is_file() else "", root)
    wrong += [f"docs/STATEMENTS-INDEX.md:{at}: {what}" for at, what in faults]
    good, faults, new = look_page(page.read_text(encoding="utf-8") if page.is_file() else "", root, held)
    if sys.argv[1:] == ["--write"]:
        page.write_text(new, encoding="utf-8")
        good, faults, new = look_page(new, root, held)
    wrong += [f"docs/STATEMENTS.md:{at}: {what}" for at, what in faults]
    wrong += ["docs/STATEMENTS.md quotes nothing"] if not good else []
    for what in wrong:
        print(what)
    print(f"{len(held) + good} passed, {len(wrong)} failed")
    return len(wrong) != 0


if __name__ == "__main__":
    sys.exit(main())
