#!/usr/bin/env python3
"""After tests/try_edits.py: compares docs/EDITS.md with the must-fail edits and with the logs of their tries.

Prints a line for each fault, and last how many edits were compared. A fault is: an edit that does not say what it does, an edit without a
log, a log without an edit, an edit that was not refused, one that was refused for its shape (a name that does not exist, or a sum, an index
or a cast that is not safe) and not for what a contract or a theorem says, one at which the check gave up, one whose log names no fact, one
of crate model that was refused in a module of examples where its first error names no row that does not hold and the edit names no example,
one that names another row or another example than its first error, and each line in which docs/EDITS.md differs from what --write writes.
With --write the file is written, if there is no other fault."""
import argparse
import difflib
import pathlib
import re
import sys

HEAD = """# The must-fail edits

Each edit under `crates/*/must-fail` makes a program, a definition or a statement wrong, and `rt ci` must refuse it. This table is
written by `tests/edit_needs.py --write` after `tests/try_edits.py`, and says of each edit what it does, in the words of its file, and the
function or the module with the first fact that the check refused.

| edit | what it does | the fact that refused it |
|---|---|---|
"""

# What the check says of a name that does not exist, and the goals by which code is safe.
UNKNOWN = ("can be named from here", "is not in scope", "has no field")
# What the check says where it gave up before it came to a verdict.
GAVE_UP = "broke off"
SAFETY = re.compile(r"(overflow_|nonzero_)|(.*_)?bounds-|prove-unreachable-")
# What the check says of a row that does not hold: Failed, and the row's name behind the word that makes the row, as in
# `Failed (act "close" ..).name`, or alone. Where it cannot compute a row it says `verdict` and not Failed: whether that row holds is not
# known, and its name is not taken. Nor is a name that was cut: the check prints "…" for the middle of a long term.
ROW = re.compile(r'Failed (?:\(\S+ )?"([^"…]+)"')
# What refuses an edit, in its own words. An example that is not a row of a table, as all of RelatedExamples, is a theorem: an edit that it
# refuses has no row, and has to name it.
SAID = re.compile(r'refused by (row "[^"]+"|the example `[^`]+`)')


def first_error(text):
    """The line of the first error, and all that is said of it, which goes on in lines that begin with a blank."""
    first = re.search(r"^(.*: error.*)(?:\n .*)*", text, re.M)
    return (first[1], first[0]) if first else ("", "")


def first_fact(text):
    """What was refused first, or None: the function or the module, the goal or the statement, the row of an example, and whether a
    function's goal it is."""
    line, error = first_error(text)
    if not line or "was not admitted" in line:
        unproved = re.search(r"^fn (\S+): no proof.*`search` did not prove `([^`]+)`", text, re.M)
        return (unproved[1], unproved[2], None, True) if unproved else None
    place = re.search(r"(?:proofs|specs)/(\S+?)(/Answers|/Invariants)?\.antt", line)
    name = re.search(r"error: `([^`]+)`", line)
    row = ROW.search(error)
    return (place[1], name[1], row and row[1], place[2] is not None) if place and name else None


def has_shape_error(text):
    """Some name does not exist."""
    return any(": error" in line and any(words in line for words in UNKNOWN) for line in text.splitlines())


def gave_up(text):
    """The first error is that the check came to no verdict."""
    return GAVE_UP in first_error(text)[1]


def examine(edit, log):
    """The line of an edit in the table, or its fault."""
    crate, comment = edit.parent.parent.name, edit.read_text(encoding="utf-8").splitlines()[:1]
    name = f"{crate}/{edit.stem}"
    if not comment or not comment[0].startswith("# "):
        return None, f"{name}: the first line of the edit does not say what it does"
    if not log.is_file():
        return None, f"{name}: there is no log of it"
    text = log.read_text(encoding="utf-8", errors="replace")
    if not re.search(r"^logic=not-proved", text, re.M):
        return None, f"{name}: it was not refused"
    fact = first_fact(text)
    if fact is None:
        return None, f"{name}: its log names no fact"
    place, need, row, of_code = fact
    if gave_up(text):
        return None, f"{name}: the check gave up, at {place} {need}"
    if has_shape_error(text) or (of_code and SAFETY.match(need)):
        return None, f"{name}: it was refused for its shape, at {place} {need}"
    said, found = SAID.search(comment[0]), f"{place} `{need}`" + (f', row "{row}"' if row else "")
    if crate == "model" and place.endswith("Examples") and not row and not (said and said[1].startswith("the example")):
        return None, f"{name}: the log names no row, at {place} {need}"
    if said and said[1] != (f'row "{row}"' if row else f"the example `{need}`"):
        return None, f"{name}: the edit says {said[1]}, the log {found}"
    does = comment[0][2:].strip().replace("|", "\\|")
    return f"| {name} | {does} | {found} |", None


def main():
    options = argparse.ArgumentParser(description=__doc__, formatter_class=argparse.RawDescriptionHelpFormatter)
    options.add_argument("--write", action="store_true", help="write docs/EDITS.md")
    options.add_argument("--root", type=pathlib.Path, default=pathlib.Path(__file__).resolve().parent.parent, help="another tree")
    given = options.parse_args()
    logs, table = given.root / "target" / "must-fail", given.root / "docs" / "EDITS.md"

    edits = sorted(given.root.glob("crates/*/must-fail/*.edit"), key=lambda e: (e.parent.parent.name, e.stem))
    names = {(e.parent.parent.name, e.stem) for e in edits}
    lines, faults, unknown = [], [], []
    for edit in edits:
        line, fault = examine(edit, logs / edit.parent.parent.name / edit.stem / ".log")
        (faults if fault else lines).append(fault or line)
        if fault:
            unknown.append(f"| {edit.parent.parent.name}/{edit.stem} | ")
    for log in sorted(logs.glob("*/*/.log")):
        if (log.parent.parent.name, log.parent.name) not in names:
            faults.append(f"{log.parent.parent.name}/{log.parent.name}: there is a log of it, and no edit")
    if not edits:
        faults.append("there is no edit under crates/*/must-fail")

    wanted = HEAD + "".join(line + "\n" for line in lines)
    if given.write and not faults:
        table.parent.mkdir(exist_ok=True)
        table.write_text(wanted, encoding="utf-8")
    found = table.read_text(encoding="utf-8") if table.is_file() else ""
    known = [line for line in found.splitlines() if not line.startswith(tuple(unknown))]
    for line in difflib.ndiff(known, wanted.splitlines()):
        if line[0] in "+-":
            faults.append(f"docs/EDITS.md {'lacks' if line[0] == '+' else 'should not have'} the line: {line[2:]}")
    if found != wanted and found.splitlines() == wanted.splitlines():
        faults.append("docs/EDITS.md has another end of line than it should")

    for fault in faults:
        print(fault)
    print(f"{len(edits)} must-fail edits compared, {len(faults)} faults")
    return 1 if faults else 0


sys.exit(main())
