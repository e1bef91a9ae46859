#!/usr/bin/env python3
"""Respells the repository's own names as Rattle spells them now: words in snake case, types and modules in camel case.

Run once at the top, after port.py: python3 tools/respell.py [FOLDER]. tools/respelled.tsv has a line a name, the old spelling and the
new one. A name is replaced where it stands whole: in the code and the clauses of src/, in specs/ and proofs/, in the lines of the edits
in must-fail/, and between backticks in their comments and in the documents. Strings and other words of a comment stay."""
import pathlib
import re
import sys

HERE = pathlib.Path(__file__).resolve().parent
TOP = pathlib.Path(sys.argv[1]) if len(sys.argv) > 1 else HERE.parent
NAMES = dict(line.split("\t") for line in (HERE / "respelled.tsv").read_text(encoding="utf-8").splitlines())
NAME = r'[^\s(){}\[\].,;"«»`]+'


def renamed(text):
    """The text with each name that stands whole in its new spelling."""
    return re.sub(NAME, lambda m: NAMES.get(m[0], m[0]), text)


def prose(text):
    """The text with the names between backticks in their new spelling."""
    return re.sub(r"`[^`\n]*`", lambda m: renamed(m[0]), text)


def code(text, mark):
    """A line of code: its comment, which begins at the mark, is prose, and its strings stay."""
    parts = re.split(r'(b?"(?:[^"\\]|\\.)*")', text)
    made = []
    for k, part in enumerate(parts):
        if k % 2:
            made.append(part)
            continue
        at = re.search(r"(?:^|\s)" + mark, part)
        if at:
            rest = part[at.start() :] + "".join(parts[k + 1 :])
            return "".join(made) + renamed(part[: at.start()]) + prose(rest)
        made.append(renamed(part))
    return "".join(made)


def same_alias(text):
    """An import under the name that it has already needs no 'as'."""
    return re.sub(r"([^\s{},]+) as \1(?=[,}])", r"\1", text)


def turned(path):
    """The file's text in the new spelling."""
    lines = path.read_text(encoding="utf-8").split("\n")
    if path.suffix == ".md":
        return "\n".join(map(prose, lines))
    if path.suffix == ".edit":
        return "\n".join(prose(x) if x.startswith("#") else code(x, "//" if ".rt" in x else "--") for x in lines)
    return same_alias("\n".join(code(x, "//" if path.suffix == ".rt" else "--") for x in lines))


files = [p for p in TOP.glob("crates/**/*") if p.suffix in (".rt", ".antt", ".edit") and p.is_file()]
files += [p for p in [*TOP.glob("*.md"), *TOP.glob("docs/*.md")] if p.is_file()]
for path in sorted(files):
    text = turned(path)
    if text != path.read_text(encoding="utf-8"):
        path.write_text(text, encoding="utf-8")
        print(f"respelled {path.relative_to(TOP)}")
