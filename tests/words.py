#!/usr/bin/env python3
"""The words of the refusals, from the table include/refusals.txt: words.py [--write] [ROOT].

What is made of the table stands in other files between two marker lines. The script compares it line by line, and sees that crate model and
docs/ARGUMENT.md have the same numbers, and the latter the same constants. --write first writes what stands between the markers anew."""
import collections
import pathlib
import re
import shlex
import sys

ROOT = pathlib.Path(__file__).resolve().parent.parent
TABLE = "include/refusals.txt"
MARKERS = ("tests/words.py writes the lines from here on, from include/refusals.txt.", "tests/words.py writes the lines up to here.")
# Words may hold no quotation mark, backslash, bar or slash, so that they can stand in a string and in a comment.
LINE = re.compile(r"([1-9]\d*) \| (LAMP(?:_[A-Z]+)+) \| ([a-z ]+)((?: \| [\w ,;:.'()+*-]+){1,2})", re.ASCII)
Row = collections.namedtuple("Row", "number name word host tool")


def read_rows(root=ROOT):
    """The refusals of the table and what is wrong with it. Their numbers are 1, 2, 3 and so on."""
    rows, faults = [], []
    for at, line in enumerate((root / TABLE).read_text(encoding="utf-8").splitlines(), 1):
        if line.startswith("#"):
            continue
        found = LINE.fullmatch(line)
        if not found:
            faults.append(f"{TABLE}:{at}: this is not number | LAMP_.. | word | words, and perhaps | words: {line}")
            continue
        host, *tool = found[4].removeprefix(" | ").split(" | ")
        if int(found[1]) != len(rows) + 1:
            faults.append(f"{TABLE}:{at}: number {found[1]}, where {len(rows) + 1} comes next")
        if found[2] in [row.name for row in rows]:
            faults.append(f"{TABLE}:{at}: {found[2]} stands there twice")
        rows.append(Row(int(found[1]), found[2], found[3], host, (tool or [host])[0]))
    return rows, faults


def tool_words(number):
    """The words of a refusal for an examiner, for the tests of what prints them."""
    return read_rows()[0][number - 1].tool


# ---------------------------------------------------------------- what is made of the table


def constants(rows):
    """The constants of an enum in C, the last one without a comma, as C++98 wants it."""
    entries = [f"{row.name} = {row.number}{',' * (row != rows[-1])}" for row in rows]
    width = max(map(len, entries), default=0)
    return [f"    {entry:{width}} /* {row.word}: {row.host} */" for entry, row in zip(entries, rows)]


def cases(rows):
    return [f'    case {row.name}: return "{row.host}";' for row in rows]


def sheet_cases(rows):
    """The refusals of a sheet on an accepted card, by the word of document 01."""
    return [f'    case {row.name}: return " ({row.word})";' for row in rows if 11 <= row.number <= 13]


def variants(rows):
    names = ["".join(part.capitalize() for part in row.name.split("_")[1:]) for row in rows]
    return [f'    {name} = {row.number}: "{row.tool}",' for name, row in zip(names, rows)]


def reasons(rows):
    """The refusals of a card. The program's 10 has words of its own in bin/plan, and the program gives no other number."""
    return [f"    {row.number}) echo {shlex.quote(row.tool)} ;;" for row in rows if row.number <= 8]


PLACES = {
    "include/lamp.h": [constants, cases],
    "host/mark.c": [sheet_cases],
    "tool/src/refusal.rs": [variants],
    "bin/plan": [reasons],
}


def spans(lines):
    """Where the lines between the markers begin and end, and nothing if the markers do not come in turn."""
    found = [(at, mark) for at, line in enumerate(lines) for mark in (0, 1) if MARKERS[mark] in line]
    if [mark for _, mark in found] != [0, 1] * (len(found) // 2):
        return []
    places = [at for at, _ in found]
    return [(first + 1, last) for first, last in zip(places[::2], places[1::2])]


def compare(root, name, rows, write):
    """The first line of a file that differs from what is made of the table, if there is one. With `write` the file is mended."""
    lines, makers = (root / name).read_text(encoding="utf-8").splitlines(), PLACES[name]
    found = spans(lines)
    if len(found) != len(makers):
        return [f"{name}: it does not have {len(makers)} times the lines {MARKERS[0]!r} and {MARKERS[1]!r}"]
    made = list(lines)
    for (first, last), maker in reversed(list(zip(found, makers))):
        made[first:last] = maker(rows)
    if made == lines:
        return []
    if write:
        (root / name).write_text("\n".join(made) + "\n", encoding="utf-8")
        print(f"{name}: written")
        return []
    at = next(at for at, pair in enumerate(zip(lines, made)) if pair[0] != pair[1])
    return [f"{name}:{at + 1}: {lines[at].strip()}; {TABLE} makes {made[at].strip()}; tests/words.py --write mends it"]


# ---------------------------------------------------------------- what stands by itself


def compare_lists(root, rows):
    """The numbers that the calls give, as crate model has them, and the table of ARGUMENT with its constants. Nothing writes these."""
    places = {
        "crates/model/specs/Answers.antt": (r"refusal_number \w+ = (\d+)()", [(str(row.number), "") for row in rows]),
        "docs/ARGUMENT.md": (r"\| (\d+) \|.* `(LAMP_\w+)` \|", [(str(row.number), row.name) for row in rows]),
    }
    faults = []
    for name, (form, wanted) in places.items():
        found = re.findall(f"(?m)^{form}$", (root / name).read_text(encoding="utf-8"))
        faults += [f"{name}: {' '.join(pair).strip()} stands only in {TABLE}" for pair in wanted if pair not in found]
        faults += [f"{name}: {' '.join(pair).strip()} stands only there, and not in {TABLE}" for pair in found if pair not in wanted]
    return faults


def main(words):
    write = words[:1] == ["--write"]
    places = words[1:] if write else words
    if len(places) > 1 or any(place.startswith("-") for place in places):
        sys.exit(__doc__)
    root = pathlib.Path(places[0]) if places else ROOT
    rows, faults = read_rows(root)
    if not faults:
        for name in PLACES:
            faults += compare(root, name, rows, write)
        faults += compare_lists(root, rows)
    for fault in faults:
        print(fault)
    print(f"words: {len(rows)} refusals, {len(faults)} faults")
    return 1 if faults else 0


if __name__ == "__main__":
    sys.exit(main(sys.argv[1:]))
