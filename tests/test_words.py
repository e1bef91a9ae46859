#!/usr/bin/env python3
"""tests/words.py on copies of its files: it passes as they are, names file and line of each change, and --write mends what it writes."""
import contextlib
import io
import pathlib
import sys
import tempfile

import words

MODEL, ARGUMENT = "crates/model/specs/Answers.antt", "docs/ARGUMENT.md"
TEXTS = {name: (words.ROOT / name).read_text(encoding="utf-8") for name in (words.TABLE, *words.PLACES, MODEL, ARGUMENT)}
ROWS, _ = words.read_rows()
LAST = ROWS[-1].number
done = 0


def expect(name, changes, options, status, *parts):
    """Runs words.py where some files have another text, compares its status and what it prints, and gives the texts that it leaves."""
    global done
    printed = io.StringIO()
    with tempfile.TemporaryDirectory() as folder:
        root = pathlib.Path(folder)
        for file, text in {**TEXTS, **changes}.items():
            (root / file).parent.mkdir(parents=True, exist_ok=True)
            (root / file).write_text(text, encoding="utf-8")
        with contextlib.redirect_stdout(printed):
            found = words.main([*options, folder])
        texts = {file: (root / file).read_text(encoding="utf-8") for file in TEXTS}
    if found != status or any(part not in printed.getvalue() for part in parts):
        sys.exit(f"test_words.py: {name}: status {found}, printed {printed.getvalue()!r}; expected {status} and {parts}")
    done += 1
    return texts


def equal(name, found, wanted):
    for file, text in wanted.items():
        if found[file] != text:
            sys.exit(f"test_words.py: {name}: {file} has another text than it should")


def replaced(file, old, new):
    """The text of a file with the first place of an old text changed, which must be there."""
    if old not in TEXTS[file]:
        sys.exit(f"test_words.py: {file} has no {old!r}")
    return {file: TEXTS[file].replace(old, new, 1)}


def line_of(file, text):
    return TEXTS[file][: TEXTS[file].index(text)].count("\n") + 1


def changed_places():
    """A changed, a missing and a doubled line of each place is named by file and line, and --write gives back every byte."""
    for file, makers in words.PLACES.items():
        for line in [line + "\n" for maker in makers for line in maker(ROWS)]:
            at = line_of(file, line)
            for new, place in ((line[:-9] + "x" + line[-9:], at), ("x" + line, at), ("", at), (line + line, at + 1)):
                changes = replaced(file, line, new)
                expect(f"{file}: {new!r} for {line!r}", changes, [], 1, f"{file}:{place}: ", "1 faults")
                mended = expect(f"{file}: {new!r} mended", changes, ["--write"], 0, f"{file}: written\n", "0 faults")
                equal(f"{file}: {new!r} mended", mended, TEXTS)
        for marker in words.MARKERS:
            for options in ([], ["--write"]):
                expect(f"{file}: no marker", replaced(file, marker, ""), options, 1, f"{file}: it does not have {len(makers)} times")


def changed_table():
    """A number that is missing or doubled, a line that is no row, and a word or a name that was changed in the table alone."""
    for row in ROWS:
        line = next(line for line in TEXTS[words.TABLE].splitlines(keepends=True) if line.startswith(f"{row.number} |"))
        place, after = f"{words.TABLE}:{line_of(words.TABLE, line)}: ", f"{words.TABLE}:{line_of(words.TABLE, line) + 1}: "
        doubled = f"{after}number {row.number}, where {row.number + 1} comes next"
        expect(f"{row.number} twice", replaced(words.TABLE, line, line + line), ["--write"], 1, doubled)
        missing = f"{MODEL}: {LAST} stands only there" if row.number == LAST else f"{place}number {row.number + 1}, where {row.number}"
        expect(f"{row.number} missing", replaced(words.TABLE, line, ""), [], 1, missing)
        other = line.replace(row.host, "other words")
        expect(f"other words for {row.number}", replaced(words.TABLE, line, other), [], 1, "include/lamp.h:", f"{row.word}: other words")
        other = line.replace(row.tool, "other words")
        expect(f"other words of the tool for {row.number}", replaced(words.TABLE, line, other), [], 1, "tool/src/refusal.rs:")
    for odd in ('say "no"', "a \\ b", "a */ b", "a | b | c", "a\tb", "K\u00fchlung", ""):
        found = expect(f"the words {odd!r}", replaced(words.TABLE, ROWS[-1].host, odd), ["--write"], 1, "this is not number | LAMP_..")
        equal(f"the words {odd!r}", found, {file: TEXTS[file] for file in words.PLACES})
    expect("a name twice", replaced(words.TABLE, ROWS[1].name, ROWS[0].name), [], 1, f"{ROWS[0].name} stands there twice")
    expect("an empty table", {words.TABLE: ""}, [], 1, "words: 0 refusals")


def new_number():
    """A new line is told in each place that has all numbers. --write writes it there, and asks for it in the lists made by hand."""
    number, name = LAST + 1, "LAMP_ONE_MORE"
    table = {words.TABLE: TEXTS[words.TABLE] + f"{number} | {name} | more | it's one more\n"}
    lists = (f"{MODEL}: {number} stands only in {words.TABLE}", f"{ARGUMENT}: {number} {name} stands only in {words.TABLE}")
    expect("a new number", table, [], 1, "include/lamp.h:", "tool/src/refusal.rs:", *lists, "4 faults")
    texts = expect("a new number, written", table, ["--write"], 1, *lists, "2 faults")
    parts = {"include/lamp.h": f'case {name}: return "it\'s one more";\n', "tool/src/refusal.rs": f'OneMore = {number}: "it\'s one more",\n'}
    for file, part in parts.items():
        if part not in texts[file]:
            sys.exit(f"test_words.py: a new number is not written to {file}")
    texts[MODEL] += f"refusal_number OneMore = {number}\n"
    texts[ARGUMENT] += f"| {number} | none | `OneMore` | `{name}` |\n"
    expect("a new number everywhere", texts, [], 0, f"words: {number} refusals, 0 faults")


def changed_lists():
    """The lists that nothing writes: a number that they lack, and one that only they have."""
    expect("a number without words", replaced(MODEL, f" = {LAST}\n", " = 99\n"), [], 1, f"{MODEL}: 99 stands only there", "2 faults")
    expect("another constant", replaced(ARGUMENT, f"`{ROWS[4].name}`", "`LAMP_X`"), [], 1, f"{ARGUMENT}: 5 LAMP_X stands only there")
    expect("no row of 7", replaced(ARGUMENT, "\n| 7 |", "\n| |"), [], 1, f"{ARGUMENT}: 7 {ROWS[6].name} stands only in {words.TABLE}")


for options in ([], ["--write"]):
    equal("as they are", expect("as they are", {}, options, 0, f"words: {LAST} refusals, 0 faults"), TEXTS)
changed_places()
changed_table()
new_number()
changed_lists()
print(f"words: {done} passed")
