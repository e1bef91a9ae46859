#!/usr/bin/env python3
"""tests/edit_needs.py on made-up trees: it passes where all is right, and fails for each fault by itself."""
import pathlib
import subprocess
import sys
import tempfile

SCRIPT = pathlib.Path(__file__).resolve().parent / "edit_needs.py"
REFUSED = "logic=not-proved\n"


def error(module, fact, term):
    """An error of the check, which says in its second line what the statement computes to."""
    return f"./specs/{module}.antt:7:16: error: `{fact}`: `omega` does not read the goal\n  which computes to `{term}`. `omega` proves\n"


LOGS = {
    "code/none_written": "./proofs/way_back/Answers.antt:27:16: error: `loop-k-init`: the two types differ\n" + REFUSED,
    "code/off_by_one": "./proofs/check/Answers.antt:3:5: error: 1 declaration that depends on `close`, which was not admitted, was not checked: returns\n"
    "note: src/lib.rt:3:5: it is not proved that what the function ensures holds when it returns (`returns-in-4`)\n"
    "fn code::number: no proof: expected answers in ./proofs/number/Answers.antt; `search` did not prove `returns-in-4`\n" + REFUSED,
    "model/by_counts": error("Examples", "starred_hold", 'Failed (row "D" (call 1)).name') + REFUSED,
    "theory/too_strong": "./specs/BookExamples.antt:90:67: error: `list_ratio`: the two types differ\n" + REFUSED,
    "theory/a_sum": "./specs/Tables.antt:9:6: error: `overflow_add-entries`: the two types differ\n" + REFUSED,
}
FACTS = {
    "code/none_written": "way_back `loop-k-init`",
    "code/off_by_one": "code::number `returns-in-4`",
    "model/by_counts": 'Examples `starred_hold`, row "D"',
    "theory/too_strong": "BookExamples `list_ratio`",
    "theory/a_sum": "Tables `overflow_add-entries`",
}
UNKNOWN = "./proofs/way_back/Answers.antt:9:1: error: `returns-3`: no `returns-3` can be named from here\n" + REFUSED
GAVE_UP = "./proofs/way_back/Answers.antt:9:1: error: `returns`: `search`: no proof\n  `search` broke off: too many steps\n" + REFUSED
UNSAFE = "./proofs/way_back/Answers.antt:9:1: error: `overflow_add-cost`: the sum may not fit\n" + REFUSED
done = 0


def log_of(root, name):
    return root / "target" / "must-fail" / name / ".log"


def edit_of(root, name):
    crate, label = name.split("/")
    return root / "crates" / crate / "must-fail" / f"{label}.edit"


def put(path, text):
    path.parent.mkdir(parents=True, exist_ok=True)
    path.write_text(text, encoding="utf-8")


def run(root, *words):
    """The exit status and the lines that the script prints."""
    ended = subprocess.run([sys.executable, SCRIPT, "--root", root, *words], capture_output=True, text=True)
    assert ended.stderr == "", ended.stderr
    return ended.returncode, ended.stdout.splitlines()


def with_tree(change, *expected):
    """A tree in which all is right, and then one change: the expected lines are the faults, without any it passes."""
    global done
    with tempfile.TemporaryDirectory() as folder:
        root = pathlib.Path(folder)
        for name, text in LOGS.items():
            put(edit_of(root, name), f"# what {name} does\nfile: src/lib.rt\nold: a\nnew: b\n")
            put(log_of(root, name), text)
        status, lines = run(root, "--write")
        assert (status, lines) == (0, [f"{len(LOGS)} must-fail edits compared, 0 faults"]), lines
        table = (root / "docs" / "EDITS.md").read_text(encoding="utf-8")
        for name, fact in FACTS.items():
            assert f"| {name} | what {name} does | {fact} |\n" in table, table
        change(root)
        before = (root / "docs" / "EDITS.md").read_bytes()
        status, lines = run(root)
        assert (root / "docs" / "EDITS.md").read_bytes() == before
        assert status == (1 if expected else 0), lines
        assert lines[-1].endswith(f" must-fail edits compared, {len(expected)} faults"), lines
        assert len(lines) == len(expected) + 1, lines
        for fault in expected:
            assert any(line.startswith(fault) for line in lines[:-1]), (fault, lines)
    done += 1


def replaced(path, old, new):
    text = path.read_text(encoding="utf-8")
    assert old in text
    path.write_text(text.replace(old, new), encoding="utf-8")


def drop_line(path, words):
    lines = path.read_text(encoding="utf-8").splitlines(keepends=True)
    path.write_text("".join(line for line in lines if words not in line), encoding="utf-8")


def no_edits(root):
    for name in LOGS:
        edit_of(root, name).unlink()
        log_of(root, name).unlink()


def rewritten_with_fault(root):
    log_of(root, "code/none_written").write_text(UNKNOWN, encoding="utf-8")
    before = (root / "docs" / "EDITS.md").read_bytes()
    assert run(root, "--write")[0] == 1
    assert (root / "docs" / "EDITS.md").read_bytes() == before


def of_model(log, words, *expected):
    """The edit of crate model has another log, and more words in its first line."""

    def change(root):
        put(log_of(root, model), log + REFUSED)
        replaced(edit_of(root, model), "does", "does" + words)

    with_tree(change, *expected)


def told(log, words, fact):
    """Then its line in the table has to be another one, with this fact."""
    of_model(log, words, f"{lacks}| {model} | what {model} does{words} | {fact} |", f"{extra}| {model} |")


first, model, table = "code/none_written", "model/by_counts", "docs/EDITS.md"
shape = f"{first}: it was refused for its shape"
lacks, extra = f"{table} lacks the line: ", f"{table} should not have the line: "
with_tree(lambda root: None)
with_tree(lambda root: log_of(root, first).unlink(), f"{first}: there is no log of it")
with_tree(lambda root: [log_of(root, name).unlink() for name in LOGS], *(f"{name}: there is no log of it" for name in LOGS))
with_tree(lambda root: edit_of(root, first).unlink(), f"{first}: there is a log of it, and no edit", f"{extra}| {first} |")
with_tree(no_edits, "there is no edit", *(f"{extra}| {name} |" for name in LOGS))
with_tree(lambda root: put(log_of(root, first), UNKNOWN), shape)
with_tree(lambda root: put(log_of(root, first), LOGS[first] + UNKNOWN), shape)
with_tree(lambda root: put(log_of(root, first), UNSAFE), shape)
with_tree(lambda root: put(log_of(root, first), GAVE_UP), f"{first}: the check gave up, at way_back returns")
with_tree(lambda root: put(log_of(root, first), LOGS[first] + GAVE_UP))
with_tree(lambda root: replaced(log_of(root, first), "`loop-k-init`", "`slice_bounds-way_back-end`"), shape)
with_tree(lambda root: put(log_of(root, first), "logic=proved functions=1\n"), f"{first}: it was not refused")
with_tree(lambda root: put(log_of(root, first), REFUSED), f"{first}: its log names no fact")
with_tree(lambda root: replaced(edit_of(root, first), "# ", ""), f"{first}: the first line of the edit does not say")
with_tree(lambda root: drop_line(root / table, first), f"{lacks}| {first} |")
with_tree(lambda root: replaced(root / table, "way_back", "search"), f"{lacks}| {first} |", f"{extra}| {first} |")
with_tree(lambda root: replaced(edit_of(root, first), "what", "all that"), f"{lacks}| {first} |", f"{extra}| {first} |")
with_tree(lambda root: replaced(root / table, "# The", "# Some"), f"{lacks}# The", f"{extra}# Some")
with_tree(rewritten_with_fault, shape)

# Rows and examples of crate model: what the first error names, and not a later one, is told, and the edit's own words have to agree with it.
failed, no_row, says = "Rattle.model.specs.Examples.Failed", f"{model}: the log names no row, at ", f"{model}: the edit says "
by_row, by_example = ': refused by row "E".', ": refused by the example `no_card`."
for term in *(f'({word} "E" (call 1)).name' for word in ("act", "refused", "points", "explains", "plans", "refuses")), '"E"':
    told(error("SomeExamples", "rows_hold", f"{failed} {term}"), by_row, 'SomeExamples `rows_hold`, row "E"')
row_e, theorem = error("SomeExamples", "rows_hold", f'{failed} "E"'), error("RelatedExamples", "no_card", "Path ℕ 1 1")
told(row_e + LOGS[model], by_row, 'SomeExamples `rows_hold`, row "E"')
told(theorem + LOGS[model], by_example, "RelatedExamples `no_card`")
told(error("Counts", "ascends", "m ≤ n") + LOGS[model], "", "Counts `ascends`")
of_model(theorem + LOGS[model], "", f"{no_row}RelatedExamples no_card")
of_model(theorem + row_e, by_row, f"{no_row}RelatedExamples no_card")
of_model(error("Examples", "rows_hold", 'verdict (row "E" (call 1)).name (is_eq 1 2)'), by_row, f"{no_row}Examples rows_hold")
of_model(error("Examples", "rows_hold", 'Failed (row "E…[9 bytes]…E" (call 1)).name'), "", f"{no_row}Examples rows_hold")
of_model(LOGS[model] + row_e, by_row, f'{says}row "E", the log Examples `starred_hold`, row "D"')
of_model(LOGS[model], by_example, f'{says}the example `no_card`, the log Examples `starred_hold`, row "D"')
of_model(error("RelatedExamples", "larger", "m ≤ n"), by_example, f"{says}the example `no_card`, the log RelatedExamples `larger`")
of_model(error("Counts", "ascends", "m ≤ n") + row_e, by_row, f'{says}row "E", the log Counts `ascends`')
print(f"edit needs: {done} passed")
