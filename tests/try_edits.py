#!/usr/bin/env python3
"""Tries must-fail edits by `rt check` in a copy of the repository, and keeps all that each check says, for tests/edit_needs.py.

tests/try_edits.py [CRATE[/EDIT]..]: all edits, or those of some crates, or some of them. What a check says goes to
target/must-fail/CRATE/EDIT/.log. `rt ci` and `rt must-fail` try the edits too, and print only the first words of it."""
import pathlib
import shutil
import subprocess
import sys
import tempfile

ROOT = pathlib.Path(__file__).resolve().parent.parent
LOGS = ROOT / "target" / "must-fail"


def pairs(edit):
    """The edit's changes in their order: the file, and the old and the new text."""
    file, old = None, None
    for line in edit.read_text(encoding="utf-8").splitlines():
        if line.startswith("file: "):
            file = line[len("file: ") :]
        elif line.startswith("old: "):
            old = line[len("old: ") :]
        elif line.startswith("new:"):
            yield file, old, line[len("new: ") :]


def tried(copy, edit):
    """What the check says of the crate with the edit. The copy is left as it was."""
    crate = copy / "crates" / edit.parent.parent.name
    before = {}
    try:
        for file, old, new in pairs(edit):
            text = (crate / file).read_text(encoding="utf-8")
            before.setdefault(file, text)
            if text.count(old) != 1:
                return f"the old text stands in {file} {text.count(old)} times\n"
            (crate / file).write_text(text.replace(old, new), encoding="utf-8")
        ran = subprocess.run(["rt", "check"], cwd=crate, stdout=subprocess.PIPE, stderr=subprocess.STDOUT, encoding="utf-8", errors="replace")
        return ran.stdout
    finally:
        for file, text in before.items():
            (crate / file).write_text(text, encoding="utf-8")


def main(words):
    edits = sorted(ROOT.glob("crates/*/must-fail/*.edit"))
    named = [e for e in edits if not words or {e.parent.parent.name, f"{e.parent.parent.name}/{e.stem}"} & set(words)]
    if not named:
        sys.exit("no edit has such a name")
    with tempfile.TemporaryDirectory() as folder:
        copy = pathlib.Path(folder)
        shutil.copytree(ROOT / "crates", copy / "crates", ignore=shutil.ignore_patterns("out"))
        shutil.copy(ROOT / "crates.txt", copy)
        (copy / ".git").mkdir()
        for edit in named:
            log = LOGS / edit.parent.parent.name / edit.stem / ".log"
            log.parent.mkdir(parents=True, exist_ok=True)
            log.write_text(tried(copy, edit), encoding="utf-8")
            print(f"{edit.parent.parent.name}/{edit.stem}", flush=True)
    return 0


if __name__ == "__main__":
    sys.exit(main(sys.argv[1:]))
