#!/usr/bin/env python3
"""Each must-fail edit's old text stands exactly once in its file: an edit that no longer applies shows nothing."""
import pathlib
import sys

ROOT = pathlib.Path(__file__).resolve().parent.parent
edits = sorted(ROOT.glob("crates/*/must-fail/*.edit"))
faults = [] if edits else ["there is no edit under crates/*/must-fail"]
for edit in edits:
    file, pairs = None, 0
    for line in edit.read_text(encoding="utf-8").splitlines():
        if line.startswith("file: "):
            file = edit.parent.parent / line[len("file: ") :]
        if line.startswith("old: "):
            pairs += 1
            found = file.read_text(encoding="utf-8").count(line[len("old: ") :]) if file and file.is_file() else 0
            if found != 1:
                where = file.relative_to(ROOT) if file else "no file"
                faults.append(f"{edit.relative_to(ROOT)}: its old text is in {where} {found} times")
    if pairs == 0:
        faults.append(f"{edit.relative_to(ROOT)}: it has no old text")
for fault in faults:
    print(fault)
print(f"edits apply: {len(edits)} edits, {len(faults)} faults")
sys.exit(1 if faults else 0)
