#!/usr/bin/env python3
"""The constant table of the catalogue module beside the stored output of its generator, digit for digit: catalogue.py [--write] [ROOT].

The generator is the program crates/catalogue_program. `rt ci` runs it and compares what it prints with its file stdout, and this script
compares that file with the constant CATALOGUE of crates/catalogue, and sees that the function whole_table returns this constant. Then it
tries itself: it changes a copy of both in many ways, and each change must be told. --write writes the constant anew from the stored output,
in the form that `rt fmt` gives, if that changes the file, and says whether it did."""
import os
import pathlib
import re
import shutil
import sys
import tempfile

ENTRIES = 201
CRATE = pathlib.PurePath("crates", "catalogue")
OUTPUT = pathlib.PurePath("crates", "catalogue_program", "stdout")
NAME = re.compile(r"\bconst\s+CATALOGUE\b")
WHOLE = re.compile(r"\bconst\s+CATALOGUE\s*:\s*\[\s*u16\s*;\s*([^\s\];]+)\s*\]\s*=\s*\[([^\[\]]*)\]\s*;")
NUMBER = re.compile(r"0|[1-9][0-9]*")
LIBRARY = CRATE / "src" / "lib.rt"
BODY = re.compile(r"\bfn\s+whole_table\b.*?^\{(.*?)^\}", re.DOTALL | re.MULTILINE)
RETURNED = "table::CATALOGUE"


class Fault(Exception):
    """What is wrong so far that nothing can be compared."""


def comment_end(text, at):
    """Where a block comment ends that begins here. It may hold others."""
    depth = 0
    for mark in re.compile(r"/\*|\*/").finditer(text, at):
        depth += 1 if mark[0] == "/*" else -1
        if depth == 0:
            return mark.end()
    return len(text)


def without_comments(text):
    """The text with blanks for its comments, so that every other character keeps its place."""
    end = 0
    while found := re.compile(r"//[^\n]*|/\*").search(text, end):
        start, end = found.span()
        if found[0] == "/*":
            end = comment_end(text, start)
        text = text[:start] + re.sub(r"[^\n]", " ", text[start:end]) + text[end:]
    return text


def find(root):
    """The file of the constant, its text, and where the name, the length and the numbers of the constant stand in it."""
    files = [path for path in sorted((root / CRATE).rglob("*.rt")) if (root / CRATE / "out") not in path.parents]
    texts = {path: path.read_text(encoding="utf-8") for path in files}
    places = [path for path, text in texts.items() for _ in NAME.finditer(without_comments(text))]
    if len(places) != 1:
        where = ", ".join(str(path.relative_to(root)) for path in places)
        raise Fault(f"{CRATE}: the constant CATALOGUE stands there {len(places)} times, and not once: {where or 'nowhere'}")
    text = texts[places[0]]
    found = WHOLE.search(without_comments(text))
    if not found:
        form = f"const CATALOGUE: [u16; {ENTRIES}] = [ .. ];"
        raise Fault(f"{places[0].relative_to(root)}: the constant CATALOGUE is not of the form {form}")
    return places[0], text, found


def constant(root):
    """The file of the constant, the length that its type has, and its numbers as they are written. The last one may have a comma."""
    path, _, found = find(root)
    numbers = [number.strip() for number in found[2].split(",")]
    return path, found[1], numbers[:-1] if numbers[-1] == "" else numbers


def stored(root):
    """The lines of the stored output as they are written. Each ends with a line feed, the last one too."""
    try:
        text = (root / OUTPUT).read_bytes().decode("utf-8")
    except (OSError, UnicodeDecodeError) as error:
        raise Fault(f"{OUTPUT}: it cannot be read: {error.__class__.__name__}") from error
    lines = text.split("\n")
    if lines[-1] != "":
        raise Fault(f"{OUTPUT}: its last line, {lines[-1]!r}, does not end with a line feed")
    return lines[:-1]


def wrong_count(name, count):
    """What is wrong with how many numbers there are."""
    if count == ENTRIES:
        return []
    first = f"F({count}) is missing" if count < ENTRIES else f"F({ENTRIES}) is beyond the last"
    return [f"{name} has {count} numbers, and not {ENTRIES}: {first}"]


def wrong_output(lines):
    """What is wrong with the lines of the output by themselves."""
    named = [(f"{OUTPUT}: line {k + 1}, F({k}), is {line!r}", line) for k, line in enumerate(lines)]
    out = [f"{name}, not a number in digits alone" for name, line in named if not NUMBER.fullmatch(line)]
    return out + wrong_count(f"{OUTPUT}: the output", len(lines))


def differences(where, length, numbers, lines):
    """What is wrong with the constant beside the lines, entry by entry, and with how many there are."""
    pairs = [(k, number, line) for k, (number, line) in enumerate(zip(numbers, lines)) if number != line]
    out = [f"{where}: F({k}) is {number!r}, and line {k + 1} of {OUTPUT} is {line!r}" for k, number, line in pairs]
    out += wrong_count(f"{where}: the constant", len(numbers)) + wrong_output(lines)
    if length != str(ENTRIES):
        out.append(f"{where}: the type of the constant has the length {length}, and not {ENTRIES}")
    return out


def wrong_return(root):
    """What is wrong with the body of the function that returns the constant."""
    bodies = [body.strip() for body in BODY.findall(without_comments((root / LIBRARY).read_text(encoding="utf-8")))]
    shown = " and ".join(map(repr, bodies)) or "not found"
    return [] if bodies == [RETURNED] else [f"{LIBRARY}: the body of whole_table is {shown}, where {RETURNED} alone should stand"]


def faults(root):
    """All that is wrong below a folder."""
    try:
        path, length, numbers = constant(root)
        return differences(path.relative_to(root), length, numbers, stored(root)) + wrong_return(root)
    except Fault as fault:
        return [str(fault)]


def write(root):
    """Writes the constant from the stored output if that changes its file, and gives the file and whether it did."""
    path, text, found = find(root)
    lines = stored(root)
    wrong = wrong_output(lines)
    if wrong:
        raise Fault(wrong[0])
    body = "\n" + "".join(f"    {line},\n" for line in lines)
    made = text[: found.start(1)] + str(ENTRIES) + text[found.end(1) : found.start(2)] + body + text[found.end(2) :]
    changed = path.read_bytes() != made.encode()
    if changed:
        path.write_bytes(made.encode())
    return path, changed


def other_digits(number):
    """A number with another digit at each of its places in turn."""
    for at, digit in enumerate(number):
        yield number[:at] + str((int(digit) + 1) % 10) + number[at + 1 :]


def changed_lists(numbers):
    """Lists that differ from these numbers, each with the first entry that differs."""
    for k, number in enumerate(numbers):
        for other in (*other_digits(number), f"0{number}", f"{number[:1]}_{number[1:]}", f"+{number}", ""):
            yield k, [*numbers[:k], other, *numbers[k + 1 :]]
        yield k, numbers[:k] + numbers[k + 1 :]
        yield k + 1, numbers[: k + 1] + numbers[k:]
    for k in range(len(numbers) - 1):
        yield k, [*numbers[:k], numbers[k + 1], numbers[k], *numbers[k + 2 :]]
    yield 0, []


def changed_outputs(lines):
    """The bytes of outputs that differ from these lines, each with the first entry that differs, or None."""
    for k, other in changed_lists(lines):
        yield k, "".join(f"{line}\n" for line in other).encode()
    whole = "".join(f"{line}\n" for line in lines).encode()
    yield None, whole[:-1]
    yield None, whole + b"\n"
    yield None, b"\n" + whole
    yield None, whole.replace(b"\n", b"\r\n")
    yield None, whole.replace(b"\n", b" \n", 1)
    yield None, whole + b"\xff\n"


def changed_sources(text, found, numbers):
    """Texts of the source that differ from this one, each with the first entry that differs, or None."""
    before, after = text[: found.start(2)], text[found.end(2) :]
    for k, other in changed_lists(numbers):
        yield k, before + ", ".join(other) + after
    whole = text[found.start() : found.end()]
    yield None, text.replace(whole, whole.replace("CATALOGUE", "CATALOGUES"))
    yield None, text + f"\n{whole}\n"
    yield None, text.replace(whole, whole.replace("u16", "u32", 1))
    yield None, text.replace(whole, whole.replace(str(ENTRIES), str(ENTRIES - 1), 1))
    yield None, text.replace(whole, "".join(f"// {line}\n" for line in whole.split("\n")))
    for before, after in (("/*", "*/"), ("/* /* */", "*/"), ("/* // */ /*", "*/"), ("/*", "")):
        yield None, text.replace(whole, f"{before}\n{whole}\n{after}")
    yield None, ""


def changed_returns(text):
    """Texts of the library in which whole_table returns something else than the constant, or is not there."""
    other = RETURNED.replace("CATALOGUE", "OTHER")
    for body in (other, "[400; 201]", f"// {RETURNED}\n{other}", f"/* {RETURNED} */ {other}", f"let a = {RETURNED};\n{other}", ""):
        yield text.replace(RETURNED, body)
    yield text.replace("fn whole_table", "fn whole_tables")
    yield f"{text}\nfn whole_table() -> [u16; 201]\n{{\n    {other}\n}}\n"


def must_fail(copy, path, content, entry):
    """A changed file is told, with the entry's name where there is one. It is removed first: some file systems bring a file that is
    overwritten to the disk at once, which takes much longer."""
    path.unlink(missing_ok=True)
    path.write_bytes(content)
    told = faults(copy)
    if not told or (entry is not None and not any(f"F({entry})" in fault for fault in told)):
        sys.exit(f"catalogue: a change of {path.name} at entry {entry} was not told; told were {told[:3]}")
    return 1


def outside(root):
    """The text of the constant's file without the numbers of the constant."""
    _, text, found = find(root)
    return text[: found.start(2)] + text[found.end(2) :]


def try_comments(copy, path, text):
    """What stands in a comment is not taken for a constant."""
    path.write_text(f"// {NAME.search(text)[0]}\n/* /* */ {text} // */\n{text}", encoding="utf-8")
    if faults(copy):
        sys.exit(f"catalogue: a comment was told: {faults(copy)[0]}")
    path.write_text(text, encoding="utf-8")


def try_short_output(copy):
    """--write of an output that is too short says so and writes nothing."""
    output, before = copy / OUTPUT, find(copy)[1]
    whole = output.read_bytes()
    output.write_bytes(whole[: whole.rindex(b"\n", 0, -1) + 1])
    told = say_written(copy)
    if told != wrong_count(f"{OUTPUT}: the output", ENTRIES - 1) or find(copy)[1] != before:
        sys.exit(f"catalogue: --write of a short output wrote the constant, or told {told}")
    output.write_bytes(whole)


def try_writing(copy):
    """--write gives the constant the numbers of the output, also after a change, and alters nothing else; a file that has them already is
    not written."""
    lines, text, path = stored(copy), outside(copy), find(copy)[0]
    for numbers in ([*lines[:-1], lines[-1] + "0"], lines):
        (copy / OUTPUT).write_text("".join(f"{line}\n" for line in numbers), encoding="utf-8")
        changed = write(copy)[1]
        os.utime(path, (0, 0))
        again = write(copy)[1] or path.stat().st_mtime != 0
        if not changed or again or faults(copy) or constant(copy)[2] != numbers or outside(copy) != text:
            sys.exit("catalogue: --write did not write the constant from the output, or wrote something else")


def try_changes(root):
    """How many changes of a copy were tried, each of which was told."""
    with tempfile.TemporaryDirectory() as folder:
        copy = pathlib.Path(folder)
        for crate in (CRATE, OUTPUT.parent):
            shutil.copytree(root / crate, copy / crate, ignore=shutil.ignore_patterns("out"))
        path, text, found = find(copy)
        numbers, output, second = constant(copy)[2], copy / OUTPUT, copy / CRATE / "second.rt"
        tried = sum(must_fail(copy, output, content, entry) for entry, content in changed_outputs(stored(copy)))
        output.write_bytes((root / OUTPUT).read_bytes())
        tried += sum(must_fail(copy, path, content.encode(), entry) for entry, content in changed_sources(text, found, numbers))
        path.write_text(text, encoding="utf-8")
        tried += must_fail(copy, second, text.encode(), None)
        second.unlink()
        library = (root / LIBRARY).read_text(encoding="utf-8")
        tried += sum(must_fail(copy, copy / LIBRARY, content.encode(), None) for content in changed_returns(library))
        (copy / LIBRARY).write_text(library, encoding="utf-8")
        try_comments(copy, path, text)
        try_short_output(copy)
        try_writing(copy)
        output.unlink()
        tried += must_fail(copy, path, text.encode(), None)
    return tried


def say_written(root):
    """Writes the constant and says so, and gives what is wrong then."""
    try:
        path, changed = write(root)
    except Fault as fault:
        return [str(fault)]
    done = "was written from" if changed else "has the numbers already of"
    print(f"catalogue: {path.relative_to(root)} {done} {OUTPUT}")
    return faults(root)


def main(words):
    """The exit status: 0 the two agree, 1 they do not, 2 wrong use."""
    writing = words[:1] == ["--write"]
    folders = words[1:] if writing else words
    if len(folders) > 1 or any(word.startswith("-") for word in folders):
        print("usage: catalogue.py [--write] [ROOT]", file=sys.stderr)
        return 2
    root = pathlib.Path(folders[0] if folders else pathlib.Path(__file__).parent.parent).resolve()
    told = say_written(root) if writing else faults(root)
    if told:
        print(*told, f"catalogue: faults: {len(told)}", sep="\n")
        return 1
    print(f"catalogue: {ENTRIES} numbers compared, digit for digit; {try_changes(root)} changes of a copy, each told")
    return 0


if __name__ == "__main__":
    sys.exit(main(sys.argv[1:]))
