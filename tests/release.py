#!/usr/bin/env python3
"""The release folder, run from another place with nothing but the system's programs, and the commands that the two READMEs print."""
import os
import pathlib
import re
import shutil
import signal
import subprocess
import sys
import tempfile
import time

from practice import practice_card

ROOT = pathlib.Path(__file__).resolve().parent.parent
SYSTEM = "/usr/bin:/bin"
A = b"cost 32\nplan 3 1 1\nslot 1: 2 2 2\nslot 2: 0 - -\nslot 3: 2 - -\n"
DAY = ["card", "check", "key", "picture", "page", "mark", "explain"]
done = 0


def run(words, folder, **more):
    ended = subprocess.run(words, cwd=folder, capture_output=True, **more)
    return ended.returncode, ended.stdout, ended.stderr


def expect(name, found, status, out=None, err=b""):
    """Compares an ended command; `out` None is any output."""
    global done
    if found[0] != status or out not in (None, found[1]) or not found[2].startswith(err) or (not err and found[2]):
        sys.exit(f"{name}: status {found[0]}, printed {found[1][-300:]!r}, complained {found[2][-300:]!r}")
    done += 1


def commands(readme, section):
    """The lines of the first block of commands after a heading."""
    text = (ROOT / readme).read_text(encoding="utf-8").partition(section)[2]
    block = re.search(r"\n\n((?:    .*\n)+)", text)
    return [line[4:] for line in block[1].splitlines()]


def run_lines(name, lines, folder, environment):
    """Runs each line by itself, and gives what they print."""
    printed = b""
    for line in lines:
        found = run(["sh", "-c", line], folder, env=environment)
        expect(f"{name}: {line}", found, 0)
        printed += found[1]
    return printed


def run_day(name, lines, folder, environment):
    """The lines of an examiner's day together print the listing of example A and the marks of example D."""
    printed = run_lines(name, lines, folder, environment)
    for part in (b"accepted: 3 modules", A, b"cost 37\nleast 32\nabove 5\n"):
        if part not in printed:
            sys.exit(f"{name}: its lines do not print {part!r}")


COMMAND = ROOT / "bin" / "release"


def refused_releases(folder, bare):
    """Wrong use, and folders in which nothing can be made: status 2, and nothing is left."""
    for words in ([], [""], ["/"], ["-x"], ["a", "b"]):
        expect(f"bin/release {words}", run([COMMAND, *words], folder), 2, b"", b"bin/release: usage")
    expect("bin/release --help", run([COMMAND, "--help"], folder), 0)
    full = run(["sh", "-c", '"$0" --help > /dev/full', COMMAND], folder)
    expect("bin/release --help to a full device", full, 2, b"", b"bin/release: standard output was not written whole")
    (folder / "rt").write_text("#!/bin/sh\nexit 3\n")
    (folder / "rt").chmod(0o755)
    needed = b"bin/release: the toolchain (rt) is needed"
    expect("bin/release with an rt that fails", run([COMMAND, "failing"], folder, env={"PATH": f"{folder}:{SYSTEM}"}), 2, b"", needed)
    (folder / "rt").unlink()
    (folder / "empty").mkdir()
    expect("bin/release without rt", run([COMMAND, "empty"], folder, env=bare), 2, b"", needed)
    (folder / "half.part").mkdir()
    expect("bin/release after a stopped one", run([COMMAND, "half"], folder), 2, b"", b"bin/release: half.part is there")
    expect("bin/release where no folder can be made", run([COMMAND, "none/x"], folder), 2, b"", b"mkdir: ")
    if sorted(path.name for path in folder.iterdir()) != ["empty", "half.part"]:
        sys.exit(f"bin/release left something: {list(folder.iterdir())}")


def files_of(folder):
    return {str(path.relative_to(folder)) for path in folder.rglob("*") if path.is_file()}


def made_twice(folder, files):
    """Of two releases into one folder at the same time one is made, whole, and the other says that it is not."""
    pair = [subprocess.Popen([COMMAND, "twice"], cwd=folder, stderr=subprocess.DEVNULL) for _ in range(2)]
    statuses = sorted(process.wait() for process in pair)
    if statuses != [0, 2] or files_of(folder / "twice") != files or (folder / "twice.part").exists():
        sys.exit(f"two releases at once: statuses {statuses}, files {files_of(folder / 'twice') ^ files}")


def stopped(folder):
    """A release that is stopped, by each signal that a terminal or a system sends, ends with 2 and leaves nothing."""
    slow = folder / "slow"
    slow.mkdir()
    (slow / "sha256sum").write_text("#!/bin/sh\nexec sleep 60\n")
    (slow / "sha256sum").chmod(0o755)
    path = {**os.environ, "PATH": f"{slow}:{os.environ['PATH']}"}
    for number in (signal.SIGINT, signal.SIGTERM, signal.SIGHUP):
        process = subprocess.Popen([COMMAND, "halted"], cwd=folder, env=path, start_new_session=True, stderr=subprocess.DEVNULL)
        for _ in range(600):
            if (folder / "halted.part" / "BUILD.txt").exists():
                break
            time.sleep(0.05)
        os.killpg(process.pid, number)
        found = process.wait(), (folder / "halted.part").exists(), (folder / "halted").exists()
        expect(f"bin/release stopped by {number.name}", (found[0], b"", b""), 2)
        if any(found[1:]):
            sys.exit(f"bin/release stopped by {number.name} left something")


def release(folder):
    bare = {"PATH": SYSTEM}
    for program in ("rt", "cargo", "rustc"):
        if shutil.which(program, path=SYSTEM):
            sys.exit(f"{program} is among the system's programs, so that this test shows nothing")
    refused_releases(folder, bare)
    first, moved = folder / "first", folder / "some where else"
    first.mkdir()
    said = b"bin/release: release %s is in " % version().split()[1]
    expect("bin/release", run([COMMAND, f"{first}//"], folder), 0, b"", said)
    expect("bin/release into a folder with files", run([COMMAND, first], folder), 2, b"", b"bin/release: ")
    made_twice(folder, files_of(first))
    stopped(folder)
    first.rename(moved)
    expect("the sums", run(["sha256sum", "--quiet", "-c", "SHA256SUMS"], moved, env=bare), 0, b"")
    listed = {line.split("  ./", 1)[1] for line in (moved / "SHA256SUMS").read_text().splitlines()}
    if listed != files_of(moved) - {"SHA256SUMS"}:
        sys.exit(f"the sums are of other files than there are: {listed ^ files_of(moved)}")
    build = (moved / "BUILD.txt").read_text()
    if not re.search(r"\Arelease \d+\.\d+\.\d+\n(commit .*\n)?toolchain \S.*\n", build):
        sys.exit(f"BUILD.txt has {build!r}")
    (moved / "target").mkdir()
    use(moved, bare)
    (moved / "target").rmdir()
    run_day("the release's README", commands("release/README.md", "# Lamp planner, a release"), moved, bare)
    expect_cards(moved, [1950])


def use(folder, bare):
    """The programs, and the two hosts built with the folder's header and archive."""
    expect("plan", run(["bin/plan", "samples/a.card"], folder, env=bare), 0, A)
    reason = b"bin/plan: refused 7: table not convex"
    expect("plan of a refused card", run(["bin/plan", "samples/not-convex.card"], folder, env=bare), 1, b"refused 7\n", reason)
    expect("card", run(["bin/card", "samples/a.hex"], folder, env=bare), 0, (folder / "samples" / "a.card").read_bytes())
    marked = run(["bin/lamp", "mark", "samples/a.show", "samples/d.sheet"], folder, env=bare)
    expect("lamp mark", marked, 0, b"cost 37\nleast 32\nabove 5\n")
    expect("lamp from elsewhere", run([folder / "bin" / "lamp", "--version"], "/", env=bare), 0, version())
    flags = run(["pkg-config", "--cflags", "--libs", "lamp"], folder, env={**bare, "PKG_CONFIG_PATH": str(folder / "lib" / "pkgconfig")})
    expect("pkg-config", flags, 0)
    sitting = (ROOT / "host" / "sitting.expected").read_bytes()
    for host, words, listing in (("host", "samples/a.card", A), ("sitting", "", sitting)):
        line = f"gcc -std=c11 samples/{host}.c {flags[1].decode().strip()} -o {host} && ./{host} {words}"
        expect(f"the host {host}", run(["sh", "-c", line], folder, env=bare), 0, listing)
        (folder / host).unlink()


def expect_cards(folder, starts):
    """The folder has these practice cards."""
    for start in starts:
        if (folder / f"{start}.card").read_bytes() != practice_card(start):
            sys.exit(f"{start}.card is not the practice card of its number")


def version():
    header = (ROOT / "include" / "lamp.h").read_text(encoding="utf-8")
    return f"lamp {re.search(r'LAMP_RELEASE .([0-9.]+).', header)[1]}\n".encode()


def readme(folder):
    """The examiner's day, in a folder from which the repository's programs are reached by a link."""
    for name in ("bin", "samples"):
        (folder / name).symlink_to(ROOT / name)
    lines = commands("README.md", "## The examiner's day")
    if [command for command in DAY if not any(f"bin/lamp {command} " in line for line in lines)] or len(lines) > 6:
        sys.exit(f"README's day is not six lines with {DAY}")
    run_day("README", lines, folder, None)
    run_lines("README", commands("README.md", "## Practice shows"), folder, None)
    run_lines("README", commands("README.md", "## The catalogue module's table"), folder, None)
    expect_cards(folder, [1950])
    expect_cards(folder / "cards", range(1, 31))
    expect("README's first command", run(["sh", "-c", commands("README.md", "# Lamp planner")[0]], folder), 0, A)


with tempfile.TemporaryDirectory() as place:
    release(pathlib.Path(place))
    day = pathlib.Path(place) / "day"
    day.mkdir()
    readme(day)
print(f"release: {done} passed")
