#!/usr/bin/env python3
"""Runs bin/plan, bin/card, bin/build and bin/lamp in copies of a few files and compares status, output and messages. Nothing is built in
the repository itself: where a build is looked at, rt and cargo are made-up commands that note how they were called."""
import concurrent.futures
import os
import pathlib
import re
import shutil
import socket
import subprocess
import sys
import tempfile
import threading
import time

from cards import card
from words import tool_words

ROOT = pathlib.Path(__file__).resolve().parent.parent
PROGRAM = ROOT / "target" / "bin" / "plan_program"
SCRIPTS = ("build", "card", "lamp", "plan")
COMMANDS = ("awk", "find", "flock", "head", "mkdir", "readlink", "rm", "sh", "touch", "tr")
DIGITS = "0123456789ABCDEF"
NOTHING = b""
ONCE = "this takes a few minutes, once"
done = 0


def fail(name, found, wanted):
    sys.exit(f"{name}: found {found!r:.600}, expected {wanted!r:.600}")


def equal(name, found, wanted):
    global done
    if found != wanted:
        fail(name, found, wanted)
    done += 1


# ---------------------------------------------------------------- running


class Place:
    """A folder of its own, with a PATH of its own and, if nothing is said, nothing else in the environment."""

    def __init__(self, folder, path, shell=(), variables=()):
        self.folder, self.path, self.shell, self.variables = folder, path, list(shell), dict(variables)

    def run(self, *words, data=None, path=None, variables=(), **more):
        """Status, standard output and standard error of a command. A command bin/.. is that of the folder."""
        words = [str(word) for word in words]
        if words[0].startswith("bin/"):
            words = self.shell + [str(self.folder / words[0])] + words[1:]
        more.setdefault("cwd", self.folder)
        more.setdefault("stdout", subprocess.PIPE)
        if "stdin" not in more:
            more["input"] = data or b""
        variables = {"PATH": str(path or self.path), **self.variables, **dict(variables)}
        ended = subprocess.run(words, stderr=subprocess.PIPE, env=variables, **more)
        return ended.returncode, ended.stdout, ended.stderr.decode()

    def through_sh(self, redirection, script, *words, **more):
        """The same with a redirection that Python does not have, as a closed standard output."""
        command = self.shell + [str(self.folder / script)] + [str(word) for word in words]
        return self.run("sh", "-c", f'exec "$@" {redirection}', "sh", *command, **more)

    def to_closed_pipe(self, *words, **more):
        read, write = os.pipe()
        os.close(read)
        try:
            return self.run(*words, stdout=write, **more)
        finally:
            os.close(write)


def links(folder, commands):
    """A folder of links, to be a PATH. Each command is a name, or a name and the command that stands in for it."""
    folder.mkdir(parents=True)
    for command in commands:
        name, stands_in = command if isinstance(command, tuple) else (command, command)
        if shutil.which(stands_in):
            (folder / name).symlink_to(shutil.which(stands_in))
    return folder


def put(path, content="", mode=0o644):
    path.parent.mkdir(parents=True, exist_ok=True)
    path.write_bytes(content if isinstance(content, bytes) else content.encode())
    path.chmod(mode)
    return path


def copied(folder, scripts=SCRIPTS, program="target/bin/plan_program"):
    """A folder with scripts and the program, and no sources."""
    (folder / "bin").mkdir(parents=True)
    for name in scripts:
        shutil.copy(ROOT / "bin" / name, folder / "bin" / name)
    if program:
        put(folder / program, PROGRAM.read_bytes(), 0o755)
    return folder


def shells():
    """How a script can be run here: by its first line, and by each other shell that is found."""
    found = [()]
    for name, *words in (("dash",), ("bash", "--posix"), ("busybox", "sh")):
        shell = shutil.which(name)
        if shell and os.path.realpath(shell) != os.path.realpath(shutil.which("sh")):
            found.append((shell, *words))
    return found


# ---------------------------------------------------------------- cards


A_CARD = (ROOT / "samples" / "a.card").read_bytes()
A_HEX = (ROOT / "samples" / "a.hex").read_text()
A_LISTING = (ROOT / "samples" / "a.out").read_bytes()
LONG_CARD = card(m=63, q=1, table=(0, 0), loads=(63,) * 1024)
PLANNED = (0, A_LISTING, "")

# Some of the words are written out, so that not all that is expected comes from the table.
REFUSED = [
    (1, b"DLX" + A_CARD[3:], tool_words(1)),
    (1, A_CARD[:16], tool_words(1)),
    (1, b"", "not a card: under 17 bytes, or wrong mark"),
    (2, card(version=2), tool_words(2)),
    (3, card(m=201), tool_words(3)),
    (4, card(loads=(0,) * 1025), tool_words(4)),
    (5, A_CARD + b"\0", tool_words(5)),
    (6, card(up=500000001), tool_words(6)),
    (7, card(table=(0, 2, 3)), "table not convex"),
    (8, card(loads=(7,)), tool_words(8)),
    (
        10,
        card(m=64, q=1, table=(0, 0), loads=(0,) * 1024),
        "beyond the program's areas: modules + 1 times slots above 65,536; bin/lamp key plans it",
    ),
]


TEXTS = "bin/plan: hex text becomes a card by bin/card, and a show typed as text by bin/lamp card\n"


def refused(number, words):
    hint = TEXTS if number == 1 else ""
    return 1, b"refused %d\n" % number, f"bin/plan: refused {number}: {words}\n{hint}"


# ---------------------------------------------------------------- what bin/plan and bin/card have in common


def complains(name, found, *words):
    """Status 2, nothing on standard output, and a message that begins with the words."""
    status, out, message = found
    equal(f"{name}: status and output", (status, out or b""), (2, NOTHING))
    wanted = "".join(words)
    equal(f"{name}: message", message[: len(wanted)], wanted)


def writes_nothing_well(place, script, name):
    """Output that goes nowhere is never status 0."""
    whole = f"{script}: standard output was not written whole\n"
    with open("/dev/full", "wb") as full:
        equal(f"{script}: a full device", place.run(script, name, stdout=full), (2, None, whole))
        equal(f"{script} --help: a full device", place.run(script, "--help", stdout=full), (2, None, whole))
    equal(f"{script}: a closed pipe", place.to_closed_pipe(script, name), (2, None, whole))
    limited = f'ulimit -f 0; exec "$@" >"{place.folder}/limited"'
    command = place.shell + [str(place.folder / script), str(name)]
    equal(f"{script}: a file too large", place.run("sh", "-c", limited, "sh", *command), (2, NOTHING, whole))
    equal(f"{script}: closed", place.through_sh(">&-", script, name), (2, NOTHING, f"{script}: standard output is closed\n"))
    equal(f"{script} --help: closed", place.through_sh(">&-", script, "--help"), (2, NOTHING, whole))


def reads_nothing_badly(place, script, kind):
    """Input that cannot be had is status 2 and is named."""
    complains("no such file", place.run(script, "nowhere"), f"{script}: nowhere: there is no such file\n")
    complains("an empty name", place.run(script, ""), f"{script}: : there is no such file\n")
    complains("a folder", place.run(script, "a folder"), f"{script}: a folder is a folder, not a {kind}\n")
    complains("closed input", place.through_sh("<&-", script), f"{script}: standard input is closed")
    folder = os.open(place.folder, os.O_RDONLY)
    complains("a folder as input", place.run(script, stdin=folder), f"{script}: standard input is a folder")
    os.close(folder)
    colon = ":" if script == "bin/card" else ""
    complains("input that only writes", place.through_sh("0>>written", script), f"{script}: standard input{colon} cannot be read\n")
    status, out, message = place.run(script, "a socket")
    equal("a socket", (status, out, message.endswith(f"{script}: a socket cannot be read\n")), (2, NOTHING, True))


def wrong_use(place, script, kind):
    complains("a second file", place.run(script, "a", "b"), f"{script}: one {kind} at a time\nusage: {script} [FILE]\n")
    complains("an unknown option", place.run(script, "--fast"), f"{script}: --fast is not an option\nusage: {script} [FILE]\n")
    complains("an unknown option and two files", place.run(script, "-x", "a", "b"), f"{script}: -x is not an option\n")
    for option in ("-h", "--help"):
        status, out, message = place.run(script, option)
        equal(f"{script} {option}", (status, out[:20], message), (0, f"usage: {script} [FILE]\n".encode()[:20], ""))


def common(place, script, kind, name):
    folder = place.folder
    (folder / "a folder").mkdir(exist_ok=True)
    if not (folder / "a socket").exists():
        os.chdir(folder)
        socket.socket(socket.AF_UNIX).bind("a socket")
        os.chdir(ROOT)
    wrong_use(place, script, kind)
    reads_nothing_badly(place, script, kind)
    writes_nothing_well(place, script, name)


# ---------------------------------------------------------------- bin/plan


def plan_reads(place):
    """A card is read under any name and from any kind of input."""
    run, folder = place.run, place.folder
    for name in ("a.card", "a b.card", "-a.card", "#*.card", "\n.card"):
        put(folder / name, A_CARD)
        equal(f"the file {name!r}", run("bin/plan", f"./{name}"), PLANNED)
    equal("a name after --", run("bin/plan", "--", "-a.card"), PLANNED)
    equal("a name from the root", run("bin/plan", folder / "a b.card"), PLANNED)
    equal("standard input", run("bin/plan", data=A_CARD), PLANNED)
    equal("- is standard input", run("bin/plan", "-", data=A_CARD), PLANNED)
    equal("a file, and input closed", place.through_sh("<&-", "bin/plan", "a.card"), PLANNED)
    equal("a file, and messages closed", place.through_sh("2>&-", "bin/plan", "a.card"), PLANNED)
    equal("from another folder", run("bin/plan", "../a.card", cwd=folder / "a folder"), PLANNED)
    fifo = folder / "fifo"
    if not fifo.exists():
        os.mkfifo(fifo)
    writer = threading.Thread(target=fifo.write_bytes, args=(A_CARD,))
    writer.start()
    equal("a named pipe", run("bin/plan", "fifo"), PLANNED)
    writer.join()


def plan_refuses(place):
    for number, data, words in REFUSED:
        equal(f"refused {number}", place.run("bin/plan", data=data), refused(number, words))
    with open("/dev/full", "wb") as full:
        status, _, message = place.run("bin/plan", data=b"", stdout=full)
    equal("a refusal on a full device", (status, message), (2, "bin/plan: standard output was not written whole\n"))
    status, out, _ = place.through_sh("2>&-", "bin/plan", data=b"")
    equal("a refusal with messages closed", (status, out), (1, b"refused 1\n"))


def plan_passes_on(place):
    """The text is the program's own, whatever its length."""
    wanted = subprocess.run([PROGRAM], input=LONG_CARD, capture_output=True, check=True).stdout
    equal("a long listing is long", len(wanted) > 100000, True)
    equal("a long listing", place.run("bin/plan", data=LONG_CARD), (0, wanted, ""))
    empty = (ROOT / "samples" / "empty.card").read_bytes()
    equal("an empty show", place.run("bin/plan", data=empty), (0, b"cost 0\nplan\n", ""))
    equal("100,000 bytes", place.run("bin/plan", data=A_CARD + b"\0" * 100000), refused(5, tool_words(5)))


# A made-up program reads its input to the end first, as the proved one does.
READER = "#!/bin/sh\nwhile read -r line; do :; done\n"


def plan_sees_a_broken_program(folder, path):
    """A program that does not end well, or prints something else, is status 2."""
    place = Place(copied(folder, program=None), path)
    cases = [
        ("killed", "echo cost 1; kill -9 $$", "bin/plan: the program ended with status 137\n"),
        ("status 3", "echo cost 1; exit 3", "bin/plan: the program ended with status 3\n"),
        ("silent", "exit 0", "bin/plan: the program printed neither a listing nor a refusal\n"),
        ("other words", "echo costly", "bin/plan: the program printed neither a listing nor a refusal\n"),
        ("half a line", "printf 'refused 1'", "bin/plan: the program printed neither a listing nor a refusal\n"),
    ]
    for name, text, message in cases:
        put(folder / "target/bin/plan_program", READER + text + "\n", 0o755)
        status, out, found = place.run("bin/plan", data=A_CARD)
        equal(f"a program that is {name}", (status, out, found.endswith(message)), (2, NOTHING, True))
    put(folder / "target/bin/plan_program", READER + "echo refused 9\n", 0o755)
    words = "a number that bin/plan has no words for"
    equal("a refusal without words", place.run("bin/plan", data=A_CARD), refused(9, words))


def plan_elsewhere(folder, path):
    """Only what is needed, in an empty folder, without rt; through links; and as a release."""
    alone = Place(copied(folder / "a place", ("plan",)), path)
    equal("bin/plan and the program alone", alone.run("bin/plan", data=A_CARD), PLANNED)
    link = folder / "links" / "planner"
    link.parent.mkdir()
    link.symlink_to(pathlib.Path("..") / "a place" / "bin" / "plan")
    (folder / "again").symlink_to(link)
    equal("a link", alone.run(link, data=A_CARD, cwd=folder), PLANNED)
    equal("a link to a link", alone.run(folder / "again", data=A_CARD, cwd=folder), PLANNED)
    equal("by the PATH", alone.run("planner", data=A_CARD, path=f"{link.parent}:{path}"), PLANNED)

    release = Place(copied(folder / "release", ("plan",), "libexec/plan_program"), path)
    equal("a release", release.run("bin/plan", data=A_CARD), PLANNED)
    equal("a release changes nothing", sorted(os.listdir(release.folder)), ["bin", "libexec"])
    both = Place(copied(folder / "both"), path)
    put(both.folder / "libexec/plan_program", READER + "echo cost 7\n", 0o755)
    equal("libexec beside target", both.run("bin/plan", data=A_CARD), PLANNED)
    nothing = Place(copied(folder / "nothing", ("plan",), None), path)
    complains("bin/plan alone", nothing.run("bin/plan", data=A_CARD), "bin/plan: there is neither a program nor bin/build here")
    bare = Place(copied(folder / "bare", ("plan", "build"), None), path)
    complains("no program", bare.run("bin/plan", data=A_CARD), "bin/build: target/bin/plan_program is missing; there is no crates here")


# ---------------------------------------------------------------- bin/card


def made(content):
    return 0, content, ""


def card_makes(place):
    run, folder = place.run, place.folder
    put(folder / "a b.hex", A_HEX)
    put(folder / "-a.hex", A_HEX)
    equal("a text", run("bin/card", "a b.hex"), made(A_CARD))
    equal("a text on standard input", run("bin/card", data=A_HEX.encode()), made(A_CARD))
    equal("a text after -", run("bin/card", "-", data=A_HEX.encode()), made(A_CARD))
    equal("a name with a dash", run("bin/card", "./-a.hex"), made(A_CARD))
    equal("a name after --", run("bin/card", "--", "-a.hex"), made(A_CARD))
    equal("a text, and messages closed", place.through_sh("2>&-", "bin/card", "./-a.hex"), made(A_CARD))
    cases = [
        (b"444C53", b"DLS"),
        (b"\xef\xbb\xbf44 4C 53\n", b"DLS"),
        (b"44\t4c \t53\r\n01", b"DLS\1"),
        (b"  44\n\n\n4C53", b"DLS"),
        (b"44#4C\n53", b"DS"),
        (b"44 # a # b\r53", b"DS"),
        (b"44 # K\xc3\xbchlung\n53", b"DS"),
        (b"00 0a 0d ff FF fF 25 5c 27", b"\0\n\r\xff\xff\xff%\\'"),
        (bytes(range(256)).hex().encode(), bytes(range(256))),
        (b"ff" * 32768, b"\xff" * 32768),
        (b"ff " * 21845 + b"\n", b"\xff" * 21845),
        (b"00" * 1000 + b" " * 63536, b"\0" * 1000),
    ]
    for text, wanted in cases:
        equal(f"the text {text[:20]!r}", run("bin/card", data=text), made(wanted))


def card_finds_errors(place):
    cases = [
        (b"44\n" * 6 + b"4 4C", "line 7: '4' is a single digit"),
        (b"44C 53", "line 1: '44C' has an odd number of digits"),
        (b"44 4C 5\n3", "line 1: '5' is a single digit"),
        (b"44\n\n\r\n 4", "line 4: '4' is a single digit"),
        (b"44\r\n4C\r\n5", "line 3: '5' is a single digit"),
        (b"44\r4C\r5", "line 3: '5' is a single digit"),
        (b"44 # a\r5", "line 2: '5' is a single digit"),
        (b"44 4G 4", "line 1: '4G' is not hex digits"),
        (b"0x44", "line 1: '0x44' is not hex digits"),
        (b"44,4C", "line 1: '44,4C' is not hex digits"),
        (b"g" * 30, "line 1: '" + "g" * 20 + "..' is not hex digits"),
        (b"44\n4\x004C", "line 2: '4?4C' is not hex digits"),
        (b"44\0", "line 1: '44?' is not hex digits"),
        (b"\0", "line 1: '?' is not hex digits"),
        (b"44 \x0c4C", "line 1: '?4C' is not hex digits"),
        (b"44 \x0b 4C", "line 1: '?' is not hex digits"),
        (b"44 \x1b[31m", "line 1: '?[31m' is not hex digits"),
        (b"44\n\xef\xbb\xbf44", "line 2: '???44' is not hex digits"),
        (b"44\xc2\xa04C", "line 1: '44??4C' is not hex digits"),
        (b"44 # \0 4\n4", "line 1: the comment has a byte that is not text"),
        (b"44 # \x7f", "line 1: the comment has a byte that is not text"),
        (b"", "no hex digits"),
        (b"\n# a comment\n \t\r\n", "no hex digits"),
        (b" " * 65534 + b"444", "more than 65,536 bytes of text"),
        (b"g" * 65537, "more than 65,536 bytes of text"),
        (b"the text ends here", "line 1: 'the' is not hex digits"),
        (A_CARD, "line 1: 'DLS" + "?" * 17 + "..' is not hex digits; this is a card already"),
        (b"44 DLS", "line 1: 'DLS' is not hex digits"),
    ]
    for text, words in cases:
        wanted = f"bin/card: standard input: {words}\n"
        equal(f"the text {text[:20]!r}", place.run("bin/card", data=text), (2, NOTHING, wanted))
    for field in ("modules", "top", "warm-up", "cool-down", "table", "loads", "Modules"):
        wanted = f"bin/card: standard input: line 2: '{field}' is not hex digits; this is a show as text: bin/lamp card\n"
        equal(f"a show from {field}", place.run("bin/card", data=f"# a show\n{field} 3\n".encode()), (2, NOTHING, wanted))
    put(place.folder / "wrong.hex", "44\n4")
    wanted = "bin/card: wrong.hex: line 2: '4' is a single digit\n"
    equal("an error has the file's name", place.run("bin/card", "wrong.hex"), (2, NOTHING, wanted))
    with open("/dev/zero", "rb") as endless:
        equal("an endless text", place.run("bin/card", stdin=endless)[:2], (2, NOTHING))


def awks(folder):
    """A PATH for each awk that is found."""
    rest = [command for command in COMMANDS if command != "awk"]
    for name in ("mawk", "gawk", "original-awk", "busybox"):
        if shutil.which(name):
            yield links(folder / name, [*rest, ("awk", name)])


def typing_errors(text):
    """Each text with one digit mistyped, and the bytes that it then stands for."""
    blanked = re.sub(r"#[^\n]*", lambda comment: " " * len(comment[0]), text)
    places = [at for at, character in enumerate(blanked) if character in DIGITS]
    digits = A_CARD.hex()
    for nth, at in enumerate(places):
        for digit in DIGITS.replace(text[at], ""):
            yield text[:at] + digit + text[at + 1 :], bytes.fromhex(digits[:nth] + digit + digits[nth + 1 :])


def typed(place, text, wanted):
    """What bin/card makes of a text, and the first word that the program prints for it."""
    found = place.run("bin/card", data=text.encode())
    printed = subprocess.run([PROGRAM], input=wanted, capture_output=True).stdout
    return found == made(wanted), printed.split(b" ")[0]


def all_typing_errors(place):
    errors = list(typing_errors(A_HEX))
    equal("typing errors", len(errors), 35 * 2 * 15)
    with concurrent.futures.ThreadPoolExecutor(os.cpu_count()) as pool:
        results = list(pool.map(lambda error: typed(place, *error), errors))
    for (text, _), (right, word) in zip(errors, results):
        equal(f"the typing error {text!r}", (right, word in (b"cost", b"refused")), (True, True))
    equal("typing errors that the program accepts", sum(word == b"cost" for _, word in results), 403)


# ---------------------------------------------------------------- bin/build and bin/lamp

FAKE = """#!/bin/sh
# Notes its name and words, and a crate's folder that it runs in, says something, reads its input to the end, and then does what the file
# 'does' asks for. A shell may stand between bin/build and what it calls: the builder is the first of those by that name.
top=. place='' builder=$PPID
case $PWD in */crates/*) top=../.. place=" in ${PWD##*/}" ;; esac
while read -r _ _ _ parent _ <"/proc/$builder/stat" && read -r _ name _ <"/proc/$parent/stat" && [ "$name" = '(build)' ]; do builder=$parent; done
echo "${0##*/} $*$place" >>$top/calls
echo "${0##*/} on standard output"
echo "${0##*/} on standard error" >&2
while read -r line; do echo "read $line" >>$top/calls; done
(: 3<&9) 2>/dev/null && echo "has the lock" >>$top/calls
case "${0##*/} $1" in
'rt run') product=out/plan_program mode=755 ;;
'rt lib') product=out/liblamp.a mode=644 ;;
*) product=${CARGO_TARGET_DIR:-tool/target}/release/lamp mode=755 ;;
esac
write() { mkdir -p "${product%/*}" && rm -f "$product" && cp $top/made "$product" && chmod "$mode" "$product"; }
read -r does <$top/does
case $does in
write) write ;;
leave) [ -e "$product" ] || write ;;
edit) write && touch $top/crates/plan_program/src/main.rt ;;
slowly) sleep 1 && write ;;
nothing) rm -f "$product" ;;
half) write && exit 1 ;;
fail) exit 1 ;;
stop) write && kill -9 "$builder" ;;
esac
"""
RUN = "rt run in plan_program"
LIB = "rt lib in lamp"
CARGO = "cargo build --release --offline --quiet --manifest-path tool/Cargo.toml"
PRODUCTS = {"program": "target/bin/plan_program", "library": "target/staticlib/liblamp.a", "tool": "tool/target/release/lamp"}
CALLS = {"program": RUN, "library": LIB, "tool": CARGO}
LATE, EARLY = time.time() - 100, time.time() - 10000
RT = "to build it, rt, the Rattle toolchain, must be on the PATH\n"
STALE = "is older than its sources, and a stale one may print a wrong key"


class Tree(Place):
    """A folder with sources of everything, older than the products, and commands rt and cargo that are made up."""

    def __init__(self, folder, path):
        super().__init__(copied(folder, program=None), None)
        self.without = path
        self.builders = folder.with_name(folder.name + " builders")
        put(self.builders / "rt", FAKE, 0o755)
        put(self.builders / "cargo", FAKE, 0o755)
        links(folder.with_name(folder.name + " more"), ("cp", "chmod", "sleep"))
        self.path = f"{self.builders}:{folder.with_name(folder.name + ' more')}:{path}"
        sources = ("crates/plan_program/src/main.rt", "crates/plan_program/src/old.rt", "crates/lamp/src/lib.rt", "crates.txt", "tool/Cargo.toml", "tool/src/main.rs")
        for source in sources:
            put(folder / source, "text\n")
        put(folder / "made", "#!/bin/sh\necho cost 1\n", 0o755)
        self.does("write")

    def does(self, word):
        put(self.folder / "does", word + "\n")

    def calls(self):
        """The calls of rt and cargo since the last time."""
        notes = self.folder / "calls"
        found = notes.read_text().splitlines() if notes.exists() else []
        notes.unlink(missing_ok=True)
        return found

    def have(self, *names):
        """The products of these names, and no others, newer than all sources."""
        for name, product in PRODUCTS.items():
            (self.folder / product).unlink(missing_ok=True)
            (self.folder / (product + ".unfinished")).unlink(missing_ok=True)
            if name in names:
                put(self.folder / product, "#!/bin/sh\necho cost 0\n", 0o644 if name == "library" else 0o755)
        for pattern in ("crates*", "crates/**/*", "tool", "tool/**/*"):
            for path in self.folder.glob(pattern):
                os.utime(path, (EARLY, EARLY))
        for age, name in enumerate(PRODUCTS):
            if name in names:
                os.utime(self.folder / PRODUCTS[name], (LATE + age, LATE + age))

    def touch(self, name):
        os.utime(self.folder / name)

    def builds(self, name, what, calls, status=0):
        """What a call builds, with the status; its output is empty. Gives the message."""
        found, out, message = self.run("bin/build", *what.split(), data=b"not for the build\n")
        equal(f"{name}: status and output", (found, out), (status, NOTHING))
        equal(f"{name}: what is called", self.calls(), calls)
        return message


def build_when_needed(tree):
    for what, call in (("program", RUN), ("library", LIB)):
        product = PRODUCTS[what]
        tree.have()
        message = tree.builds(f"a missing {what}", what, [call])
        begins = f"bin/build: proving and building the {what}; {ONCE}\n"
        equal("what it says", message, begins + "rt on standard output\nrt on standard error\n")
        equal("nothing is left over", tree.builds(f"a {what} that is there", what, []), "")
        equal("no mark is left", (tree.folder / (product + ".unfinished")).exists(), False)
        tree.have(what)
        equal("it is silent", tree.builds(f"a newer {what}", what, []), "")
        for source in ("crates/plan_program/src/main.rt", "crates.txt", "crates/plan_program/src", "crates"):
            tree.have(what)
            tree.touch(source)
            tree.builds(f"a {what} older than {source}", what, [call])
            tree.builds(f"the {what} again", what, [])
        tree.have(what)
        (tree.folder / "crates/plan_program/src/old.rt").unlink()
        tree.builds(f"a {what} whose source was removed", what, [call])
        put(tree.folder / "crates/plan_program/src/old.rt")
        tree.have(what)
        put(tree.folder / product)
        tree.builds(f"an empty {what}", what, [call])
    tree.have("program")
    (tree.folder / PRODUCTS["program"]).chmod(0o644)
    tree.builds("a program that cannot be run", "program", [RUN])
    tree.have()
    tree.builds("two at once", "program library", [RUN, LIB])
    tree.have("program")
    tree.touch("tool/src/main.rs")
    tree.builds("a newer source of the tool alone", "program", [])


def build_that_leaves_the_product(tree):
    """rt leaves what it built in out/ where that would be the same: it must not seem old for ever, and it is taken again where it is missing.
    The folder out/ is no source, nor is the crate's folder, which rt changes by making it."""
    tree.does("leave")
    tree.have("program")
    tree.touch("crates.txt")
    tree.builds("a program that stays as it is", "program", [RUN])
    tree.builds("the program that stayed", "program", [])
    tree.have()
    tree.builds("a program that is missing", "program", [RUN])
    tree.have("program")
    tree.touch("crates/plan_program/out/plan_program")
    tree.touch("crates/plan_program/out")
    tree.touch("crates/plan_program")
    tree.builds("a program older than what rt keeps", "program", [])
    tree.does("write")


def build_that_fails(tree):
    for word, status in (("fail", 1), ("half", 1)):
        tree.have("program")
        tree.touch("crates.txt")
        tree.does(word)
        message = tree.builds(f"a build that does {word}", "program", [RUN], 2)
        equal("it says so", message.endswith(f"bin/build: the build of the program failed with status {status}\n"), True)
        tree.builds(f"after one that does {word}", "program", [RUN], 2)
        tree.does("write")
        tree.builds(f"a good build after one that does {word}", "program", [RUN])
        tree.builds("then it is there", "program", [])
    tree.have()
    tree.does("nothing")
    message = tree.builds("a build that writes nothing", "program", [RUN], 2)
    equal("it says so", message.endswith("bin/build: the build of the program ended well and did not write target/bin/plan_program\n"), True)
    tree.have("program")
    tree.touch("crates.txt")
    tree.does("stop")
    tree.builds("a build that is killed", "program", [RUN], -9)
    tree.does("write")
    tree.builds("after one that was killed", "program", [RUN])
    tree.does("edit")
    tree.have()
    tree.builds("a source that changes meanwhile", "program", [RUN])
    tree.does("write")
    tree.builds("it is noticed", "program", [RUN])
    tree.builds("and built once", "program", [])


def build_without_builders(tree):
    path = tree.path
    tree.path = tree.without
    for what in ("program", "library"):
        product = PRODUCTS[what]
        tree.have(what)
        equal("it is silent", tree.builds(f"a newer {what} without rt", what, []), "")
        tree.touch("crates/plan_program/src/main.rt")
        before = (tree.folder / product).stat().st_mtime
        wanted = f"bin/build: {product} {STALE}; {RT}"
        equal("what it says", tree.builds(f"an older {what} without rt", what, [], 2), wanted)
        equal("it is left as it is", (tree.folder / product).stat().st_mtime, before)
        tree.have()
        equal("what it says", tree.builds(f"no {what} and no rt", what, [], 2), f"bin/build: {product} is missing; {RT}")
    tree.have("library", "tool")
    equal("it is silent", tree.builds("a newer tool without cargo", "tool", []), "")
    tree.touch("tool/src/main.rs")
    wanted = f"bin/build: {PRODUCTS['tool']} {STALE}; to build it, cargo must be on the PATH\n"
    equal("what it says", tree.builds("an older tool without cargo", "tool", [], 2), wanted)
    tree.have("library", "tool")
    tree.touch("crates.txt")
    wanted = f"bin/build: {PRODUCTS['library']} {STALE}; {RT}"
    equal("what it says", tree.builds("a tool over an older library", "tool", [], 2), wanted)
    tree.path = path


def build_without_sources(folder, path):
    for what, product in PRODUCTS.items():
        tree = Tree(folder / what, path)
        tree.have(what)
        for name in ("crates", "tool/src"):
            shutil.rmtree(tree.folder / name)
        for name in ("crates.txt", "tool/Cargo.toml"):
            (tree.folder / name).unlink()
        tree.path = tree.without
        equal("it is silent", tree.builds(f"a {what} without sources", what, []), "")
        put(tree.folder / (product + ".unfinished"))
        message = tree.builds(f"a {what} that was not finished, without sources", what, [], 2)
        equal("it says so", message.startswith(f"bin/build: {product} is of a build that did not end well; there is no "), True)
        tree.have()
        message = tree.builds(f"no {what} and no sources", what, [], 2)
        equal("it says so", message.startswith(f"bin/build: {product} is missing; there is no "), True)


def build_tool(tree):
    tree.have()
    message = tree.builds("a missing tool and library", "tool", [LIB, CARGO])
    equal("what it says", [line for line in message.splitlines() if line.startswith("bin/")][1], "bin/build: building the tool")
    tree.builds("a tool that is there", "tool", [])
    tree.have("library")
    tree.builds("a missing tool", "tool", [CARGO])
    for source in ("tool/Cargo.toml", "tool/src/main.rs", "tool/src", PRODUCTS["library"]):
        tree.have("library", "tool")
        tree.touch(source)
        tree.builds(f"a tool older than {source}", "tool", [CARGO])
        tree.builds("the tool again", "tool", [])
    tree.have("library", "tool")
    tree.touch("crates.txt")
    tree.builds("a tool and an older library", "tool", [LIB, CARGO])
    tree.have("library", "tool")
    put(tree.folder / "tool/target/release/deps/other")
    tree.builds("what cargo writes is no source", "tool", [])
    tree.touch("tool/src/main.rs")
    tree.does("nothing")
    message = tree.builds("cargo that writes elsewhere", "tool", [CARGO], 2)
    equal("it says so", message.endswith(f"the build of the tool ended well and did not write {PRODUCTS['tool']}\n"), True)
    tree.does("fail")
    tree.builds("a tool that is not compiled", "tool", [CARGO], 2)
    tree.does("write")
    found = tree.run("bin/build", "tool", variables={"CARGO_TARGET_DIR": "elsewhere"})
    equal("a folder for cargo in the environment", (found[0], tree.calls()), (0, [CARGO]))


def build_use(tree):
    tree.have()
    usage = "usage: bin/build WHAT..\n"
    complains("nothing named", tree.run("bin/build"), f"bin/build: nothing is named to be built\n{usage}")
    wanted = f"bin/build: 'all' is none of program, library and tool\n{usage}"
    complains("an unknown product", tree.run("bin/build", "program", "all"), wanted)
    equal("nothing was built", tree.calls(), [])
    status, out, message = tree.run("bin/build", "--help")
    equal("bin/build --help", (status, out[: len(usage)], message), (0, usage.encode(), ""))
    with open("/dev/full", "wb") as full:
        equal("bin/build --help on a full device", tree.run("bin/build", "--help", stdout=full)[0], 2)
    equal("bin/build --help, closed", tree.through_sh(">&-", "bin/build", "--help")[0], 2)
    equal("bin/build --help to a closed pipe", tree.to_closed_pipe("bin/build", "--help")[0], 2)
    link = tree.folder.with_name("a link to build")
    link.symlink_to(tree.folder / "bin" / "build")
    equal("a link from another folder", tree.run(link, "program", cwd=tree.folder.parent)[:2], (0, NOTHING))
    equal("what is called", tree.calls(), [RUN])


def build_at_the_same_time(tree):
    """The second build waits for the first and finds nothing to do, where there is flock to wait with."""
    if not shutil.which("flock"):
        return
    tree.have()
    tree.does("slowly")
    with concurrent.futures.ThreadPoolExecutor(2) as pool:
        found = list(pool.map(lambda _: tree.run("bin/build", "program"), range(2)))
    equal("two builds at the same time", [status for status, _, _ in found], [0, 0])
    equal("one builds", tree.calls(), [RUN])
    equal("one waits", sum("waiting for another build to end\n" in message for _, _, message in found), 1)
    tree.does("write")


def plan_builds(tree):
    """bin/plan checks what it is given before it builds, keeps its input from the build, and uses nothing that is stale."""
    (tree.folder / "made").write_bytes(PROGRAM.read_bytes())
    tree.have()
    complains("a file that is not there", tree.run("bin/plan", "nowhere"), "bin/plan: nowhere: there is no such file\n")
    complains("wrong use", tree.run("bin/plan", "a", "b"), "bin/plan: one card at a time\n")
    complains("closed input", tree.through_sh("<&-", "bin/plan"), "bin/plan: standard input is closed")
    complains("closed output", tree.through_sh(">&-", "bin/plan", data=A_CARD), "bin/plan: standard output is closed")
    equal("nothing is built for these", tree.calls(), [])
    status, out, message = tree.run("bin/plan", data=A_CARD)
    equal("built, then planned", (status, out), (0, A_LISTING))
    equal("what it says", message.splitlines()[0], f"bin/build: proving and building the program; {ONCE}")
    equal("the card is not read by the build", tree.calls(), [RUN])
    equal("planned again", tree.run("bin/plan", data=A_CARD), PLANNED)
    equal("nothing is built again", tree.calls(), [])
    tree.touch("crates/plan_program/src/main.rt")
    status, out, message = tree.run("bin/plan", data=A_CARD, path=tree.without)
    equal("stale, and no rt", (status, out, RT in message), (2, NOTHING, True))
    tree.does("fail")
    status, out, message = tree.run("bin/plan", data=A_CARD)
    equal("a build that fails", (status, out), (2, NOTHING))
    tree.calls()
    tree.does("write")


def lamp_runs(tree):
    put(tree.folder / "made", '#!/bin/sh\nread -r line\nprintf "<%s>" "$@"\necho "$line"\nexit 1\n', 0o755)
    tree.have()
    status, out, message = tree.run("bin/lamp", "key", "a b", "", data=b"input\n")
    equal("lamp: built, then run", (status, out), (1, b"<key><a b><>input\n"))
    equal("what is called", tree.calls(), [LIB, CARGO])
    found = tree.run("bin/lamp", "key", data=b"input\n", path=tree.without)
    equal("lamp without rt and cargo", found, (1, b"<key>input\n", ""))
    link = tree.folder.with_name("a link to lamp")
    link.symlink_to(tree.folder / "bin" / "lamp")
    found = tree.run(link, "key", data=b"input\n", cwd=tree.folder.parent)
    equal("lamp through a link", found, (1, b"<key>input\n", ""))
    tree.touch("tool/src/main.rs")
    status, out, message = tree.run("bin/lamp", "key", path=tree.without)
    equal("a stale lamp", (status, out, "cargo must be on the PATH" in message), (2, NOTHING, True))
    tree.does("fail")
    equal("a lamp that is not compiled", tree.run("bin/lamp", "key")[:2], (2, NOTHING))
    tree.does("write")
    tree.calls()


# A made-up compiler, which writes a program that does nothing where it is asked to, and a made-up nm.
COMPILER = """#!/bin/sh
while [ $# -gt 0 ]; do
    [ "$1" = -o ] && printf '#!/bin/sh\\n' >"$2" && chmod 755 "$2"
    shift
done
"""
NM = "#!/bin/sh\necho '                 U memset'\n"


def others_build(tree, folder):
    """host/build and bench/run take no archive that is missing or older than its sources."""
    for name, text in (("gcc", COMPILER), ("g++", COMPILER), ("nm", NM)):
        put(folder / name, text, 0o755)
    more = links(folder / "more", ("bash", "chmod", "dirname", "sort"))
    path, without = f"{folder}:{more}:{tree.path}", f"{folder}:{more}:{tree.without}"
    for script in ("host/build", "bench/run"):
        put(tree.folder / script, (ROOT / script).read_bytes(), 0o755)
        command = tree.folder / script
        tree.have("library")
        equal(f"{script} with an archive", (tree.run(command, path=path)[0], tree.calls()), (0, []))
        tree.touch("crates.txt")
        equal(f"{script} with an old archive and no rt", tree.run(command, path=without)[0], 2)
        equal(f"{script} with an old archive", (tree.run(command, path=path)[0], tree.calls()), (0, [LIB]))
        tree.have()
        equal(f"{script} without an archive", (tree.run(command, path=path)[0], tree.calls()), (0, [LIB]))


# ---------------------------------------------------------------- where a machine allows it

SMALL = 'mount -t tmpfs -o size=8k none "$1" || exit 99; out=$1/out; shift; "$@" >"$out"'


def on_small(way, small, *command):
    """Status and message of a command whose output goes to a small file system, in a name space that is its own."""
    if not shutil.which("unshare"):
        return None, ""
    found = subprocess.run(["unshare", way, "sh", "-c", SMALL, "sh", small, *command], capture_output=True)
    return found.returncode, found.stderr.decode()


def small_file_system(folder, place):
    """Output to a file system of 8 KiB: what fits is status 0, what does not is status 2."""
    (folder / "small").mkdir(parents=True)
    put(folder / "long.card", LONG_CARD)
    put(folder / "long.hex", "ff " * 20000)
    put(folder / "a.card", A_CARD)
    put(folder / "a.hex", A_HEX)
    ways = [way for way in ("-m", "-rm") if on_small(way, folder / "small", "true")[0] == 0]
    if not ways:
        print("skipped: no small file system can be made here")
        return
    for script, short, long in (("plan", "a.card", "long.card"), ("card", "a.hex", "long.hex")):
        command = place.folder / "bin" / script
        equal(f"bin/{script} with room", on_small(ways[0], folder / "small", command, folder / short), (0, ""))
        wanted = (2, f"bin/{script}: standard output was not written whole\n")
        equal(f"bin/{script} without room", on_small(ways[0], folder / "small", command, folder / long), wanted)


def unreadable(place):
    """A file that may not be read. Root may read all, so root runs this as nobody."""
    put(place.folder / "closed.card", A_CARD, 0o000)
    user = {"user": 65534, "group": 65534, "extra_groups": []} if os.geteuid() == 0 else {}
    try:
        reached = place.run("bin/plan", data=A_CARD, **user) == PLANNED
    except (OSError, subprocess.SubprocessError):
        reached = False
    if not reached:
        print("skipped: nobody cannot be made to read here")
        return
    for script in ("bin/plan", "bin/card"):
        found = place.run(script, "closed.card", **user)
        complains(f"{script}: a file that may not be read", found, f"{script}: closed.card cannot be read\n")


# ---------------------------------------------------------------- all of it


def scripts_under_each_shell(folder, path):
    for nth, shell in enumerate(shells()):
        place = Place(copied(folder / f"shell {nth}"), path, shell)
        common(place, "bin/plan", "card", put(place.folder / "a.card", A_CARD))
        common(place, "bin/card", "text", put(place.folder / "a.hex", A_HEX))
        plan_reads(place)
        plan_refuses(place)
        plan_passes_on(place)
        card_makes(place)
        card_finds_errors(place)


def builds(folder, path):
    tree = Tree(folder / "tree", path)
    build_when_needed(tree)
    build_that_leaves_the_product(tree)
    build_that_fails(tree)
    build_without_builders(tree)
    build_without_sources(folder / "no sources", path)
    build_tool(tree)
    build_use(tree)
    build_at_the_same_time(tree)
    plan_builds(tree)
    lamp_runs(tree)
    others_build(tree, folder / "compilers")


def main():
    if not PROGRAM.exists():
        sys.exit("target/bin/plan_program is missing; bin/build program makes it")
    with tempfile.TemporaryDirectory() as name:
        folder = pathlib.Path(name)
        folder.chmod(0o755)
        path = links(folder / "commands", COMMANDS)
        place = Place(copied(folder / "place"), path)
        scripts_under_each_shell(folder, path)
        for its_path in awks(folder / "awks"):
            other = Place(place.folder, its_path, variables={"LC_ALL": "C.UTF-8"})
            card_makes(other)
            card_finds_errors(other)
        plan_sees_a_broken_program(folder / "broken", path)
        plan_elsewhere(folder / "elsewhere", path)
        all_typing_errors(place)
        builds(folder / "builds", path)
        small_file_system(folder / "full", place)
        unreadable(place)
    print(f"scripts: {done} passed")


if __name__ == "__main__":
    main()
