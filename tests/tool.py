#!/usr/bin/env python3
"""The command `lamp`: what it prints, the files it writes, its exit status, and that its output is written whole or the status is 2."""
import fcntl
import itertools
import os
import pathlib
import re
import shutil
import signal
import subprocess
import sys
import tempfile
import time
import xml.etree.ElementTree as ElementTree

from cards import card
from practice import practice_card
from words import tool_words

ROOT = pathlib.Path(__file__).resolve().parent.parent
LAMP = ROOT / "tool" / "target" / "release" / "lamp"
SAMPLES = ROOT / "samples"
SVG = "{http://www.w3.org/2000/svg}"
HTML = "{http://www.w3.org/1999/xhtml}"
MOST = 65536
A_TEXT = b"# show card, version 1, 3 slots\nmodules 3\ntop 2\nwarm-up 3\ncool-down 2\ntable 1 2 4\nloads 6 0 2\n"
done = 0


def lamp(*words, data=b"", **more):
    """The exit status, standard output and standard error."""
    ended = subprocess.run([LAMP, *words], input=data, capture_output=True, **more)
    return ended.returncode, ended.stdout, ended.stderr


def expect(name, found, status, out, *complaints):
    """Compares an ended command: its status, all of standard output, and words that stand on standard error, or nothing there."""
    global done
    if (found[0], found[1]) != (status, out):
        sys.exit(f"{name}: status {found[0]}, printed {found[1][:300]!r}; expected {status}, {out[:300]!r}; complaint {found[2]!r}")
    for words in complaints:
        if words.encode() not in found[2]:
            sys.exit(f"{name}: {words!r} is not in {found[2]!r}")
    if bool(complaints) != bool(found[2]):
        sys.exit(f"{name}: standard error has {found[2]!r}")
    done += 1


def require(name, truth):
    global done
    ensure(name, truth)
    done += 1


def ensure(name, truth):
    """A part of a test, which is not counted by itself."""
    if not truth:
        sys.exit(f"{name}: it is not so")


def shows_and_cards():
    a = (SAMPLES / "a.card").read_bytes()
    expect("card of a.show", lamp("card", SAMPLES / "a.show"), 0, a)
    expect("card from standard input", lamp("card", "-", data=A_TEXT), 0, a)
    expect("a card is a card already", lamp("card", SAMPLES / "a.card"), 0, a)
    expect("show of a.card", lamp("show", SAMPLES / "a.card"), 0, A_TEXT)
    expect("show of a.show", lamp("show", SAMPLES / "a.show"), 0, A_TEXT)
    expect("a byte order mark and other ends of line", lamp("card", "-", data=b"\xef\xbb\xbf" + A_TEXT.replace(b"\n", b"\r\n")), 0, a)
    for name in sorted(SAMPLES.glob("*.card")):
        status, text, _ = lamp("show", name)
        refused = (SAMPLES / f"{name.stem}.out").read_bytes().startswith(b"refused")
        require(f"status of show {name.name}", status == (1 if refused else 0))
        if not refused:
            expect(f"card of show of {name.name}", lamp("card", "-", data=text), 0, name.read_bytes())
    bent = A_TEXT.replace(b"1 2 4", b"0 2 3")
    where = "F(0), F(1), F(2): 0 + 3 is below 2 times 2 (line 6, column 9)"
    expect("a refused show", lamp("card", "-", data=bent), 1, b"", "standard input: refused 7: table not convex", where)
    expect("a refused show in check", lamp("check", "-", data=bent), 1, f"refused 7: table not convex\n  {where}\n".encode())
    expect("show of a refused card", lamp("show", "-", data=card(table=(0, 2, 3))), 1, bent, "refused 7: table not convex")
    expect("show of a cut card", lamp("show", "-", data=a[:34]), 1, b"", "refused 5", "34 bytes where top 2 and 3 slots make 35")
    changed = lambda old, new: lamp("card", "-", data=A_TEXT.replace(old, new))
    expect("a wrong show", changed(b"top", b"tip"), 2, b"", "standard input: line 3, column 1: 'tip' is no field")
    expect("a rack too large for its byte", changed(b"les 3", b"les 300"), 2, b"", "line 2, column 9: '300' is too large")
    expect("a rack too large", changed(b"les 3", b"les 201"), 1, b"", "refused 3", "modules 201 (line 2, column 9)")
    expect("too many slots", changed(b"6 0 2", b"0\n" * 1025), 1, b"", "refused 4", "1,025 slots (line 1031, column 1)")


# A card for each refusal of 1 to 8.
REFUSED_CARDS = {
    1: b"",
    2: card(version=2, m=0),
    3: card(m=0),
    4: card(loads=(0,) * 1025),
    5: card() + b"\0",
    6: card(up=500000001),
    7: card(table=(0, 2, 3)),
    8: card(loads=(7,)),
}


def checks():
    expect("check", lamp("check", SAMPLES / "a.card"), 0, b"accepted: 3 modules, top step 2, 3 slots, warm-up 3, cool-down 2\n")
    for number, data in REFUSED_CARDS.items():
        status, out, err = lamp("check", "-", data=data)
        lines = out.decode().splitlines()
        require(f"check refuses by {number}", status == 1 and lines[0].startswith(f"refused {number}: ") and len(lines) > 1 and not err)
        expect(f"plan's words for {number}", (0, words_of_plan(data), b""), 0, b"bin/plan: " + lines[0].encode() + b"\n")
    high = card(loads=(7,) * 30)
    require("places are cut", lamp("check", "-", data=high)[1].endswith(b"slot 10: load 7, above 6, 3 times 2\n  and 20 more\n"))


def words_of_plan(data):
    """The first line that bin/plan prints to standard error."""
    said = subprocess.run([ROOT / "bin" / "plan"], input=data, capture_output=True).stderr
    return said.partition(b"\n")[0] + b"\n"


BOOK_CARDS = ("a", "backwards", "second", "joined", "rack-of-two", "rack-of-three", "rack-of-four", "several-least")
ACCEPTED = (*BOOK_CARDS, "e", "empty", "falls-first", "keep-burning", "v-shaped")
EXACT = b"# exact plan: no sheet that serves the show costs less\n"
COARSE = b"# coarse plan: at most twice the least cost, NOT the key of the exact plan\n"
BRIGHTER = "slots with more light than their load, which costs less at their counts: "


def keys():
    for name in ACCEPTED:
        wanted = (SAMPLES / f"{name}.out").read_bytes()
        status, out, err = lamp("key", SAMPLES / f"{name}.card")
        head, _, listing = out.partition(EXACT)
        brighter = f"# {BRIGHTER}2 to 3\n".encode() if name == "falls-first" else b""
        expect(f"key of {name}", (status, listing, err), 0, brighter + wanted)
        expect(f"show before the key of {name}", (0, head, b""), 0, lamp("show", SAMPLES / f"{name}.card")[1] + b"\n")
    coarse_keys()
    for command in ("key", "page", "picture"):
        refused = lamp(command, SAMPLES / "not-convex.card")
        expect(f"{command} of a refused card", refused, 1, b"", f"lamp: {SAMPLES}/not-convex.card: refused 7: table not convex")
    many = card(m=1, q=2, up=100, down=100, table=(5, 1, 9), loads=(1, 0, 0, 1) * 13)
    runs = f"{BRIGHTER}2 to 3, 6 to 7, 10 to 11, 14 to 15, 18 to 19, 22 to 23, 26 to 27, 30 to 31, 34 to 35, 38 to 39, and 6 more"
    require("many slots brighter than their load", f"\n# {runs}\ncost 252\n".encode() in lamp("key", "-", data=many)[1])
    beyond = card(m=200, loads=(3,) * 327)
    status, out, _ = lamp("key", "-", data=beyond)
    require("m 200, T 327", status == 0 and len(out.splitlines()) == 7 + 32 + 2 + 2 + 327)


def coarse_keys():
    """The coarse planner takes every accepted card, also one whose table falls."""
    brighter = f"# {BRIGHTER}2 to 3\n".encode()
    falling = b"cost 52\nplan 4 4 4 4\nslot 1: 2 2 2 1\nslot 2: 1 1 1 1\nslot 3: 1 1 1 1\nslot 4: 2 2 2 2\n"
    listings = {
        "e": b"cost 8\nplan 8 8 8\nslot 1: 1 1 1 1 1 0 0 0\nslot 2: 1 1 1 0 0 0 0 0\nslot 3: 1 1 1 1 1 0 0 0\n",
        "v-shaped": b"cost 2\nplan 2\nslot 1: 1 1\n",
        "falls-first": brighter + falling,
    }
    for name, wanted in listings.items():
        status, out, err = lamp("key", "--coarse", SAMPLES / f"{name}.card")
        head, _, listing = out.partition(COARSE)
        expect(f"coarse key of {name}", (status, listing, err), 0, wanted)
        expect(f"show before the coarse key of {name}", (0, head, b""), 0, lamp("show", SAMPLES / f"{name}.card")[1] + b"\n")
    for name, cost in {"v-shaped": b"2", "falls-first": b"52"}.items():
        for command in ("page", "picture"):
            status, out, err = lamp(command, "--coarse", SAMPLES / f"{name}.card")
            require(f"coarse {command} of {name}", status == 0 and b"Coarse plan, cost %s" % cost in out and not err)
    accepted = b"accepted: 2 modules, top step 2, 1 slot, warm-up 0, cool-down 0\n"
    expect("a falling table, checked", lamp("check", SAMPLES / "v-shaped.card"), 0, accepted)


E_GROUPS = ("--groups", "0,2,4,8", "--ratio", "2")
E_GROUP_KEY = b"""# show card, version 1, 3 slots
modules 8
top 1
warm-up 1
cool-down 0
table 0 0
loads 5 3 5

# group plan, limited to the counts 0, 2, 4, 8; NOT the key of the exact plan
# the least cost of any sheet is 5; this plan costs at most 2 times that
# made with --groups 0,2,4,8 --ratio 2
cost 8
plan 8 8 8
slot 1: 1 1 1 1 1 0 0 0
slot 2: 1 1 1 0 0 0 0 0
slot 3: 1 1 1 1 1 0 0 0
"""
A_GROUP_NOTES = b"""
# group plan, limited to the counts 0 to 1, 3; the same as the exact plan
# the least cost of any sheet is 32; this plan costs just that
# made with --groups 0,1,3 --ratio 2
"""
E_ALL_NOTES = b"""
# group plan, limited to the counts 0 to 8; the same as the exact plan
# the least cost of any sheet is 5; this plan costs just that
# made with --groups 0,1,2,3,4,5,6,7,8 --ratio 1
"""


def groups(counts, ratio):
    """The options of a plan limited to a list of counts."""
    return "--groups", ",".join(map(str, counts)), "--ratio", str(ratio)


def in_words(counts):
    """Ascending counts, with neighbours taken together."""
    runs = []
    for count in counts:
        if runs and runs[-1][1] + 1 == count:
            runs[-1][1] = count
        else:
            runs.append([count, count])
    return ", ".join(f"{first} to {last}" if first < last else f"{first}" for first, last in runs)


def likeness(same):
    """What a group plan is beside the exact one."""
    return "the same as the exact plan" if same else "NOT the key of the exact plan"


def bound(ratio, cost, least):
    """What is said of a group plan's cost before the words for the least."""
    return f"this plan costs at most {ratio} times" if cost > least else "this plan costs just"


def group_notes(counts, ratio, cost, least, same):
    """The first lines of a group plan's key between the show and the listing."""
    first = f"# group plan, limited to the counts {in_words(counts)}; {likeness(same)}\n"
    return f"{first}# the least cost of any sheet is {least:,}; {bound(ratio, cost, least)} that\n".encode()


def made_with(counts, ratio):
    """The last line of a group plan's key before the listing."""
    return f"# made with {' '.join(groups(counts, ratio))}\n".encode()


def cost_and_plan(key):
    """The lines of a key that begin its listing."""
    return re.search(rb"^cost (\d+)\nplan ?(.*)$", key, re.MULTILINE).groups()


def group_keys(folder):
    """The key of a plan limited to a list of counts, with its options in any place."""
    e, blanks = SAMPLES / "e.card", ("--groups", "0, 2,  4,8", "--ratio", "2")
    for words in ((e, *E_GROUPS), (*E_GROUPS, e), (*E_GROUPS[2:], e, *E_GROUPS[:2]), (*blanks, e), (*E_GROUPS, "--", e)):
        expect(f"group key by {words}", lamp("key", *words), 0, E_GROUP_KEY)
    expect("group key from standard input", lamp("key", "-", *E_GROUPS, data=e.read_bytes()), 0, E_GROUP_KEY)
    expect("group key of a show's text", lamp("key", *E_GROUPS, "-", data=lamp("show", e)[1]), 0, E_GROUP_KEY)
    expect("group key for a card", lamp("key", "-", data=E_GROUP_KEY), 2, b"", "this is a key, not a card")
    expect("group key for a sheet", lamp("mark", e, "-", data=E_GROUP_KEY), 2, b"", "a sheet is its lines from 'cost' on")
    for name, counts, ratio, notes in (("a", (0, 1, 3), 2, A_GROUP_NOTES), ("e", range(9), 1, E_ALL_NOTES)):
        path = SAMPLES / f"{name}.card"
        wanted = lamp("show", path)[1] + notes + (SAMPLES / f"{name}.out").read_bytes()
        expect(f"group key of {name}, which is the exact one", lamp("key", path, *groups(counts, ratio)), 0, wanted)
    group_plans(folder)


def group_plans(folder):
    """What a group plan costs and what is said of it, how its sheet is marked, and that the options in its key make it again."""
    made = {
        "free": card(m=4, q=1, up=0, down=0, table=(0, 0), loads=(1, 0, 2)),
        "rising": card(m=4, q=1, table=(1, 2), loads=(1, 3)),
        "dear": card(m=3, q=1, up=500, down=500, table=(0, 500), loads=(1,)),
        "e": (SAMPLES / "e.card").read_bytes(),
        "empty": card(loads=()),
        "falls": (SAMPLES / "falls-first.card").read_bytes(),
    }
    for name, counts, ratio, cost, plan, least, same in GROUP_PLANS:
        path, told = folder / f"{name} in groups.card", f"{name}, {counts}, ratio {ratio}"
        path.write_bytes(made[name])
        status, out, err = lamp("key", path, *groups(counts, ratio))
        head, _, listing = out.partition(group_notes(counts, ratio, cost, least, same))
        expect(f"show before the group key, {told}", (status, head, err), 0, lamp("show", path)[1] + b"\n")
        brighter, _, listing = listing.rpartition(b"cost ")
        more = f"# {BRIGHTER}2 to 3\n".encode() if name == "falls" else b""
        expect(f"more light, {told}", (0, brighter, b""), 0, more + made_with(counts, ratio))
        again = brighter.decode().partition("# made with ")[2].split()
        expect(f"made again, {told}", lamp("key", path, *again), 0, out)
        require(f"cost and plan, {told}", listing.decode().splitlines()[:2] == [str(cost), f"plan {plan}".rstrip()])
        marked = b"cost %d\nleast %d\nabove %d\n" % (cost, least, cost - least)
        expect(f"marks, {told}", lamp("mark", path, "-", data=b"cost " + listing), 0, marked)
        expect(f"points, {told}", lamp("explain", path, "-", data=b"cost " + listing), 0, explained(least, 0, 0, cost - least))


# Cards by their names, lists and ratios, with the cost and the plan limited to the list, the least cost, and whether it is the exact plan.
GROUP_PLANS = (
    ("e", (0, 2, 4, 8), 200, 8, "8 8 8", 5, False),
    ("e", (0, 5, 8), 5, 5, "5 5 5", 5, True),
    ("e", (0, 8), 8, 8, "8 8 8", 5, False),
    ("e", (0, 2, 6, 8), 2, 6, "6 6 6", 5, False),
    ("e", (0, 3, 6, 7, 8), 3, 6, "6 6 6", 5, False),
    ("free", (0, 2, 3, 4), 2, 0, "2 0 2", 0, False),
    ("rising", (0, 1, 3, 4), 2, 23, "1 3", 23, True),
    ("empty", (0, 1, 3), 2, 0, "", 0, True),
    ("falls", (0, 2, 4), 2, 52, "4 4 4 4", 48, False),
    ("dear", (0, 2, 3), 2, 2500, "2", 1500, False),
)


def groups_as_planners():
    """All counts with ratio 1 give the listing of the exact plan, and the powers of two with ratio 2 that of the coarse one."""
    cards_of = {name: (SAMPLES / f"{name}.card").read_bytes() for name in ACCEPTED}
    cards_of["200 modules"] = card(m=200, loads=tuple(37 * t % 401 for t in range(60)))
    cards_of["1,024 slots"] = card(m=20, loads=tuple(7 * t % 41 for t in range(1024)))
    for name, data in cards_of.items():
        powers = sorted({0, data[5], *(2**k for k in range(8) if 2**k < data[5])})
        least, exact = cost_and_plan(lamp("key", "-", data=data)[1])
        for notes, options, counts, ratio in ((EXACT, (), range(data[5] + 1), 1), (COARSE, ("--coarse",), powers, 2)):
            wanted = lamp("key", "-", *options, data=data)[1]
            cost, plan = cost_and_plan(wanted)
            wanted = wanted.replace(notes, group_notes(counts, ratio, int(cost), int(least), plan == exact))
            wanted = wanted.replace(b"\ncost ", b"\n" + made_with(counts, ratio) + b"cost ")
            expect(f"{name}, {in_words(counts)}, ratio {ratio}", lamp("key", "-", *groups(counts, ratio), data=data), 0, wanted)


RULES = f"refused 18: {tool_words(18)}\n"
# Lists and ratios against the rules on a rack of 8 modules, with the places that are told.
AGAINST_RULES = {
    ("0", "1"): ("the list has 1 entry; it has to have 2 to 201", "entry 1, the last, is 0; it has to be 8, the number of modules"),
    ("8", "8"): ("the list has 1 entry; it has to have 2 to 201", "entry 1 is 8; it has to be 0"),
    ("1,2,4,8", "2"): ("entry 1 is 1; it has to be 0",),
    ("2,4,8", "2"): ("entry 1 is 2; it has to be 0",),
    ("8,4,2,0", "2"): (
        "entry 1 is 8; it has to be 0",
        "entry 4, the last, is 0; it has to be 8, the number of modules",
        "entry 2 is 4; it has to be above entry 1, which is 8",
        "entry 3 is 2; it has to be above entry 2, which is 4",
        "entry 4 is 0; it has to be above entry 3, which is 2",
    ),
    ("0,2,4,7", "2"): ("entry 4, the last, is 7; it has to be 8, the number of modules",),
    ("0,2,4,9", "3"): ("entry 4, the last, is 9; it has to be 8, the number of modules",),
    ("0,2,4,264", "200"): ("entry 4, the last, is 264; it has to be 8, the number of modules",),
    ("0,2,4,8,8", "2"): ("entry 5 is 8; it has to be above entry 4, which is 8",),
    ("0,2,4,9,8", "3"): ("entry 5 is 8; it has to be above entry 4, which is 9",),
    ("0,0,8", "200"): ("entry 2 is 0; it has to be above entry 1, which is 0",),
    ("0,4,4,2,8", "4"): ("entry 3 is 4; it has to be above entry 2, which is 4", "entry 4 is 2; it has to be above entry 3, which is 4"),
    ("0,2,4,8", "0"): ("the ratio is 0; it has to be 1 to 200",),
    ("0,2,4,8", "201"): ("the ratio is 201; it has to be 1 to 200",),
    ("0,2,4,8", "258"): ("the ratio is 258; it has to be 1 to 200",),
    ("0,2,4,8", str(2**32 + 2)): ("the ratio is 4,294,967,298; it has to be 1 to 200",),
    ("0,2,4,8", str(2**64 - 1)): ("the ratio is 18,446,744,073,709,551,615; it has to be 1 to 200",),
    ("0,3,8", "2"): ("entry 2 is 3; the first entry after 0 has to be at most 2, the ratio",),
    ("0,8", "7"): ("entry 2 is 8; the first entry after 0 has to be at most 7, the ratio",),
    ("0,1,4,8", "2"): ("entry 3 is 4; the gap from 1 to 4 is 3, and it has to be at most 2, 2 times the gap from 0 to 1",),
    ("0,2,3,8", "2"): ("entry 4 is 8; the gap from 3 to 8 is 5, and it has to be at most 2, 2 times the gap from 2 to 3",),
    ("0,3,4,5,8", "2"): (
        "entry 2 is 3; the first entry after 0 has to be at most 2, the ratio",
        "entry 5 is 8; the gap from 5 to 8 is 3, and it has to be at most 2, 2 times the gap from 4 to 5",
    ),
    ("7,2,65535", "0"): (
        "entry 1 is 7; it has to be 0",
        "entry 3, the last, is 65,535; it has to be 8, the number of modules",
        "entry 2 is 2; it has to be above entry 1, which is 7",
        "the ratio is 0; it has to be 1 to 200",
    ),
}


def against_rules(name, found, places):
    """Compares a refusal by 18: nothing on standard output, and on standard error the refusal and these places alone."""
    told = "".join(f"  {place}\n" for place in places)
    expect(name, (found[0], found[1] + found[2], b""), 1, f"lamp: {RULES}{told}".encode())


def refused_groups():
    """A list or ratio against the rules is refused by 18 after the card, also without slots, and told by rule and entry."""
    slotless = card(m=8, loads=())
    for (counts, ratio), places in AGAINST_RULES.items():
        for name, data in (("E", (SAMPLES / "e.card").read_bytes()), ("no slots", slotless)):
            found = lamp("key", "-", "--groups", counts, "--ratio", ratio, data=data)
            against_rules(f"{name}, {counts}, ratio {ratio}", found, places)
    for command in ("page", "picture"):
        found = lamp(command, SAMPLES / "e.card", "--groups", "0,3,8", "--ratio", "2")
        against_rules(f"{command} of a list against the rules", found, AGAINST_RULES["0,3,8", "2"])
    for (number, data), options in itertools.product(REFUSED_CARDS.items(), (E_GROUPS, groups((1,), 0))):
        require(f"{number} before the list {options}", lamp("key", "-", *options, data=data) == lamp("key", "-", data=data))
    long, high = lamp("key", "-", *groups(range(202), 1), data=card(m=200)), "entry 202, the last, is 201"
    places = "the list has 202 entries; it has to have 2 to 201", f"{high}; it has to be 200, the number of modules"
    against_rules("202 entries", long, places)
    zeros = [f"entry {at} is 0; it has to be above entry {at - 1}, which is 0" for at in range(2, 13)]
    many = lamp("key", "-", *groups([0] * 13, 1), data=card(m=1, loads=()))
    against_rules("many places", many, ("entry 13, the last, is 0; it has to be 1, the number of modules", *zeros[:9], "and 3 more"))


def keeps_rules(counts, ratio, modules):
    """The rules of document 02 section 8 for a list of counts and its ratio."""
    gaps = [high - low for low, high in itertools.pairwise(counts)]
    ends = 2 <= len(counts) <= 201 and (counts[0], counts[-1]) == (0, modules)
    narrow = all(after <= ratio * before for before, after in itertools.pairwise(gaps))
    return ends and min(gaps) > 0 and 1 <= ratio <= 200 and counts[1] <= ratio and narrow


def rules_of_groups():
    """Every short list of small counts is planned if it keeps the rules, and else refused by 18 with a place at least. Only of a list that
    begins with 0 the first entry after 0 is told."""
    lists = [counts for length in (1, 2, 3) for counts in itertools.product(range(6), repeat=length)]
    lists += [counts for length in (4, 5) for counts in itertools.combinations(range(6), length)]
    for ratio in range(5):
        for counts in lists:
            status, out, err = lamp("key", "-", *groups(counts, ratio), data=card(m=4, loads=()))
            told = err.startswith(f"lamp: {RULES}  ".encode()) and not out
            found = (status, told) == ((0, False) if keeps_rules(counts, ratio, 4) else (1, True))
            ensure(f"{counts} and ratio {ratio}, which gives {status}, {err}", found)
            high = len(counts) > 1 and counts[0] == 0 and counts[1] > ratio > 0
            ensure(f"the first entry after 0 in {err}", (b"; the first entry after 0 has to be " in err) == high)
        require(f"the lists of ratio {ratio}", any(keeps_rules(counts, ratio, 4) for counts in lists) == (ratio > 0))


LIST_FORM = "; LIST is one word with commas, as 0,2,4,8"
NO_NUMBER = "is not a whole number in digits alone"
COMMAS = f"{NO_NUMBER}, without commas\n"
# What follows the card in a wrong use, and what is said of it.
WRONG_GROUPS = {
    ("--groups", "0,8"): "--groups needs --ratio RATIO beside it",
    ("--ratio", "8"): "--ratio needs --groups LIST beside it",
    ("--groups", "0,8", "--coarse"): "--groups needs --ratio RATIO beside it",
    ("--coarse", "--ratio", "8"): "--ratio needs --groups LIST beside it",
    (*E_GROUPS, "--coarse"): "--coarse and --groups are different planners",
    ("--ratio", "2", "--groups"): "--groups names no list",
    ("--groups", "", "--ratio", "2"): "--groups names no list",
    ("--groups", "0,8", "--ratio"): "--ratio names no ratio",
    ("--groups", "0,8", "--ratio", ""): "--ratio names no ratio",
    (*E_GROUPS, "--groups", "0,2,4,8"): "--groups names two lists",
    (*E_GROUPS, "--ratio", "2"): "--ratio names two ratios",
    ("--groups", "0,", "2,", "4,", "8", "--ratio", "2"): f"COUNT is empty (entry 2 of LIST){LIST_FORM}",
    ("--groups", ",0,8", "--ratio", "8"): f"COUNT is empty (entry 1 of LIST){LIST_FORM}",
    ("--groups", "0,,8", "--ratio", "8"): f"COUNT is empty (entry 2 of LIST){LIST_FORM}",
    ("--groups", "0, ,8", "--ratio", "8"): f"COUNT is empty (entry 2 of LIST){LIST_FORM}",
    ("--groups", "0 2 4 8", "--ratio", "2"): f"COUNT '0 2 4 8' {NO_NUMBER} (entry 1 of LIST){LIST_FORM}",
    ("--groups", " 0,8", "--ratio", "8"): f"COUNT ' 0' {NO_NUMBER} (entry 1 of LIST){LIST_FORM}",
    ("--groups", "0,8 ", "--ratio", "8"): f"COUNT '8 ' {NO_NUMBER} (entry 2 of LIST){LIST_FORM}",
    ("--groups", "0 ,8", "--ratio", "8"): f"COUNT '0 ' {NO_NUMBER} (entry 1 of LIST){LIST_FORM}",
    ("--groups", "0,\u00a08", "--ratio", "8"): f"COUNT '\u00a08' {NO_NUMBER} (entry 2 of LIST){LIST_FORM}",
    ("--groups", "0,2.5,8", "--ratio", "8"): f"COUNT 2.5 {NO_NUMBER} (entry 2 of LIST){LIST_FORM}",
    ("--groups", "0,2,x", "--ratio", "2"): f"COUNT x {NO_NUMBER} (entry 3 of LIST){LIST_FORM}",
    ("--groups", "0,-2,8", "--ratio", "2"): f"COUNT -2 {NO_NUMBER} (entry 2 of LIST){LIST_FORM}",
    ("--groups", "0..8", "--ratio", "1"): f"COUNT 0..8 {NO_NUMBER} (entry 1 of LIST){LIST_FORM}",
    ("--groups", "-2", "--ratio", "2"): f"COUNT -2 {NO_NUMBER} (entry 1 of LIST){LIST_FORM}",
    ("--groups", "--ratio", "2"): "--groups names no list",
    ("--groups", "--coarse"): "--groups names no list",
    ("--ratio", "--groups", "0,8"): "--ratio names no ratio",
    ("--groups", "0", "2", "4", "8", "--ratio", "2"): f"4 words where it takes CARD{LIST_FORM}",
    ("--groups", "0", "2,4,8", "--ratio", "2"): f"2 words where it takes CARD{LIST_FORM}",
    (*E_GROUPS, "a.card"): "2 words where it takes CARD",
    (*E_GROUPS, ""): "2 words where it takes CARD",
    ("8",): "2 words where it takes CARD",
    ("--groups", "0,08", "--ratio", "8"): "COUNT 08 begins with a needless 0 (entry 2 of LIST)",
    ("--groups", "0,65536,8", "--ratio", "8"): "COUNT 65536 is above 65,535 (entry 2 of LIST)",
    ("--groups", f"0,8,{2**64}", "--ratio", "8"): f"COUNT {2**64} is above 65,535 (entry 3 of LIST)",
    ("--groups", "0,8", "--ratio", str(2**64)): f"RATIO {2**64} is above 18,446,744,073,709,551,615",
    ("--groups", "0,8", "--ratio", "x"): f"RATIO x {NO_NUMBER}",
    ("--groups", "0,8", "--ratio", "1.5"): f"RATIO 1.5 {NO_NUMBER}",
    ("--groups", "0,8", "--ratio", "-8"): f"RATIO -8 {NO_NUMBER}",
    ("--groups", "0,8", "--ratio", "8 "): f"RATIO '8 ' {NO_NUMBER}",
    ("--groups", "0,8", "--ratio", "4.0"): f"RATIO 4.0 {NO_NUMBER}",
    ("--groups", "0,8", "--ratio", "1,000"): f"RATIO 1,000 {COMMAS[:-1]}",
    ("--groups", "0,8", "--ratio", "08"): "RATIO 08 begins with a needless 0",
    ("--groups=0,8", "--ratio", "8"): "no option --groups=0,8",
    (*E_GROUPS, "0"): f"2 words where it takes CARD{LIST_FORM}",
}


def wrong_groups():
    """Options for a list of counts that cannot be read, and commands that have none."""
    for command in ("key", "page", "picture"):
        usage = f"usage: lamp {command} CARD [--coarse]\n       lamp {command} CARD --groups LIST --ratio RATIO\n"
        for words, message in WRONG_GROUPS.items():
            found = lamp(command, SAMPLES / "e.card", *words)
            expect(f"{command} {words}", (found[0], found[1] + found[2], b""), 2, f"lamp: {command}: {message}\n{usage}".encode())
        require(f"the forms in the help of {command}", lamp(command, "--help")[1].startswith(f"{usage}{command}: ".encode()))
        require(f"the list in the help of {command}", f"\n  lamp {command} CARD --groups LIST --ratio RATIO ".encode() in lamp("--help")[1])
    for words in ("card a", "show a", "check a", "mark a b", "explain a b", "cost a 1 1", "round 1 1", "table 8", "practice 1"):
        command = words.split()[0]
        expect(f"{command} with a list", lamp(*words.split(), *E_GROUPS), 2, b"", f"{command}: no option --groups\nusage: lamp {command} ")


NO_LIST = "'lamp mark' and 'lamp explain' know no list of counts: marking accepts every count, and whoever allows only certain "
NO_LIST += "counts has to look at the counts of a sheet as well. "
SHOW_AND_PLAN = "prints the show, the plan, its cost and the sheet; without an option the cost is the least"
COARSE_COUNT = "gives the smallest count not below COUNT that the coarse planner allows"


def help_of_groups():
    """What the help says of plans limited to a list: nothing that holds of the exact plan alone, and an example of the command itself."""
    wrong = f"A count above 65,535, a RATIO above {2**64 - 1:,} and what is not digits alone are wrong use, status 2. "
    for command in ("key", "page", "picture"):
        told = lamp(command, "--help")[1].decode()
        require(f"the cost in the help of {command}", " times the least cost of any sheet, which is named beside it. " in one_line(told))
        require(f"wrong use in the help of {command}", wrong in one_line(told) and "told by entry" not in told)
        examples = re.findall(r"^    (lamp .*) # the rack of e\.card has 8 modules$", told, re.MULTILINE)
        require(f"one example in the help of {command}", len(examples) == told.count("\n    lamp ") == 1)
        made = lamp(command, "e.card", *E_GROUPS, cwd=SAMPLES)[1]
        expect(f"the example of {command}", shell(examples[0].replace("lamp", '"$0"', 1), cwd=SAMPLES), 0, made)
    require("the key in its help", lamp("key", "--help")[1].decode().splitlines()[2] == f"key: {SHOW_AND_PLAN}.")
    require("the coarse planner's counts", lamp("round", "--help")[1].decode().splitlines()[1] == f"round: {COARSE_COUNT}.")
    rows = dict(re.findall(r"^  lamp (\S+ .*?)  +(.*)$", lamp("--help")[1].decode(), re.MULTILINE))
    require("key and round in the help", (rows["key CARD [--coarse]"], rows["round COUNT MODULES"]) == (SHOW_AND_PLAN, COARSE_COUNT))
    for command in ("card", "show", "check", "cost", "round", "table", "practice", "key", "page", "picture", "mark", "explain"):
        said = NO_LIST in one_line(lamp(command, "--help")[1].decode())
        require(f"no list for marking, {command}", said == (command in ("key", "page", "picture", "mark", "explain")))


def one_line(text):
    return " ".join(text.split())


def readme_day():
    """README's section on the examiner's day."""
    return (ROOT / "README.md").read_text(encoding="utf-8").partition("## The examiner's day")[2].partition("\n## ")[0]


def readme_groups():
    """README's command, from its folder."""
    commands = re.findall(r"`(bin/lamp [^`]* --groups [^`]*)`", readme_day())
    require("README has one command with a list", len(commands) == 1)
    expect("README's key of a list", shell(commands[0], cwd=ROOT), 0, E_GROUP_KEY)


def course_book():
    """The commands that the course book's page prints give the costs and the plans beside them, and every card of the page has one."""
    page = (ROOT / "docs" / "COURSE-BOOK.md").read_text(encoding="utf-8")
    rows = re.findall(r"^\| [^|]* \| `(bin/[^`|]*)` \| (\d+) \| ([\d ]+) \|$", page, re.MULTILINE)
    costs = re.findall(r"^\| \d+ \| `(bin/lamp cost [^`|]*)` \| (\d+) \|$", page, re.MULTILINE)
    require("each command of the course book is in a row", len(rows) + len(costs) == len(re.findall("`bin/[^`]*samples/", page)))
    require("the course book has the running costs of three counts", len(costs) == 3)
    for command, cost in costs:
        printed = subprocess.run(command.split(), cwd=ROOT, capture_output=True, check=True).stdout
        require(f"the course book's {command}", printed == f"{cost}\n".encode())
    for command, cost, plan in rows:
        printed = subprocess.run(command.split(), cwd=ROOT, capture_output=True, check=True).stdout
        require(f"the course book's {command}", f"\ncost {cost}\nplan {plan}\n".encode() in b"\n" + printed)
    for name in BOOK_CARDS:
        require(f"the course book has {name}", any(command == f"bin/plan samples/{name}.card" for command, _, _ in rows))
    for sheet, cost in {b"2 -\n2 -\n": 4, b"2 -\n1 1\n": 4, b"1 1\n2 -\n": 4, b"1 1\n1 1\n": 4, b"2 -\n2 0\n": 5}.items():
        marked = lamp("mark", SAMPLES / "several-least.card", "-", data=sheet)
        expect(f"the course book's several-least, {sheet}", marked, 0, b"cost %d\nleast 4\nabove %d\n" % (cost, cost - 4))


def course_book_list():
    """The commands of the course book's list print the rounded counts beside them. Its cases have every count up to 200, each with its value in a
    rack of 200, and they stand in the page's sentence and in the help of `round` too."""
    page = (ROOT / "docs" / "COURSE-BOOK.md").read_text(encoding="utf-8")
    cases = re.findall(r"^\| ((\d+)(?: to (\d+))?) \| `bin/lamp round (\d+) 200` \| (\d+) \|$", page, re.MULTILINE)
    held = re.findall(r"^\| (\d+) \| `bin/lamp round \d+ \1` \| \d+ \|$", page, re.MULTILINE)
    rows = re.findall(r"`(bin/lamp round \d+ \d+)` \| (\d+) \|", page)
    require("each command of the list is in a row", len(cases) + len(held) == len(rows) == page.count("`bin/lamp round "))
    for command, rounded in rows:
        printed = subprocess.run(command.split(), cwd=ROOT, capture_output=True, check=True).stdout
        require(f"the course book's {command}", printed == f"{rounded}\n".encode())
    counts = []
    for case, first, last, shown, value in cases:
        numbers = range(int(first), int(last or first) + 1)
        require(f"the command of the case {case}", int(shown) in numbers)
        for count in numbers:
            expect(f"the case {case}, count {count}", lamp("round", str(count), "200"), 0, f"{value}\n".encode())
        counts += numbers
    require("the list has every count up to 200", counts == list(range(201)))
    told = lamp("round", "--help")[1].decode()
    for name, text in (("page", page), ("help", told)):
        require(f"the list in the {name}", f" {', '.join(case for case, *_ in cases)}" in " ".join(text.split()))
    for modules in ("200", "100"):
        require(f"an example of round, {modules}", f"\n    lamp round 70 {modules}    # {lamp('round', '70', modules)[1].decode()}" in told)


D_BYTES = bytes([2, 2, 2, 255, 0, 255, 2, 255, 255])


def marks():
    a, sheet = SAMPLES / "a.card", SAMPLES / "d.sheet"
    expect("D", lamp("mark", a, sheet), 0, b"cost 37\nleast 32\nabove 5\n")
    expect("D on the show's text", lamp("mark", SAMPLES / "a.show", sheet), 0, b"cost 37\nleast 32\nabove 5\n")
    expect("D without labels", lamp("mark", a, "-", data=b"2 2 2\n- 0 -\n2 - -\n"), 0, b"cost 37\nleast 32\nabove 5\n")
    expect("the listing", lamp("mark", a, SAMPLES / "a.out"), 0, b"cost 32\nleast 32\nabove 0\n")
    expect("D as bytes", lamp("mark", "--bytes", a, "-", data=D_BYTES), 0, b"cost 37\nleast 32\nabove 5\n")
    expect("no slot", lamp("mark", SAMPLES / "empty.card", "-"), 0, b"cost 0\nleast 0\nabove 0\n")
    more_light()


D_EXPLAINED = b"""cost 37: this is what the sheet costs
least 32: no sheet that serves the show costs less
above 5: the sheet costs 5 points more than the least, for spread, swaps and counts together
spread 0: with the same modules active in the same slots, no other steps give enough light for less
swaps 5: with as many modules active in each slot as here, another choice of which ones would save 5 points of warm-ups and cool-downs
counts 0: the cheapest sheet with as many active modules in each slot as this one costs the least
"""
MORE_EXPLAINED = b"""cost 43: this is what the sheet costs
least 32: no sheet that serves the show costs less
above 11: the sheet costs 11 points more than the least, for spread, swaps and counts together
spread 1: with the same modules active in the same slots, other steps would give enough light for 1 point less
swaps 5: with as many modules active in each slot as here, another choice of which ones would save 5 points of warm-ups and cool-downs
counts 5: even the cheapest sheet with as many active modules in each slot as this one costs 5 points more than the least
"""
SENTENCES = {
    "above": ("the sheet costs the least", "the sheet costs {} more than the least, for spread, swaps and counts together"),
    "spread": (
        "with the same modules active in the same slots, no other steps give enough light for less",
        "with the same modules active in the same slots, other steps would give enough light for {} less",
    ),
    "swaps": (
        "with as many modules active in each slot as here, no other choice of which ones saves on warm-ups and cool-downs",
        "with as many modules active in each slot as here, another choice of which ones would save {} of warm-ups and cool-downs",
    ),
    "counts": (
        "the cheapest sheet with as many active modules in each slot as this one costs the least",
        "even the cheapest sheet with as many active modules in each slot as this one costs {} more than the least",
    ),
}


def explained(least, *parts):
    """What `explain` prints of a sheet with these points for spread, swaps and counts."""
    above = sum(parts)
    text = f"cost {least + above}: this is what the sheet costs\nleast {least}: no sheet that serves the show costs less\n"
    for (name, (none, some)), number in zip(SENTENCES.items(), (above, *parts)):
        points = f"{number} point{'' if number == 1 else 's'}"
        text += f"{name} {number}: {some.format(points) if number else none}\n"
    return text.encode()


# Sheets of card A: each of the three parts above 0 alone, each pair of them, all three, and none.
PARTS = {
    b"2 2 2\n1 - -\n2 - -\n": (1, 0, 0),
    b"2 2 2\n- 0 -\n2 - -\n": (0, 5, 0),
    b"2 2 2\n- - -\n2 - -\n": (0, 0, 4),
    b"2 2 2\n- 1 -\n2 - -\n": (1, 5, 0),
    b"2 2 2\n- - -\n2 0 -\n": (1, 0, 9),
    b"2 2 2\n- 0 -\n1 - 1\n": (0, 5, 5),
    b"2 2 2\n- 0 -\n2 - 0\n": (1, 5, 5),
    b"2 2 2\n- 0 -\n- 2 -\n": (0, 0, 0),
}


def explanations():
    """Where the points of a sheet went. The planner's sheets lose none by spread and swaps, and the exact one none at all."""
    a, sheet = SAMPLES / "a.card", SAMPLES / "d.sheet"
    expect("D explained", lamp("explain", a, sheet), 0, D_EXPLAINED)
    expect("D explained on the show's text", lamp("explain", SAMPLES / "a.show", sheet), 0, D_EXPLAINED)
    expect("D explained without labels", lamp("explain", a, "-", data=b"2 2 2\n- 0 -\n2 - -\n"), 0, D_EXPLAINED)
    expect("D explained as bytes", lamp("explain", "--bytes", a, "-", data=D_BYTES), 0, D_EXPLAINED)
    expect("D with step 0 for its last byte", lamp("explain", "--bytes", a, "-", data=D_BYTES[:8] + b"\0"), 0, MORE_EXPLAINED)
    expect("the listing explained", lamp("explain", a, SAMPLES / "a.out"), 0, explained(32, 0, 0, 0))
    expect("no slot explained", lamp("explain", SAMPLES / "empty.card", "-"), 0, explained(0, 0, 0, 0))
    for text, parts in PARTS.items():
        marked = b"cost %d\nleast 32\nabove %d\n" % (32 + sum(parts), sum(parts))
        expect(f"marks of {text}", lamp("mark", a, "-", data=text), 0, marked)
        expect(f"points of {text}", lamp("explain", a, "-", data=text), 0, explained(32, *parts))
    for sheet_of, parts in {b"2 -\n2 -\n": (0, 0, 0), b"1 1\n2 -\n": (0, 0, 0), b"2 -\n2 0\n": (1, 0, 0)}.items():
        found = lamp("explain", SAMPLES / "several-least.card", "-", data=sheet_of)
        expect(f"several least plans, {sheet_of}", found, 0, explained(4, *parts))
    for name, least, cost in (("e", 5, 8), ("falls-first", 48, 52), ("v-shaped", 2, 2)):
        path = SAMPLES / f"{name}.card"
        coarse = lamp("key", "--coarse", path)[1].partition(COARSE)[2]
        expect(f"the coarse sheet of {name}", lamp("explain", path, "-", data=coarse), 0, explained(least, 0, 0, cost - least))
    dear = lamp("explain", "-", sheet, data=card(up=500000000, down=500000000))
    expect("dear swaps", dear, 0, explained(3000000017, 0, 10**9, 0))
    require("their points in one form on the line", b"\nswaps 1000000000: " in dear[1] and b" would save 1000000000 points of " in dear[1])


def readme_explains(folder):
    """README's line, on the card of its day."""
    lines = [line for line in readme_day().splitlines() if "bin/lamp explain" in line]
    require("README explains a sheet in one line", len(lines) == 1 and lines[0].startswith("    bin/lamp explain a.card "))
    place = new_folder(folder, "day")
    for name in ("bin", "samples"):
        (place / name).symlink_to(ROOT / name)
    shutil.copy(SAMPLES / "a.card", place)
    expect("README's line", shell(lines[0], cwd=place), 0, D_EXPLAINED)


def more_light():
    """A sheet with more light than the loads is accepted, and each step is charged as it stands, also where a higher one costs less."""
    a, falling = SAMPLES / "a.card", SAMPLES / "falls-first.card"
    light = WORDS[2].encode()
    for name, path, text, cost, least, parts in (
        ("slot 3 of D", a, b"2 2 2\n- 0 -\n2 - 1\n", 44, 32, (2, 5, 5)),
        ("slot 2 of D", a, b"2 2 2\n- 1 -\n2 - -\n", 38, 32, (1, 5, 0)),
        ("all at the top", a, b"2 2 2\n2 2 2\n2 2 2\n", 51, 32, (16, 0, 3)),
        ("the planner's sheet", falling, b"3 2 2 -\n1 1 1 -\n1 1 1 -\n3 3 2 -\n", 48, 48, (0, 0, 0)),
        ("the loads and no more", falling, b"3 2 2 -\n1 1 0 -\n0 0 0 -\n3 3 2 -\n", 64, 48, (16, 0, 0)),
        ("another step that costs the same", falling, b"3 2 2 -\n2 2 2 -\n1 2 1 -\n3 3 2 -\n", 48, 48, (0, 0, 0)),
        ("the top step in dark slots", falling, b"3 2 2 -\n3 3 3 -\n3 3 3 -\n3 3 2 -\n", 66, 48, (18, 0, 0)),
    ):
        bytes_of = bytes(255 if step == "-" else int(step) for step in text.decode().split())
        marks_of = b"cost %d\nleast %d\nabove %d\n" % (cost, least, cost - least)
        for command, wanted in {"mark": marks_of, "explain": explained(least, *parts)}.items():
            expect(f"{command}, more light: {name}", lamp(command, path, "-", data=text), 0, wanted)
            expect(f"{command}, more light, as bytes: {name}", lamp(command, "--bytes", path, "-", data=bytes_of), 0, wanted)
    darker = b"3 2 2 -\n1 0 0 -\n0 0 0 -\n3 3 1 -\n"
    places = b"  slot 2: light 1 where the load is 2, 1 too little (line 2)\n  slot 4: light 7 where the load is 8, 1 too little (line 4)\n"
    expect("one step darker", lamp("mark", falling, "-", data=darker), 1, light + places)
    mixed = b"3 3 3 3\n3 3 3 3\n3 3 3 3\n1 1 1 -\n"
    place = b"  slot 4: light 3 where the load is 8, 5 too little (line 4)\n"
    expect("much light before a dark slot", lamp("mark", falling, "-", data=mixed), 1, light + place)


def refused_sheets(command):
    """A command on a sheet says why the card or the sheet is refused, and where."""
    a, sheet = SAMPLES / "a.card", SAMPLES / "d.sheet"
    for number, data in REFUSED_CARDS.items():
        expect(f"{command} of a card refused by {number}", lamp(command, "-", sheet, data=data), 1, lamp("check", "-", data=data)[1])
    bent = A_TEXT.replace(b"1 2 4", b"0 2 3")
    expect(f"{command} of a refused show", lamp(command, "-", sheet, data=bent), 1, lamp("check", "-", data=bent)[1])
    length, entry, light = (line.encode() for line in WORDS)
    refusals = {
        b"2 2 2\n- 0\n2 - -\n": length + b"  slot 2: 2 steps where the rack has 3 modules (line 2)\n",
        b"2 2 2 - 0 -\n2 - -\n": length + b"  slot 1: 6 steps where the rack has 3 modules (line 1)\n",
        b"2 2 2\n- 0 -\n": length + b"  2 slots where the show has 3\n",
        b"2 2 2 # first\r2 2 2\n- 0 -\n2 - -\n": length + b"  4 slots where the show has 3\n",
        b"slot 1: 2 2 2\nslot 2:\nslot 3: 2 - -\n": length + b"  slot 2: 0 steps where the rack has 3 modules (line 2)\n",
        b"2 2 2\n- 0 -\n2 - -\nslot 4:\n": length + b"  4 slots where the show has 3\n",
        b"2 2 2\n- 0 -\n2 - -\n- - -\n- -\n": length + b"  5 slots where the show has 3\n",
        b"2 2 2\n- 0 -\n2 - -\n2 -\n": length + b"  4 slots where the show has 3\n",
        b"2 2 2\n- 3 -\n2 - 9\n": entry
        + b"  slot 2, module 2: step 3, above 2 (line 2, column 3)\n  slot 3, module 3: step 9, above 2 (line 3, column 5)\n",
        b"2 2 1\n- 1 -\n0 - -\n": light
        + b"  slot 1: light 5 where the load is 6, 1 too little (line 1)\n  slot 3: light 0 where the load is 2, 2 too little (line 3)\n",
    }
    for text, wanted in refusals.items():
        expect(f"{command}: sheet {text!r}", lamp(command, a, "-", data=text), 1, wanted)
    short = b"  8 bytes where 3 slots and 3 modules make 9\n"
    expect(f"{command}: eight bytes", lamp(command, a, "-", "--bytes", data=D_BYTES[:8]), 1, length + short)
    looks = b"  10 bytes where 3 slots and 3 modules make 9; it looks like typed text, which is read without --bytes\n"
    expect(f"{command}: text as bytes", lamp(command, a, "-", "--bytes", data=b"2 2 2\n- 0\n"), 1, length + looks)


def no_sheets(command):
    """What is no sheet, or stands in its place, is told."""
    a, sheet = SAMPLES / "a.card", SAMPLES / "d.sheet"

    def told(name, path, hint, data=b"", before=a):
        expect(f"{command}: {name}", lamp(command, before, path, data=data), 2, b"", hint)

    told("bytes without --bytes", "-", "this is not text; a sheet as bytes is read with --bytes", D_BYTES)
    told("a step too large", "-", "line 1, column 5: '255' is too large for a step", b"2 2 255\n")
    told("a card for a sheet", a, "this is a card, not a sheet")
    told("a show for a sheet", SAMPLES / "a.show", "this is a show, not a sheet")
    told("a key for a sheet", "-", "this is a key; a sheet is its lines from 'cost' on", lamp("key", a)[1])
    told("hex for a sheet", SAMPLES / "a.hex", "this is hex text, not a sheet")
    told("a page for a sheet", "-", "this is a page or a picture, not a sheet", lamp("page", a)[1])
    told("a sheet in UTF-16", "-", "save it as UTF-8", "2 2 2\n".encode("utf-16"))
    latin = b"# M\xfcller\n2 2 2\n- 0 -\n2 - -\n"
    told("a sheet in Latin-1", "-", "line 1, column 4: the byte FC is not UTF-8; save the text as UTF-8", latin)
    told("card and sheet swapped", a, "this looks like a sheet; the card is named before it", before=sheet)
    told("a plain sheet for a card", a, "this looks like a sheet", b"22 11 10\n11 10 22\n", "-")
    told("no such sheet", SAMPLES / "none.sheet", "none.sheet: No such file or directory")


WORDS = [f"refused {number}: {tool_words(number)}\n" for number in (11, 12, 13)]


def numbers():
    a = SAMPLES / "a.card"
    expect("B", lamp("cost", a, "3", "4"), 0, b"8\n")
    expect("C", lamp("cost", a, "2", "5"), 1, b"", "refused 13", "2 modules can give 4 steps, not 5")
    expect("C, count 0", lamp("cost", a, "0", "0"), 0, b"0\n")
    falling = SAMPLES / "falls-first.card"
    for count, load, cost in ((3, 2, 6), (3, 0, 6), (1, 0, 2), (1, 2, 2), (1, 3, 5), (3, 8, 12), (4, 12, 20), (0, 0, 0)):
        expect(f"a falling table, {count} and {load}", lamp("cost", falling, str(count), str(load)), 0, b"%d\n" % cost)
    few = "refused 13: a slot has too little light, or a count cannot serve its load\n  1 module can give 3 steps, not 4\n"
    expect("a falling table, too few modules", lamp("cost", falling, "1", "4"), 1, b"", few)
    expect("a count above the rack", lamp("cost", a, "4", "0"), 1, b"", "refused 12", "count 4 in a rack of 3 modules")
    expect("cost on a refused card", lamp("cost", SAMPLES / "not-convex.card", "1", "1"), 1, b"", "refused 7: table not convex")
    expect("a load that is no number", lamp("cost", a, "3", "x"), 2, b"", f"LOAD x {NO_NUMBER}")
    expect("a load that is a dash", lamp("cost", a, "3", "-"), 2, b"", f"LOAD - {NO_NUMBER}")
    expect("a needless zero", lamp("cost", a, "03", "4"), 2, b"", "COUNT 03 begins with a needless 0")
    expect("a count of 21 digits", lamp("cost", a, "1" * 21, "0"), 2, b"", f"COUNT {'1' * 21} is above 18,446,744,073,709,551,615")
    expect("a count with a comma", lamp("cost", a, "1,000", "4"), 2, b"", f"COUNT 1,000 {COMMAS}")
    expect("a count with a blank", lamp("round", "5 ", "6"), 2, b"", f"COUNT '5 ' {NO_NUMBER}\n")
    expect("a count that looks like a range", lamp("round", "1-3", "6"), 2, b"", f"COUNT 1-3 {NO_NUMBER}\n")
    expect("round", lamp("round", "5", "6"), 0, b"6\n")
    expect("round above the rack", lamp("round", "7", "6"), 1, b"", "refused 12", "count 7 in a rack of 6 modules")
    expect("round, rack", lamp("round", "7", "201"), 1, b"", "refused 3")
    expect("round, largest number", lamp("round", str(2**64 - 1), "200"), 1, b"", "refused 12")
    expect("round, beyond it", lamp("round", str(2**64), "200"), 2, b"", "COUNT 18446744073709551616 is above")


def wrong_use(folder):
    usage = "usage: lamp COMMAND"
    expect("no command", lamp(), 2, b"", usage)
    expect("no such command", lamp("plan", "x"), 2, b"", "'plan' is no command", usage)
    expect("a dash for a command", lamp("-"), 2, b"", "'-' is no command", usage)
    sheets = ("mark a", "mark --coarse a b", "explain", "explain a", "explain a b c", "explain --coarse a b", "explain a b --into c")
    others = ("key", "key a b", "cost a 1", "round 1", "table", "key --bytes a", "check --coarse a", "page a --course")
    for words in (*sheets, *others):
        expect(f"wrong use {words}", lamp(*words.split()), 2, b"", f"usage: lamp {words.split()[0]} ")
    for command in ("mark", "explain"):
        expect(f"standard input twice for {command}", lamp(command, "-", "-"), 2, b"", f"{command}: standard input can be read once only")
    require("help", lamp("--help")[0] == 0 and lamp("help")[1] == lamp("-h")[1] == lamp("--help")[1])
    for command in ("card", "practice", "table", "show", "check", "key", "page", "picture", "mark", "explain", "cost", "round"):
        status, out, err = lamp(command, "--help")
        require(f"help of {command}", status == 0 and out.startswith(f"usage: lamp {command} ".encode()) and not err)
        require(f"{command} is in the help", f"\n  lamp {command} ".encode() in lamp("--help")[1])
    require("the sheet in the help of explain", A_SHEET in lamp("explain", "--help")[1] and A_SHEET in lamp("mark", "--help")[1])
    for name in ("spread", "swaps", "counts"):
        require(f"{name} in the help of explain", f"\n    {name:7} what ".encode() in lamp("explain", "--help")[1])
    require("the practice forms", lamp("practice", "--help")[1].startswith(PRACTICE_USAGE.encode()))
    require("a practice example", b"\n    lamp practice 1950 > 1950.card " in lamp("practice", "--help")[1])
    require("the practice forms in the help", b"\n  lamp practice FIRST..LAST --into DIR " in lamp("--help")[1])
    expect("a file called --help", lamp("check", "--", "--help", cwd=folder), 2, b"", "--help: No such file or directory")
    expect("no such file", lamp("check", folder / "none"), 2, b"", "none: No such file or directory")
    expect("a directory", lamp("check", folder), 2, b"", "a directory, not a file")
    expect("a directory as standard input", folder_as_input(folder), 2, b"", "a directory")
    expect("closed standard input", shell('exec "$0" check - <&-'), 2, b"", "standard input: it is closed")
    odd = folder / "-a b\n<&>.card"
    shutil.copy(SAMPLES / "a.card", odd)
    shutil.copy(SAMPLES / "a.card", folder / "-")
    require("a file called -", b"<title>Least cost 32. -: 3 modules" in lamp("picture", "./-", cwd=folder)[1])
    require("a file with an odd name", lamp("check", "--", odd.name, cwd=folder)[0] == 0)
    require("its name in a picture", b"-a b\\n&lt;&amp;&gt;.card" in lamp("picture", "--", odd.name, cwd=folder)[1])


A_SHEET = b"""
SHEET has a line a slot, with a step or - (off) for each module, as '2 2 -'. A line may begin with
'slot 3:', and the cost and plan of a listing may stand before the first slot.
--bytes  SHEET is a byte for each slot and module, 255 for off.
Prints the sheet's cost, the least cost and the points above it, """


def folder_as_input(folder):
    source = os.open(folder, os.O_RDONLY)
    ended = subprocess.run([LAMP, "check", "-"], stdin=source, capture_output=True)
    os.close(source)
    return ended.returncode, ended.stdout, ended.stderr


def other_kinds(folder):
    hints = {
        "hex": ((SAMPLES / "a.hex").read_bytes(), "this is hex text; bin/card makes a card of it"),
        "hex without blanks": (card().hex().encode(), "this is hex text; bin/card makes a card of it"),
        "a listing": ((SAMPLES / "a.out").read_bytes(), "this is a listing, not a card"),
        "a refusal": (b"refused 7\n", "this is a refusal"),
        "a sheet": ((SAMPLES / "d.sheet").read_bytes(), "this looks like a sheet"),
        "Latin-1": (b"# Pr\xfcfung\n" + A_TEXT, "standard input: line 1, column 5: the byte FC is not UTF-8"),
        "a NUL in a text": (A_TEXT.replace(b"6 0", b"6\0 0"), "line 7, column 8: the character \\u{0} is no plain blank"),
        "UTF-16 without its mark": (A_TEXT.decode().encode("utf-16-le"), "save it as UTF-8"),
        "a page": (lamp("page", SAMPLES / "a.card")[1], "this is a page or a picture"),
        "a picture": (lamp("picture", SAMPLES / "a.card")[1], "this is a page or a picture"),
        "UTF-16": (A_TEXT.decode().encode("utf-16"), "save it as UTF-8"),
        "a key": (lamp("key", SAMPLES / "a.card")[1], "this is a key, not a card"),
        "a line in a comment": (A_TEXT.replace(b"6 0 2", "6 # \u2028 0 2".encode()), "line 7, column 11: the character \\u{2028} is"),
        "a direction in a comment": (A_TEXT.replace(b"6 0 2", "6 0 2 # \u200f".encode()), "line 7, column 15: the character \\u{200f}"),
        "a byte after a carriage return": (b"modules 3\r\xff", "line 2, column 1: the byte FF is not UTF-8"),
        "too long": (card() + b"\0" * MOST, f"more than {MOST:,} bytes"),
    }
    for name, (data, hint) in hints.items():
        expect(f"{name} for a card", lamp("key", "-", data=data), 2, b"", hint)
    plain = A_TEXT + "# it's \"quoted\" \\ Pr\u00fcfung \u65e5\u672c e\u0301\n".encode()
    expect("a comment in any language", lamp("show", "-", data=plain), 0, A_TEXT)
    few = card(m=200, q=100, up=0x7E7E7E, down=0x7E7E7E, table=(949886,) * 101, loads=(20000,) * 1024)
    require("a card with a wrong mark and few zeros", lamp("check", "-", data=b"DLX" + few[3:])[1].startswith(b"refused 1: "))
    zeros = lamp("mark", SAMPLES / "a.card", "-", data=b"\2\0" * 4)
    expect("a sheet of bytes with every second zero", zeros, 2, b"", "a sheet as bytes is read with --bytes")
    others = lamp("key", "-", data=bytes(range(256)))
    expect("some other bytes", others, 1, b"", "refused 1", "256 bytes, beginning with 00 01 02 and not with 44 4C 53 (DLS)")
    a = SAMPLES / "a.card"
    expect("a long sheet", lamp("mark", a, "-", data=b"2 " * (1 << 20) + b"2"), 2, b"", "more than 2,097,152 bytes")
    expect("a long sheet of bytes", lamp("mark", "--bytes", a, "-", data=b"\2" * 204801), 2, b"", "more than 204,800 bytes")
    endless = shell('yes "# and so on" | "$0" key -')
    expect("input without end", endless, 2, b"", "more than 65,536 bytes")


def shell(command, **more):
    """Runs a line of sh; `$0` is the tool and `$1` the folder of samples."""
    ended = subprocess.run(["sh", "-c", command, LAMP, SAMPLES], capture_output=True, **more)
    return ended.returncode, ended.stdout, ended.stderr


def to_closed_pipe(line):
    """Runs a line of sh whose output is a pipe that nobody reads."""
    reading, writing = os.pipe()
    os.close(reading)
    ended = subprocess.run(["sh", "-c", line, LAMP, SAMPLES], stdout=writing, stderr=subprocess.PIPE)
    os.close(writing)
    return ended.returncode, b"", ended.stderr


COMMANDS = ("card", "show", "check", "key", "page", "picture")
CARD = '"$1/a.card"'


def lost_output(folder):
    """What cannot be written whole has status 2."""
    others = {"practice": "1950", "table": "8", "cost": '"$1/a.card" 3 4', "round": "5 6", "--help": ""}
    others.update(dict.fromkeys(("mark", "explain"), '"$1/a.card" "$1/d.sheet"'))
    for command in (*COMMANDS, *others):
        line = f'"$0" {command} {others.get(command, CARD)}'
        expect(f"{command} to a full device", shell(f"{line} > /dev/full"), 2, b"", "was not written whole: No space left on device")
        expect(f"{command} to a closed output", shell(f"{line} >&-"), 2, b"", "was not written whole: Bad file descriptor")
        expect(f"{command} to a closed pipe", to_closed_pipe(line), 2, b"", "was not written whole: Broken pipe")
        limited = shell(f"ulimit -f 0; {line} > limited", cwd=folder)
        expect(f"{command} to a file too large", limited, 2, b"", "was not written whole: File too large")
    closed = shell('"$0" key nofile >&- 2>&-')
    expect("nothing can be said", closed, 2, b"")
    small_disk(folder)


def small_disk(folder):
    """A file system of 16 kB: the page of a large card does not fit, nor do nine cards."""
    (folder / "large.card").write_bytes(card(m=200, loads=(90,) * 300))
    (folder / "disk").mkdir()
    full = "No space left on device"
    on_disk(folder, '"$0" page ../large.card > key.html', b"key.html\n", f"was not written whole: {full}", "status 2")
    on_disk(folder, '"$0" practice 1..9 --into .', b"", f"{full}; nothing was written", "status 2")
    on_disk(folder, '"$0" practice 1..3 --into .', b"1.card\n2.card\n3.card\n", "status 0")
    line = '"$0" practice 1..2 --into . && mount -o remount,ro . && "$0" practice 1..2 --into . && echo both && "$0" practice 2..3 --into .'
    on_disk(folder, line, b"both\n1.card\n2.card\n", ".: Read-only file system; nothing was written", "status 2")


def on_disk(folder, line, left, *complaints):
    """Runs a line in a new file system of 16 kB, lists its files, and prints the line's status to standard error."""
    mounted = f'mount -t tmpfs -o size=16k none disk && cd disk && {{ {line}; echo "status $?" >&2; ls; }}'
    found = shell(f"unshare -m sh -c '{mounted}' \"$0\"", cwd=folder)
    if b"status" not in found[2]:
        print(f"tool: skipped, no small file system can be made here: {found[2].decode().strip()}")
        return
    expect(f"a small file system: {line}", found, 0, left, *complaints)


def practice_cards():
    """Practice cards for standard output are those of the plain generator."""
    printed = b"1950: 44 4C 53 01 00 60 03 00 00 BE 01 00 00 02 02 00 00 AA 01 00 00 AD 01 00 00 B2 01 00 00 BA 01 00 00\n"
    printed += b"4294967255: 44 4C 53 01 00 76 02 01 00 17 00 00 00 7B 02 00 00 F5 02 00 00 FA 02 00 00 02 03 00 00 C5 00\n"
    plain = subprocess.run([sys.executable, ROOT / "tests" / "practice.py", "1950", "4294967255"], capture_output=True)
    expect("the plain generator", (plain.returncode, plain.stdout, plain.stderr), 0, printed)
    for number in (*range(1, 41), 1950, 6548, 4294967255, 4294967295):
        expect(f"practice card {number}", lamp("practice", str(number)), 0, practice_card(number))
    accepted = b"accepted: 118 modules, top step 2, 1 slot, warm-up 23, cool-down 635\n"
    expect("a practice card, checked", shell('"$0" practice 4294967255 | "$0" check -'), 0, accepted)
    expect("a practice card, coarse", shell('"$0" practice 6548 | "$0" key --coarse - | grep -c "^slot "'), 0, b"64\n")


def catalogue(top):
    """The catalogue module's table by the rule of document 02 section 5."""
    return [400 + 3 * k + k * (k - 1) // 2 for k in range(top + 1)]


def table_text(top):
    """The table as `lamp show` writes it: on one line, or ten numbers a line with a comment that says which they are."""
    numbers = [str(entry) for entry in catalogue(top)]
    if top < 10:
        return f"table {' '.join(numbers)}\n".encode()
    width, lines = len(numbers[-1]), ""
    for at in range(0, top + 1, 10):
        last = min(at + 9, top)
        shown = " ".join(number.rjust(width) for number in numbers[at : last + 1]).ljust(10 * width + 9)
        lines += f"{'table' if at == 0 else '     '} {shown}  # F({at}){f' to F({last})' if last > at else ''}\n"
    return lines.encode()


def show_of(top, table, order=range(6)):
    """A show's text with its fields in an order."""
    fields = (b"modules 3", b"top %d" % top, b"warm-up 3", b"cool-down 2", table.rstrip(b"\n"), b"loads 3 0 2")
    return b"".join(fields[at] + b"\n" for at in order)


RACK = "refused 3: modules or top step outside 1 to 200\n"
TABLE_USAGE = "usage: lamp table TOP\n"
WRONG_TABLE = {
    (): ("table: 0 words where it takes TOP", TABLE_USAGE),
    ("1", "2"): ("table: 2 words where it takes TOP", TABLE_USAGE),
    ("",): ("TOP is empty",),
    ("x",): (f"TOP x {NO_NUMBER}\n",),
    ("-",): (f"TOP - {NO_NUMBER}\n",),
    ("catalogue",): (f"TOP catalogue {NO_NUMBER}\n",),
    ("1,0",): (f"TOP 1,0 {COMMAS}",),
    ("8 ",): (f"TOP '8 ' {NO_NUMBER}\n",),
    ("1..8",): (f"TOP 1..8 {NO_NUMBER}\n",),
    ("08",): ("TOP 08 begins with a needless 0\n",),
    ("-8",): ("table: no option -8", TABLE_USAGE),
    ("8", "--coarse"): ("table: no option --coarse", TABLE_USAGE),
    ("8", "--into", "."): ("table: no option --into", TABLE_USAGE),
    (str(2**64),): ("TOP 18446744073709551616 is above 18,446,744,073,709,551,615\n",),
}


def tables():
    """The command `table`, for every top and for others."""
    for top in range(1, 201):
        expect(f"table {top}", lamp("table", str(top)), 0, table_text(top))
    for top in (0, 201, 202, 255, 256, 257, 2**16 + 8, 2**32 + 8, 2**63 + 8, 2**64 - 1):
        expect(f"table {top}", lamp("table", str(top)), 1, b"", f"lamp: {RACK}  top {top:,}\n")
    for words, complaints in WRONG_TABLE.items():
        expect(f"table {words}", lamp("table", *words), 2, b"", *complaints)
    expect("the table's help", lamp("table", "8", "--help"), 0, lamp("table", "--help")[1])
    require("an example of table", b"\n    lamp table 8    # " + lamp("table", "8")[1] in lamp("table", "--help")[1])
    for command in ("card", "table"):
        require(f"the word in the help of {command}", b"'table catalogue'" in lamp(command, "--help")[1])
    require("what the table is for", b" so that the lines can be copied into a show's text." in lamp("table", "--help")[1])
    for words in (["--help"], ["check", "--help"], ["mark", "--help"]):
        require(f"a show's text in {words}", b" a show's text, as 'lamp card --help' describes it;" in lamp(*words)[1])


def catalogue_shows():
    """A show's text with the word makes the card that the printed numbers make, byte for byte, in every order of its fields."""
    for top in (1, 2, 9, 10, 11, 200):
        made = card(q=top, table=catalogue(top), loads=(3, 0, 2))
        for table in (b"table catalogue", lamp("table", str(top))[1], table_text(top), b"table # none\ncatalogue # all"):
            expect(f"card of top {top}, {table[:20]}", lamp("card", "-", data=show_of(top, table)), 0, made)
        word = show_of(top, b"table catalogue")
        for words in (["show", "-"], ["check", "-"], ["key", "-"], ["key", "--coarse", "-"], ["page", "-"], ["picture", "-"]):
            expect(f"{words} of top {top}", lamp(*words, data=word), 0, lamp(*words, data=made)[1])
        expect(f"cost of top {top}", lamp("cost", "-", "1", str(top), data=word), 0, b"%d\n" % catalogue(top)[-1])
        require(f"show of top {top} writes the numbers", b"\n" + table_text(top) + b"loads 3 0 2\n" in lamp("show", "-", data=word)[1])
    word, made = show_of(8, b"table catalogue"), card(q=8, table=catalogue(8), loads=(3, 0, 2))
    for order in itertools.permutations(range(6)):
        expect(f"fields in the order {order}", lamp("card", "-", data=show_of(8, b"table catalogue", order)), 0, made)
    expect("other ends of line", lamp("card", "-", data=word.replace(b"\n", b"\r\n")), 0, made)
    sample = SAMPLES / "catalogue.show"
    expect("marks on a text with the word", lamp("mark", sample, "-", data=b"3 -\n- -\n4 4\n"), 0, b"cost 1338\nleast 924\nabove 414\n")


WHOLE = "which stands for the whole table\n"
TYPED_AS = "the catalogue module's table is typed as catalogue, in small letters, without quotes\n"
OR_WORD = "a table has numbers, or the word catalogue alone\n"
THE_FIELDS = "the fields are modules, top, warm-up, cool-down, table and loads"
WRONG_CATALOGUE = {
    b"table catalogue 5": f"line 5, column 17: a number after 'catalogue', {WHOLE}",
    b"table catalogue 08": f"line 5, column 17: a number after 'catalogue', {WHOLE}",
    b"table catalogue 4294967296": f"line 5, column 17: a number after 'catalogue', {WHOLE}",
    b"table catalogue\n5": f"line 6, column 1: a number after 'catalogue', {WHOLE}",
    b"table catalogue module": f"line 5, column 17: a word after 'catalogue', {WHOLE}",
    b"table catalogue\nmodule": f"line 6, column 1: 'module' is no field; {THE_FIELDS}\n",
    b"table catalogue\nlodas 6": f"line 6, column 1: 'lodas' is no field; {THE_FIELDS}\n",
    b"table 5 catalogue": "line 5, column 9: 'catalogue' after a number; it stands for the whole table\n",
    b"table catalogue catalogue": "line 5, column 17: a second 'catalogue'; one stands for the whole table\n",
    b"table Catalogue": f"line 5, column 7: 'Catalogue' is not a number; {TYPED_AS}",
    b"table 'catalogue'": rf"line 5, column 7: '\'catalogue\'' is not a number; {TYPED_AS}",
    b'table "catalogue"': rf'''line 5, column 7: '\"catalogue\"' is not a number; {TYPED_AS}''',
    b"table catalouge": f"line 5, column 7: 'catalouge' is not a number; {OR_WORD}",
    b"table the catalogue": f"line 5, column 7: 'the' is not a number; {OR_WORD}",
    b"table 400 standard": f"line 5, column 11: 'standard' is not a number; {OR_WORD}",
    b"table 400\nstandard": f"line 6, column 1: 'standard' is no field; {THE_FIELDS}\n",
    b"table catalogue loads 6": "line 5, column 17: 'loads' stands inside a line",
    b"table catalogue\nloads catalogue": "line 6, column 7: 'catalogue' stands for a table, and this is the field loads\n",
    b"table catalogue\ntop catalogue": "line 6, column 1: a second top; the first is in line 2",
    b"table catalogue\nloads 3\ncatalogue": f"line 7, column 1: 'catalogue' is no field; {THE_FIELDS}; the line is 'table catalogue'\n",
    b"catalogue": f"line 5, column 1: 'catalogue' is no field; {THE_FIELDS}; the line is 'table catalogue'\n",
}


def wrong_catalogue_shows():
    """Wrong uses of the word, and shows with it that the library refuses, with their places."""
    for table, complaint in WRONG_CATALOGUE.items():
        for command in ("card", "show", "check", "key"):
            wrong = lamp(command, "-", data=show_of(2, table))
            expect(f"{command} of {table}", wrong, 2, b"", f"lamp: standard input: {complaint}")
    for top in (0, 201, 255):
        word, numbers = show_of(top, b"table catalogue"), show_of(top, b"table" + b" 7" * (top + 1))
        place = f"  top {top} (line 2, column 5)\n"
        expect(f"check of top {top}", lamp("check", "-", data=word), 1, (RACK + place).encode())
        expect(f"card of top {top}", lamp("card", "-", data=word), 1, b"", f"lamp: standard input: {RACK}{place}")
        for words in (["card", "-"], ["check", "-"], ["key", "-"], ["page", "-"], ["picture", "-"], ["cost", "-", "1", "1"]):
            require(f"{words} of top {top}, as with numbers", lamp(*words, data=word) == lamp(*words, data=numbers))
        expect(f"show of top {top}", lamp("show", "-", data=word), 1, b"", f"lamp: standard input: {RACK}{place}")
    late = show_of(201, b"table catalogue", (4, 5, 3, 2, 1, 0)).replace(b"modules 3", b"modules 0")
    places = f"{RACK}  modules 0 (line 6, column 9)\n  top 201 (line 5, column 5)\n"
    expect("a top after the table, and no modules", lamp("check", "-", data=late), 1, places.encode())
    expect("a top of two bytes", lamp("check", "-", data=show_of(256, b"table catalogue")), 2, b"", "line 2, column 5: '256' is too large")
    bright = show_of(2, b"table catalogue").replace(b"loads 3", b"loads 7")
    place = f"refused 8: {tool_words(8)}\n  slot 1: load 7, above 6, 3 times 2 (line 6, column 7)\n"
    expect("a load above its bound", lamp("check", "-", data=bright), 1, place.encode())
    dear = show_of(2, b"table catalogue").replace(b"warm-up 3", b"warm-up 500000001")
    require("a price above its bound", lamp("check", "-", data=dear)[1].startswith(b"refused 6: "))


def new_folder(folder, name):
    made = folder / name
    made.mkdir()
    return made


def contents(folder):
    """The bytes of each file of a folder, and None for what is no file."""
    return {path.name: path.read_bytes() if path.is_file() else None for path in folder.iterdir()}


def cards(*numbers):
    """The files of practice cards."""
    return {f"{number}.card": practice_card(number) for number in numbers}


PRACTICE_USAGE = "usage: lamp practice NUMBER [--into DIR]\n       lamp practice FIRST..LAST --into DIR\n"
A_RANGE = f"{NO_NUMBER}; a range is written 1..30\n"
WRONG_PRACTICE = {
    (): ("practice: 0 words where it takes NUMBER", PRACTICE_USAGE),
    ("1", "2"): ("practice: 2 words where it takes NUMBER", PRACTICE_USAGE),
    ("",): ("NUMBER is empty",),
    ("x",): (f"NUMBER x {NO_NUMBER}\n",),
    ("-",): (f"NUMBER - {NO_NUMBER}\n",),
    ("1,950",): (f"NUMBER 1,950 {COMMAS}",),
    ("4,294,967,295",): (f"NUMBER 4,294,967,295 {COMMAS}",),
    ("1,000..2,000", "--into", "into"): (f"FIRST 1,000 {COMMAS}",),
    ("1..2,000", "--into", "into"): (f"LAST 2,000 {COMMAS}",),
    ("1,",): (f"NUMBER 1, {NO_NUMBER}\n",),
    ("1.950",): (f"NUMBER 1.950 {NO_NUMBER}\n",),
    ("1-30", "--into", "into"): (f"NUMBER 1-30 {A_RANGE}",),
    ("1:3",): (f"NUMBER 1:3 {A_RANGE}",),
    ("1\u20133",): (f"NUMBER 1\u20133 {A_RANGE}",),
    ("1\u20263",): (f"NUMBER 1\u20263 {A_RANGE}",),
    ("1...30", "--into", "into"): (f"NUMBER 1...30 {A_RANGE}",),
    ("1 .. 30", "--into", "into"): (f"NUMBER '1 .. 30' {A_RANGE}",),
    (" 5",): (f"NUMBER ' 5' {NO_NUMBER}\n",),
    ("5\u00a0",): (f"NUMBER '5\u00a0' {NO_NUMBER}\n",),
    ("5 6",): (f"NUMBER '5 6' {NO_NUMBER}\n",),
    ("5 ..6", "--into", "into"): (f"NUMBER '5 ..6' {A_RANGE}",),
    ("5.. ", "--into", "into"): (f"LAST ' ' {NO_NUMBER}\n",),
    ("007",): ("NUMBER 007 begins with a needless 0\n",),
    ("4294967296",): ("NUMBER 4294967296 is above 4,294,967,295",),
    ("1" * 30, "--into", "into"): ("is above 4,294,967,295",),
    ("-5",): ("practice: no option -5", PRACTICE_USAGE),
    ("5", "--coarse"): ("practice: no option --coarse", PRACTICE_USAGE),
    ("1..3",): ("practice: the cards of 1..3 need a folder: --into DIR",),
    ("5..5",): ("practice: the cards of 5..5 need a folder: --into DIR",),
    ("4..3", "--into", "into"): ("FIRST 4 is above LAST 3",),
    ("..3", "--into", "into"): ("FIRST is empty",),
    ("1..", "--into", "into"): ("LAST is empty",),
    ("1..3..5", "--into", "into"): (f"LAST 3..5 {NO_NUMBER}\n",),
    ("1..4294967296", "--into", "into"): ("LAST 4294967296 is above 4,294,967,295",),
    ("1..10001", "--into", "into"): ("1..10001 has 10,001 numbers; at most 10,000 cards are written at a time\n",),
    ("0..10000", "--into", "into"): ("0..10000 has 10,001 numbers; at most 10,000 cards are written",),
    ("0..4294967295", "--into", "into"): ("has 4,294,967,296 numbers; at most 10,000 cards are written",),
    ("5", "--into"): ("practice: --into names no folder", PRACTICE_USAGE),
    ("5", "--into", ""): ("practice: --into names no folder", PRACTICE_USAGE),
    ("5", "--into", "--into", "into"): ("practice: --into names no folder", PRACTICE_USAGE),
    ("5", "--into", "into", "--into", "into"): ("practice: --into names two folders", PRACTICE_USAGE),
    ("5", "--into", "none"): ("none: no such folder; make it first",),
    ("5", "--into", "a file"): ("a file: not a folder",),
    ("5", "--into", "a file/x"): ("a file/x: Not a directory",),
}


def wrong_practice(folder):
    """What is no number, no range and no folder is told, and nothing is written."""
    into = new_folder(folder, "into")
    (folder / "a file").write_bytes(b"")
    for words, complaints in WRONG_PRACTICE.items():
        expect(f"practice {words}", lamp("practice", *words, cwd=folder), 2, b"", *complaints)
    zero = f"refused 14: {tool_words(14)}\n  practice cards have the numbers 1 to 4,294,967,295\n"
    for words in (["0"], ["0", "--into", into], ["0..3", "--into", into], ["0", "--into", "none"]):
        expect(f"practice {words}", lamp("practice", *words, cwd=folder), 1, b"", zero)
    require("nothing is written by wrong use", contents(into) == {} and not (folder / "none").exists())


def practice_files(folder):
    into = new_folder(folder, "some cards")
    expect("a range", lamp("practice", "28..31", "--into", into), 0, b"")
    require("its cards", contents(into) == cards(28, 29, 30, 31))
    before = (into / "30.card").stat()
    expect("a range over it", lamp("practice", "--into", "some cards", "27..32", cwd=folder), 0, b"")
    require("its cards too", contents(into) == cards(*range(27, 33)))
    after = (into / "30.card").stat()
    require("a card that is there is left alone", (before.st_ino, before.st_mtime_ns) == (after.st_ino, after.st_mtime_ns))
    expect("one number", lamp("practice", "6548", "--into", into), 0, b"")
    expect("the last number", lamp("practice", "4294967295..4294967295", "--into", f"{into}/"), 0, b"")
    expect("with all streams closed", shell('"$0" practice 7 --into "some cards" <&- >&- 2>&-', cwd=folder), 0, b"")
    require("one each", contents(into) == cards(*range(27, 33), 6548, 4294967295, 7))
    new_folder(folder, "-odd\n")
    expect("a folder with an odd name", lamp("practice", "5", "--into", "-odd\n", cwd=folder), 0, b"")
    require("its card", contents(folder / "-odd\n") == cards(5))
    (folder / "linked").symlink_to(into)
    (into / "9.card").symlink_to("7.card")
    (folder / "elsewhere.card").write_bytes(practice_card(10))
    (into / "10.card").symlink_to(folder / "elsewhere.card")
    expect("links", lamp("practice", "10..11", "--into", folder / "linked"), 0, b"")
    require("a link to the card is left alone", (into / "10.card").is_symlink() and (into / "11.card").read_bytes() == practice_card(11))
    expect("a link to another card", lamp("practice", "8..9", "--into", into), 2, b"", f"{into}/9.card: another file of this name is there")


def no_practice_files(folder):
    """A card whose name is taken is not written, nor is any other, and what was there is as it was."""
    kinds = {
        "another file": lambda path: path.write_bytes(b"a teacher's own card"),
        "a file of the same length": lambda path: path.write_bytes(practice_card(5)[:-1] + b"\xff"),
        "a longer file": lambda path: path.write_bytes(practice_card(5) + b"\0"),
        "a folder": lambda path: path.mkdir(),
        "a pipe": os.mkfifo,
        "a link to nothing": lambda path: path.symlink_to("nothing"),
    }
    for name, make in kinds.items():
        into = new_folder(folder, name)
        make(into / "5.card")
        before = contents(into)
        for words in ("5", "1..9", "1..10000"):
            found = lamp("practice", words, "--into", into, timeout=60)
            expect(f"{name} for {words}", found, 2, b"", f"{into}/5.card: another file of this name is there; nothing was written")
        require(f"{name} is left alone", contents(into) == before)


def failed_practice_files(folder):
    """Where one card cannot be written whole, or not moved to its place, none is left, or it is said what is."""
    into = new_folder(folder, "no card")
    limited = shell('ulimit -f 0; "$0" practice 1..3 --into "no card"', cwd=folder)
    expect("cards too large", limited, 2, b"", "no card/1.card: File too large; nothing was written")
    expect("a folder of the system", lamp("practice", "1", "--into", "/proc"), 2, b"", "lamp: /proc: ", "; nothing was written")
    full = "lamp: no card/3.card: No space left on device; "
    for name, calls, kept, left in (
        ("cannot be moved", {"LINK": "3:28"}, "nothing was written\n", {}),
        ("cannot be moved without links", {"LINK": "0:1", "RENAME": "3:28"}, "nothing was written\n", {}),
        ("cannot be moved, nor the first removed", {"LINK": "3:28", "UNLINK": "1:13"}, "1 card could not be removed\n", cards(1)),
        ("cannot be moved, nor any removed", {"LINK": "3:28", "UNLINK": "0:13"}, "2 cards and lamp.part could", None),
        ("cannot be moved, nor the part folder removed", {"LINK": "3:28", "RMDIR": "0:13"}, "lamp.part could not be", {"lamp.part": None}),
    ):
        expect(f"the third card {name}", bent(folder, into, **calls), 2, b"", full + kept)
        require(f"what is left where it {name}", left is None or contents(into) == left)
        shutil.rmtree(into)
        into.mkdir()
    kept = bent(folder, into, RMDIR="1:13")
    expect("only the part folder cannot be removed", kept, 2, b"", "no card/lamp.part: Permission denied; the cards were written\n")
    require("its cards", contents(into) == {**cards(1, 2, 3, 4, 5), "lamp.part": None})


def bent(folder, into, **calls):
    """Writes five cards while calls of the system fail: `3:28` at the third call with error 28, `0:28` at each. `3:-15` is a signal before
    the third call, and `3:0` the line of sh in THEN."""
    library = folder / "calls.so"
    if not library.exists():
        (folder / "calls.c").write_text(CALLS)
        subprocess.run(["gcc", "-shared", "-fPIC", "calls.c", "-o", library], cwd=folder, check=True)
    environment = {**os.environ, **calls, "LD_PRELOAD": str(library)}
    return lamp("practice", "1..5", "--into", into.name, cwd=folder, env=environment, preexec_fn=stoppable)


STOPS = (signal.SIGINT, signal.SIGTERM, signal.SIGHUP)


def stoppable():
    """A run of the tool is stopped by signals, also where this test was started so that it ignores them."""
    for number in STOPS:
        signal.signal(number, signal.SIG_DFL)


CALLS = """
#define _GNU_SOURCE
#include <errno.h>
#include <signal.h>
#include <stdlib.h>
#include <string.h>
#include <sys/syscall.h>
#include <sys/types.h>
#include <unistd.h>
/* Does what the variable of the call's name says, and answers whether the call fails. */
static int fails(const char *name, int calls)
{
    const char *plan = getenv(name);
    if (!plan || (atoi(plan) && atoi(plan) != calls))
        return 0;
    int error = atoi(strchr(plan, ':') + 1);
    if (error < 0)
        return raise(-error);
    errno = error;
    if (error > 0)
        return 1;
    unsetenv("LD_PRELOAD");
    return system(getenv("THEN"));
}
#define CALL(name, result) { static int calls; return fails(name, ++calls) ? -1 : result; }
int linkat(int a, const char *from, int b, const char *to, int flags) CALL("LINK", (int)syscall(SYS_linkat, a, from, b, to, flags))
int rename(const char *from, const char *to) CALL("RENAME", (int)syscall(SYS_renameat2, -100, from, -100, to, 0))
int unlink(const char *path) CALL("UNLINK", (int)syscall(SYS_unlinkat, -100, path, 0))
int rmdir(const char *path) CALL("RMDIR", (int)syscall(SYS_unlinkat, -100, path, 0x200))
int mkdir(const char *path, mode_t mode) CALL("MKDIR", (int)syscall(SYS_mkdirat, -100, path, mode))
int fsync(int file) CALL("SYNC", (int)syscall(SYS_fsync, file))
int flock(int file, int how) CALL("FLOCK", (int)syscall(SYS_flock, file, how))
"""


def appearing_practice_files(folder):
    """A file that appears while a run goes on is not overwritten, and one that holds the card is not taken back with the others."""
    (folder / "own.card").write_bytes(b"a teacher's own card")
    (folder / "third.card").write_bytes(practice_card(3))
    for name, links in {"with links": {}, "without links": {"LINK": "0:1"}}.items():
        into = new_folder(folder, f"appearing {name}")
        own = bent(folder, into, **links, SYNC="5:0", THEN=f"cp own.card '{into.name}/3.card'")
        expect(f"another file appears {name}", own, 2, b"", "/3.card: another file of this name is there; nothing was written\n")
        require(f"it is as it was {name}", contents(into) == {"3.card": b"a teacher's own card"})
        (into / "3.card").unlink()
        last = {"RENAME": "4:28"} if links else {"LINK": "5:28"}
        same = bent(folder, into, **links, **last, SYNC="5:0", THEN=f"cp third.card '{into.name}/3.card'")
        expect(f"the card appears {name}, another fails", same, 2, b"", "/5.card: No space left on device; nothing was written\n")
        require(f"it is not taken back {name}", contents(into) == cards(3))
        (into / "3.card").unlink()
        expect(f"the card appears {name}", bent(folder, into, **links, SYNC="5:0", THEN=f"cp third.card '{into.name}/3.card'"), 0, b"")
        require(f"all cards are there {name}", contents(into) == cards(1, 2, 3, 4, 5))


def moved_practice_files(folder):
    """A file that appears at the very move is not overwritten, and a file system may have no links."""
    into = new_folder(folder, "appearing last")
    last = bent(folder, into, LINK="3:0", THEN="cp own.card 'appearing last/3.card'")
    expect("another file appears at the move", last, 2, b"", "/3.card: another file of this name is there; nothing was written\n")
    require("it is as it was", contents(into) == {"3.card": b"a teacher's own card"})
    for error in (1, 13, 18, 31, 38, 95):
        into = new_folder(folder, f"no links, error {error}")
        expect(f"no links, error {error}", bent(folder, into, LINK=f"0:{error}"), 0, b"")
        require(f"cards without links, error {error}", contents(into) == cards(1, 2, 3, 4, 5))


def stopped_practice_files(folder):
    """A run that is asked to stop takes back what it wrote and ends by the signal."""
    into, all_cards = new_folder(folder, "stopped"), cards(1, 2, 3, 4, 5)
    for number, call in itertools.product(STOPS, ("SYNC", "LINK")):
        found = bent(folder, into, **{call: f"3:-{int(number)}"})
        expect(f"{number.name} at {call}", found, -number, b"", "lamp: stopped; nothing was written\n")
        require(f"nothing is left by {number.name} at {call}", contents(into) == {})
    found = bent(folder, into, MKDIR="1:-15", SYNC="1:28")
    expect("stopped before the first card", found, -15, b"", "lamp: stopped; nothing was written\n")
    require("nothing is left before the first card", contents(into) == {})
    found = bent(folder, into, LINK="3:-15", UNLINK="1:13")
    expect("a card stays in a stopped run", found, -15, b"", "lamp: stopped; 1 card could not be removed\n")
    expect("the next run", bent(folder, into, RMDIR="1:-15"), -15, b"")
    require("stopped after the last card", contents(into) == all_cards)
    line = 'LD_PRELOAD="$PWD/calls.so" SYNC=3:-1 "$0" practice 1..5 --into shelled; echo $?'
    shelled = new_folder(folder, "shelled")
    seen = shell(line, cwd=folder, preexec_fn=stoppable)
    expect("a signal that a shell sees", seen, 0, b"129\n", "lamp: stopped; nothing was written\n")
    require("nothing is left of it", contents(shelled) == {})
    expect("an ignored signal", shell(f'trap "" HUP; {line}', cwd=folder), 0, b"0\n")
    require("the cards of an ignored signal", contents(shelled) == all_cards)


def killed_practice_files(folder):
    """A run that is killed leaves whole cards and the part folder, which the next run removes, also where no card is missing."""
    for call, left in {"SYNC=3": [], "LINK=3": [1, 2], "RMDIR=1": [1, 2, 3, 4, 5]}.items():
        into = new_folder(folder, f"killed at {call}")
        expect(f"killed at {call}", bent(folder, into, **dict([f"{call}:-9".split("=")])), -9, b"")
        require(f"what is left of a run killed at {call}", contents(into) == {**cards(*left), "lamp.part": None})
        expect(f"the next run after {call}", lamp("practice", "2..5", "--into", into), 0, b"")
        require(f"its cards after {call}", contents(into) == cards(*left[:1], 2, 3, 4, 5))


def left_practice_files(folder):
    """What is in the part folder and is not of a run is told, and nothing is removed or written."""
    other = "this is not of a killed run; move it away; nothing was written\n"
    for name, make in {
        "notes.txt": pathlib.Path.touch,
        "0.card": pathlib.Path.touch,
        "07.card": pathlib.Path.touch,
        "4294967296.card": pathlib.Path.touch,
        "x.card": pathlib.Path.touch,
        "7.card": pathlib.Path.mkdir,
        "8.card": lambda path: path.symlink_to("3.card"),
    }.items():
        into = new_folder(folder, f"with {name}")
        part = new_folder(into, "lamp.part")
        (part / "3.card").touch()
        make(part / name)
        expect(f"{name} in the part folder", lamp("practice", "1", "--into", into), 2, b"", f"{part}/{name}: {other}")
        require(f"{name} is left alone", contents(into) == {"lamp.part": None} and set(contents(part)) == {name, "3.card"})
    taken = new_folder(folder, "no part folder")
    wrong = "lamp.part: not a folder; a run needs this name; nothing was written\n"
    (taken / "lamp.part").symlink_to(folder / "with notes.txt")
    expect("a link for the part folder", lamp("practice", "1", "--into", taken), 2, b"", wrong)
    (taken / "lamp.part").unlink()
    (taken / "lamp.part").touch()
    expect("a file for the part folder", lamp("practice", "1", "--into", taken), 2, b"", wrong)
    require("nothing beside it", contents(taken) == {"lamp.part": b""})


def locked_practice_files(folder):
    """Runs into one folder go one after the other, where its file system has locks."""
    into = new_folder(folder, "locked")
    held = os.open(into, os.O_RDONLY)
    fcntl.flock(held, fcntl.LOCK_EX)
    words = [LAMP, "practice", "1..3", "--into", into]
    runs = [subprocess.Popen(words, stderr=subprocess.PIPE, preexec_fn=stoppable) for _ in range(2)]
    waiting = f"lamp: {into}: waiting for another run to end\n".encode()
    require("both wait", [run.stderr.readline() for run in runs] == [waiting] * 2)
    runs[0].send_signal(signal.SIGINT)
    expect("one is stopped meanwhile", (runs[0].wait(), b"", runs[0].communicate()[1]), -2, b"")
    require("nothing is written meanwhile", runs[1].poll() is None and contents(into) == {})
    os.close(held)
    expect("the other", (runs[1].wait(), b"", runs[1].communicate()[1]), 0, b"")
    require("its cards", contents(into) == cards(1, 2, 3))
    expect("without locks", bent(folder, into, FLOCK="0:95"), 0, b"")
    require("cards without locks", contents(into) == cards(1, 2, 3, 4, 5))
    new_folder(into, "lamp.part")
    found = bent(folder, into, FLOCK="0:95")
    another = "lamp: locked/lamp.part: this is of another run; remove it if that has ended; nothing was written\n"
    expect("without locks, a part folder", found, 2, b"", another)


def plain_practice_files(folder):
    """Cards for a user who may not read and write every file."""
    if os.geteuid() == 0 and not shutil.which("setpriv"):
        print("tool: skipped, no setpriv to give up the rights of root")
        return
    into, dropped = new_folder(folder, "plain"), "-dac_override,-dac_read_search"
    drop = ["setpriv", f"--inh-caps={dropped}", f"--bounding-set={dropped}"] if os.geteuid() == 0 else []
    refused = "lamp: plain/2.card: cannot be read: Permission denied; nothing was written\n"
    line = '"$0" practice 1..3 --into plain'

    def plain(line):
        ended = subprocess.run([*drop, "sh", "-c", line, LAMP], capture_output=True, cwd=folder)
        return ended.returncode, ended.stdout, ended.stderr

    for data in (practice_card(2), b"a teacher's own card"):
        (into / "2.card").write_bytes(data)
        (into / "2.card").chmod(0)
        expect(f"a card that cannot be read, {len(data)} bytes", plain(line), 2, b"", refused)
        (into / "2.card").chmod(0o600)
        require("it is as it was", contents(into) == {"2.card": data})
        (into / "2.card").unlink()
    nothing = "lamp: plain/1.card: Permission denied; nothing was written\n"
    expect("a mask that forbids all", plain(f"umask 777; {line}"), 2, b"", nothing)
    require("nothing is left", contents(into) == {})
    new_folder(into, "lamp.part").chmod(0)
    expect("an empty part folder that cannot be read", plain('"$0" practice 1 --into plain'), 0, b"")
    require("the card without it", contents(into) == cards(1))
    into.chmod(0o300)
    expect("a folder that cannot be read", plain(line), 0, b"")
    into.chmod(0o500)
    forbidden = plain('"$0" practice 4 --into plain')
    expect("a folder that cannot be written", forbidden, 2, b"", "lamp: plain: Permission denied; nothing was written\n")
    into.chmod(0o700)
    require("the cards of the first", contents(into) == cards(1, 2, 3))


def many_practice_files(folder):
    """Runs at the same time, and one that is killed, leave no card that is not whole, and the next run makes the set whole."""
    into = new_folder(folder, "many")
    runs = [subprocess.Popen([LAMP, "practice", "1..60", "--into", into], stderr=subprocess.DEVNULL) for _ in range(4)]
    require("four runs at once", [run.wait() for run in runs] == [0] * 4)
    require("their cards", contents(into) == cards(*range(1, 61)))
    run = subprocess.Popen([LAMP, "practice", "61..9000", "--into", into])
    for _ in range(600):
        if (into / "lamp.part").exists() or run.poll() is not None:
            break
        time.sleep(0.005)
    run.kill()
    run.wait()
    left = {name: data for name, data in contents(into).items() if data is not None}
    require("a run that was killed", all(practice_card(int(name.removesuffix(".card"))) == data for name, data in left.items()))
    expect("the run after it", lamp("practice", "1..61", "--into", into), 0, b"")
    require("its cards", contents(into) == {**left, **cards(61)})


def without_references(name, root):
    """No script, and nothing that a browser would fetch."""
    for element in root.iter():
        tag = element.tag.rpartition("}")[2]
        ensure(f"{name}: {tag}", tag not in ("script", "image", "img", "link", "iframe", "object", "embed", "use", "a", "foreignObject"))
        bad = [key for key in element.attrib if key.lower().rpartition("}")[2] in ("href", "src", "data") or key.lower().startswith("on")]
        ensure(f"{name}: {tag} {bad}", not bad)
        ensure(f"{name}: {tag}'s style", "url(" not in (element.text or "") and "@import" not in (element.text or ""))


def listed(path, *options):
    """The cost, the loads, the counts and the rows of steps of a card, from its key."""
    cost, loads, counts, rows = None, [], [], []
    name = None
    for line in lamp("key", path, *options)[1].decode().splitlines():
        words = line.partition("#")[0].split()
        name = words[0] if words and words[0][0].isalpha() else name
        numbers = words[1:] if words and words[0] == name else words
        if name == "loads":
            loads += map(int, numbers)
        elif name == "cost":
            cost = int(numbers[0])
        elif name == "plan":
            counts = [int(number) for number in numbers]
        elif name == "slot":
            rows.append(numbers[1:])
    return cost, loads, counts, rows


def pictures(folder):
    cards = {name: SAMPLES / f"{name}.card" for name in ACCEPTED}
    table = tuple(400 + 3 * k + k * (k - 1) // 2 for k in range(201))
    falling = tuple((k - 90) ** 2 for k in range(201))
    made = {
        "falling": card(m=60, q=200, up=9000, down=7000, table=falling, loads=tuple(2999 * t % 12001 for t in range(33))),
        "falling and wide": card(m=30, q=200, up=9000, down=7000, table=falling, loads=tuple(999 * t % 6001 for t in range(1024))),
        "largest": card(m=200, q=200, up=900, down=700, table=table, loads=tuple(20000 + 97 * t % 20001 for t in range(1024))),
        "40 slots": card(m=26, q=200, up=90, down=70, table=table, loads=tuple(131 * t % 5201 for t in range(40))),
        "33 slots": card(m=60, q=9, up=9, down=7, table=table[:10], loads=tuple(53 * t % 541 for t in range(33))),
    }
    for name, data in made.items():
        cards[name] = folder / f"{name}.card"
        cards[name].write_bytes(data)
    for name, path in cards.items():
        cost = listed(path)[0]
        drawn(name, (path,), f"Least cost {cost:,}", cost)
    coarse = lamp("picture", "--coarse", SAMPLES / "e.card")[1]
    require("coarse title", ElementTree.fromstring(coarse).find(f"{SVG}title").text.startswith("Coarse plan, cost 8. e.card"))
    for command, options in itertools.product(("key", "page", "picture"), ((), ("--coarse",))):
        require(f"{command} {options} has no list", b"limited" not in lamp(command, SAMPLES / "e.card", *options)[1])
    group_pictures(cards)


def group_pictures(cards):
    """Pictures and pages of group plans. They name the counts that the plan is limited to, of many counts the picture the first ones."""
    for name, counts, ratio, told in (
        ("e", (0, 2, 4, 8), 2, "0, 2, 4, 8"),
        ("falls-first", (0, 3, 4), 3, "0, 3 to 4"),
        ("falling", tuple(range(0, 61, 10)), 10, "0, 10, 20, 30, 40, 50, and 1 more"),
        ("33 slots", (0, 1, 2, 4, 6, 8, 12, 16, 24, 32, 48, 60), 2, "0 to 2, 4, 6, 8, 12, 16, and 4 more"),
        ("largest", tuple(range(0, 201, 2)), 2, "0, 2, 4, 6, 8, 10, and 95 more"),
        ("40 slots", tuple(range(27)), 1, "0 to 26"),
        ("a", (0, 1, 3), 2, "0 to 1, 3"),
        ("several-least", (0, 2), 2, "0, 2"),
    ):
        words, (least, _, exact, _) = (cards[name], *groups(counts, ratio)), listed(cards[name])
        cost, _, plan, _ = listed(*words)
        require(f"the group plan of {name} is within its ratio", least <= cost <= ratio * least)
        drawn(f"{name} in groups", words, f"Group plan, cost {cost:,}; the least cost is {least:,}", least)
        beside = f"{likeness(plan == exact)}; {bound(ratio, cost, least)} the least"
        group_titles(name, ElementTree.fromstring(lamp("picture", *words)[1]), told, beside)
        page = ElementTree.fromstring(lamp("page", *words)[1])
        notes = group_notes(counts, ratio, cost, least, plan == exact).decode().splitlines()
        texts = [text.text for text in page.iter(f"{HTML}p")]
        require(f"the counts on the page of {name}", texts[1:3] == [note.removeprefix("# ") + "." for note in notes])
        group_titles(f"{name} on the page", page.find(f".//{SVG}svg"), told, beside)


def group_titles(name, root, told, beside):
    """The picture of a group plan names its counts, and says what it is beside the exact plan, between the show and the chart."""
    lines, chart = root.findall(f"{SVG}text")[:5], int(root.findall(f"{SVG}rect")[1].get("y"))
    require(f"the counts in the picture of {name}", lines[3].text == f"limited to the counts {told}")
    require(f"the exact plan in the picture of {name}", lines[4].text == beside)
    size, places = int(lines[3].get("font-size")), [int(line.get("y")) for line in lines[2:]]
    require(f"room for the lines of {name}", all(low + size <= high for low, high in itertools.pairwise(places)))
    require(f"they stand before the chart of {name}", places[-1] <= chart - size // 3)


def drawn(name, words, heading, least):
    """The sheet of a key costs what the key says, and the picture and the page show the key. The words are the card and the options."""
    cost, loads, counts, rows = listed(*words)
    own = "\n".join(f"slot {t + 1}: {' '.join(row)}" for t, row in enumerate(rows)).encode()
    marked = b"cost %d\nleast %d\nabove %d\n" % (cost, least, cost - least)
    expect(f"marks of the planner's sheet of {name}", lamp("mark", words[0], "-", data=own), 0, marked)
    points = lamp("explain", words[0], "-", data=own)
    expect(f"points of the planner's sheet of {name}", points, 0, explained(least, 0, 0, cost - least))
    lights = [sum(int(step) for step in row if step != "-") for row in rows]
    lights = lights if lights != loads else None
    require(f"more light than the loads of {name}", (lights is not None) == name.startswith("fall"))
    picture_of(name, words, heading, loads, lights, counts, rows)
    page_of(name, words, heading, loads, lights, counts, rows)


class Grid:
    """The grid of a picture, from the lines of its frame."""

    def __init__(self, root, slots, modules):
        lines = root.findall(f"{SVG}g")[1].findall(f"{SVG}line")
        xs = [int(line.get(key)) for line in lines for key in ("x1", "x2")]
        ys = [int(line.get(key)) for line in lines for key in ("y1", "y2")]
        self.left, self.top = min(xs), min(ys)
        self.wide, self.tall = (max(xs) - self.left) // max(slots, 1), (max(ys) - self.top) // modules
        ensure("the frame's width", self.left + slots * self.wide == max(xs) and self.top + modules * self.tall == max(ys))
        self.bottom = max(ys)

    def middle(self, slot):
        return self.left + slot * self.wide + self.wide // 2


def picture_of(name, words, heading, loads, lights, counts, rows):
    """The picture shows the show's loads, counts and steps, each in its place, and the light where some slot gets more than its load."""
    root = ElementTree.fromstring(lamp("picture", *words)[1])
    without_references(f"picture of {name}", root)
    title = root.find(f"{SVG}title").text
    require(f"title of {name}", title.startswith(f"{heading}. {words[0].name}: ") and "modules, top step" in title)
    head = words[0].read_bytes()
    grid = Grid(root, len(loads), head[5])
    shaded(name, root, grid, rows)
    lines = {"#d9a300": (lights, head[5] * head[6])} if lights else {}
    lines_of(name, root, grid, {**lines, "#b35900": (loads, head[5] * head[6]), "#08306b": (counts, head[5])})
    legend = [text.text for text in root.iter(f"{SVG}text") if text.text.startswith("Shade: ")]
    require(f"legend of {name}", len(legend) == 1 and ("Dotted line: light." in legend[0]) == bool(lights))
    texts = [(text.get("fill"), int(text.get("x")), int(text.get("y")), text.text) for text in root.iter(f"{SVG}text") if text.get("fill")]
    axes(name, grid, texts, len(loads), head[5])
    if grid.wide >= 24 and grid.tall >= 14:
        written(name, grid, texts, loads, counts, rows)
        size = max(int(group.get("font-size", 0)) for group in root.findall(f"{SVG}g"))
        require(f"the loads of {name} do not touch", 0 < 0.65 * size * len(str(max(loads, default=0))) < grid.wide)


def shaded(name, root, grid, rows):
    """Each rectangle of the first group is a run of modules at one step; a step has one shade, another than any other step of the show."""
    found, shades = {}, {}
    for rect in root.find(f"{SVG}g").findall(f"{SVG}rect"):
        x, y, wide, tall = (int(rect.get(key)) for key in ("x", "y", "width", "height"))
        ensure(f"a cell's size in the picture of {name}", wide == grid.wide and tall % grid.tall == 0)
        for module in range((y - grid.top) // grid.tall, (y + tall - grid.top) // grid.tall):
            ensure(f"a cell of the picture of {name} is drawn once", ((x - grid.left) / grid.wide, module) not in found)
            found[(x - grid.left) / grid.wide, module] = rect.get("fill")
    active = {(slot, module): step for slot, row in enumerate(rows) for module, step in enumerate(row) if step != "-"}
    ensure(f"the active cells of the picture of {name}", found.keys() == active.keys())
    for place, step in active.items():
        ensure(f"the shade of step {step} of {name}", shades.setdefault(step, found[place]) == found[place])
    require(f"shades of {name}", len(set(shades.values())) == len(shades))


def lines_of(name, root, grid, wanted):
    """A line for the loads and one for the counts, each from 0 to what the full rack has, and one for the light before them."""
    box = root.findall(f"{SVG}rect")[1]
    upper, tall = int(box.get("y")), int(box.get("height"))
    found = {line.get("stroke"): line.get("points").split() for line in root.findall(f"{SVG}polyline")}
    ensure(f"lines of {name}", list(found) == (list(wanted) if wanted["#08306b"][0] else []))
    for colour, (values, most) in wanted.items():
        points = [tuple(map(float, point.split(","))) for point in found.get(colour, [])]
        heights = [upper + tall - tall * value / most for value in values]
        ends = [(grid.left + at * grid.wide, height) for slot, height in enumerate(heights) for at in (slot, slot + 1)]
        near = all(x == end[0] and abs(y - end[1]) < 0.06 for (x, y), end in zip(points, ends))
        require(f"the line {colour} of {name}", len(points) == len(ends) and near)


def axes(name, grid, texts, slots, modules):
    """The numbers below the grid stand under their slots, those at its left beside their modules."""
    below = {text: x for _, x, y, text in texts if grid.bottom < y < grid.bottom + 40 and text != "slot" and x >= grid.left}
    beside = {text.split()[-1]: y for _, x, y, text in texts if x < grid.left and grid.top < y < grid.bottom + 12 and text != "slot"}
    ensure(f"slots beside {name}", all(x == grid.middle(int(text.replace(",", "")) - 1) for text, x in below.items()))
    rows = ((int(text) - 1, y) for text, y in beside.items())
    ensure(f"modules beside {name}", all(0 <= y - (grid.top + module * grid.tall + grid.tall // 2) <= 8 for module, y in rows))
    require(f"axes of {name}", ("1" in below or not slots) and "1" in beside and (modules < 200 or "200" in beside))


def written(name, grid, texts, loads, counts, rows):
    """Where cells are large enough, each has its step, and each slot its load and its count above it, no wider than the cell."""
    right = [text for text in texts if text[1] > grid.left]
    for colour, values in (("#b35900", loads), ("#08306b", counts)):
        found = [(x, text) for fill, x, y, text in right if fill == colour and grid.top - 30 < y < grid.top]
        ensure(f"numbers above {name}", found == [(grid.middle(slot), str(value)) for slot, value in enumerate(values)])
    inside = [(x - grid.left, y - grid.top, text) for _, x, y, text in right if grid.top < y < grid.bottom]
    inside = {(x // grid.wide, y // grid.tall): text for x, y, text in inside}
    wanted = {(slot, module): step for slot, row in enumerate(rows) for module, step in enumerate(row)}
    require(f"steps in the picture of {name}", inside == wanted)


def page_of(name, words, heading, loads, lights, counts, rows):
    """The page holds the show, the cost, the plan and the sheet, each number in its place, and the light where some slot gets more than its
    load."""
    root = ElementTree.fromstring(lamp("page", *words)[1])
    said = [text.text for text in root.iter(f"{HTML}p") if text.text.startswith(BRIGHTER)]
    require(f"the page of {name} says where there is more light", len(said) == (1 if lights else 0))
    without_references(f"page of {name}", root)
    require(f"heading of {name}", root.find(f"{HTML}body/{HTML}h1").text == heading)
    require(f"show of {name}", root.find(f".//{HTML}pre").text.encode() == lamp("show", words[0])[1])
    require(f"picture of {name}", root.find(f".//{SVG}svg") is not None)
    cells = lambda element: [cell.text or "" for cell in element if cell.tag in (f"{HTML}th", f"{HTML}td")]
    plans = [table for table in root.iter(f"{HTML}table") if table.get("class") is None]
    wanted = []
    for at in range(0, len(counts), 20):
        last = min(at + 20, len(counts))
        label = f"slots {at + 1:,} to {last:,}" if last > at + 1 else f"slot {last:,}"
        wanted.append([label, *map(str, counts[at:last])])
    require(f"plan of {name}", [cells(row) for table in plans for row in table] == wanted)
    sheet = root.find(f".//{HTML}table[@class='sheet']")
    if not rows:
        require(f"no sheet of {name}", sheet is None)
        return
    modules = len(rows[0])
    names = ["slot", "load", *(["light"] if lights else []), "count"]
    columns = [*names, *(["modules"] if modules > 25 else []), *map(str, range(1, min(modules, 25) + 1))]
    require(f"heading of the sheet of {name}", cells(sheet.find(f"{HTML}thead")[0]) == columns)
    wanted = []
    for slot, row in enumerate(rows):
        lines = [row[at : at + 25] for at in range(0, modules, 25)]
        facts = [f"{slot + 1:,}", f"{loads[slot]:,}", *([f"{lights[slot]:,}"] if lights else []), str(counts[slot])]
        labels = [[f"{25 * at + 1} to {25 * at + len(line)}"] if modules > 25 else [] for at, line in enumerate(lines)]
        wanted.append([(facts if at == 0 else [""] * len(names)) + labels[at] + line for at, line in enumerate(lines)])
    require(f"sheet of {name}", [[cells(line) for line in slot] for slot in sheet.findall(f"{HTML}tbody")] == wanted)


WRONG = """
#include "lamp.h"
/* Answers as a library does whose sheet costs one point more than its exact planner says, unless the rack has one module or two. With one
 * it explains a sheet wrongly for most top steps. It refuses to mark a sheet that begins with step 1. A rack of two has the least cost 33,
 * and for the counts 0 and 3 and areas just as long as asked for a group plan that costs the top step, both with such sheets; but for top
 * step 40 no exact plan, for 41 a count that is not in the list, and for 42 a sheet that costs less than is named. */
static uint64_t sheets = 33;
struct lamp_answer lamp_check_card(const uint8_t *card, size_t card_len) { (void)card, (void)card_len; return (struct lamp_answer){0, 0}; }
struct lamp_answer lamp_running_cost(const uint8_t *card, size_t card_len, uint64_t count, uint64_t load)
{ (void)card, (void)card_len, (void)count, (void)load; return (struct lamp_answer){13, 7}; }
struct lamp_answer lamp_plan_exact(const uint8_t *card, size_t card_len, uint8_t *plan, size_t plan_len, uint8_t *work, size_t work_len)
{
    (void)card_len, (void)plan, (void)plan_len, (void)work, (void)work_len;
    sheets = 33;
    return card[5] == 2 && card[6] == 40 ? (struct lamp_answer){8, 0} : (struct lamp_answer){0, card[5] == 3 ? 32 : 33};
}
struct lamp_answer lamp_plan_coarse(const uint8_t *card, size_t card_len, uint8_t *plan, size_t plan_len, uint8_t *work, size_t work_len)
{ (void)card, (void)card_len, (void)plan, (void)plan_len, (void)work, (void)work_len; return (struct lamp_answer){99, 0}; }
struct lamp_answer lamp_plan_groups(
    const uint8_t *card, size_t card_len, const uint16_t *list, size_t list_len, uint64_t ratio, uint8_t *plan, size_t plan_len,
    uint8_t *work, size_t work_len)
{
    static const struct lamp_answer given[] = {{18, 0}, {18, 7}, {99, 0}};
    (void)card_len, (void)work;
    if (list_len != 2 || list[0] != 0 || list[1] != 3 || plan_len != 3 || work_len != 6)
        return (struct lamp_answer){99, 0};
    plan[2] = card[6] == 41 ? 1 : 3;
    sheets = card[6];
    return card[5] == 3 ? given[ratio - 3] : (struct lamp_answer){0, card[6] == 42 ? 43 : card[6]};
}
struct lamp_answer lamp_sheet(const uint8_t *card, size_t card_len, const uint8_t *plan, size_t plan_len, uint8_t *sheet, size_t sheet_len)
{ (void)card, (void)card_len, (void)plan, (void)plan_len, (void)sheet, (void)sheet_len; return (struct lamp_answer){0, sheets}; }
struct lamp_answer lamp_mark(const uint8_t *card, size_t card_len, const uint8_t *sheet, size_t sheet_len)
{ (void)card, (void)card_len; return sheet_len && *sheet == 1 ? (struct lamp_answer){13, 0} : (struct lamp_answer){0, sheets}; }
struct lamp_points lamp_explain(
    const uint8_t *card, size_t card_len, const uint8_t *sheet, size_t sheet_len, uint8_t *work, size_t work_len)
{
    static const struct lamp_points given[] = {
        {1, 0, 0, 0}, {0, 0, 0, 0}, {13, 0, 0, 0}, {0, 0, 1, 0}, {99, 0, 0, 0}, {13, 0, 0, 7}, {0, 1ull << 63, 1ull << 63, 0},
    };
    (void)card_len, (void)sheet, (void)sheet_len, (void)work, (void)work_len;
    return given[card[6]];
}
struct lamp_answer lamp_rounded_count(uint64_t count, uint64_t modules) { (void)count, (void)modules; return (struct lamp_answer){0, 0}; }
struct lamp_answer lamp_practice_card(uint32_t start, uint8_t *card, size_t card_len)
{ (void)start, (void)card, (void)card_len; return (struct lamp_answer){0, 0}; }
struct lamp_answer lamp_catalogue_table(uint64_t top, uint8_t *table, size_t table_len)
{ (void)table, (void)table_len; return top == 8 ? (struct lamp_answer){0, 1} : (struct lamp_answer){top == 9 ? 3 : 10, 0}; }
"""


def a_wrong_library(folder):
    """The tool over a library that contradicts itself prints no key: two costs that differ, an unknown number, a refusal with a cost, a
    card that is none, a table with a cost, and top steps without a table."""
    shutil.copytree(ROOT / "tool", folder / "tool", ignore=shutil.ignore_patterns("target"))
    (folder / "target" / "staticlib").mkdir(parents=True)
    (folder / "wrong.c").write_text(WRONG)
    build = 'gcc -I "$1/include" -c wrong.c -o wrong.o && ar rc target/staticlib/liblamp.a wrong.o && '
    build += "cargo build --release --offline --quiet --manifest-path tool/Cargo.toml"
    subprocess.run(["sh", "-c", build, "sh", ROOT], cwd=folder, check=True)
    wrong = folder / "tool" / "target" / "release" / "lamp"
    a, into = SAMPLES / "a.card", new_folder(folder, "no cards")
    others = ["practice", "1"], ["practice", "1..3", "--into", into], ["table", "8"], ["explain", a, SAMPLES / "d.sheet"]
    for words in (["key", a], ["mark", a, SAMPLES / "d.sheet"], ["key", "--coarse", a], ["cost", a, "1", "1"], *others):
        ended = subprocess.run([wrong, *words], capture_output=True)
        found = ended.returncode, ended.stdout, ended.stderr
        expect(f"{words[0]} over a wrong library", found, 2, b"", "a fault of the tool; nothing was written")
    for top in (8, 9, 10):
        ended = subprocess.run([wrong, "card", "-"], input=show_of(top, b"table catalogue"), capture_output=True)
        found = ended.returncode, ended.stdout, ended.stderr
        expect(f"a show of top {top} over a wrong library", found, 2, b"", "a fault of the tool; nothing was written")
    require("no card of a wrong library", contents(into) == {})
    wrong_explanations(folder, wrong)
    wrong_group_plans(wrong)


def wrong_group_plans(wrong):
    """A group plan is printed only if its sheet costs what it names, its counts are in the list, and it costs from the least cost to the
    ratio times that. A refusal by 18 for which no rule is found is the number and its words alone."""
    rack = lambda modules, top: card(m=modules, q=top, table=range(top + 1), loads=(0, 0, 0))
    for ratio in (3, 4, 5):
        found, name = keyed(wrong, rack(3, 2), groups((0, 3), ratio)), f"ratio {ratio} over a wrong library"
        if ratio == 3:
            against_rules(name, found, ())
        else:
            expect(name, found, 2, b"", "a fault of the tool; nothing was written")
    for ratio, top in itertools.product((1, 2, 3), (32, 33, 34, 40, 41, 42, 43, 66, 67, 99, 100)):
        data, name = rack(2, top), f"ratio {ratio} at cost {top} over a wrong library"
        found = keyed(wrong, data, groups((0, 3), ratio))
        if top not in (40, 41, 42) and 33 <= top <= 33 * ratio:
            notes = group_notes((0, 3), ratio, top, 33, False) + made_with((0, 3), ratio)
            listing = b"cost %d\nplan 0 0 3\nslot 1: 0 0\nslot 2: 0 0\nslot 3: 0 0\n" % top
            expect(name, found, 0, lamp("show", "-", data=data)[1] + b"\n" + notes + listing)
        else:
            expect(name, found, 2, b"", "a fault of the tool; nothing was written")


def keyed(program, data, options):
    """How a program's key of a card ends."""
    ended = subprocess.run([program, "key", "-", *options], input=data, capture_output=True)
    return ended.returncode, ended.stdout, ended.stderr


def wrong_explanations(folder, wrong):
    """A sheet is explained only if the library's number is that of marking and the three parts are the points above the least, or 0 with a
    refusal. Of the tops of the wrong library 1 is right for a sheet that is marked, at 33, and 2 for one that is refused."""
    for top, step in itertools.product(range(1, 7), (0, 1)):
        one = folder / f"one module, top {top}.card"
        one.write_bytes(card(m=1, q=top, table=range(top + 1), loads=(0,)))
        ended = subprocess.run([wrong, "explain", one, "-"], input=b"%d\n" % step, capture_output=True)
        found, name = (ended.returncode, ended.stdout, ended.stderr), f"top {top} and step {step} over a wrong library"
        if (top, step) == (1, 0):
            expect(name, found, 0, explained(33, 0, 0, 0))
        elif (top, step) == (2, 1):
            expect(name, found, 1, WORDS[2].encode())
        else:
            expect(name, found, 2, b"", "a fault of the tool; nothing was written")


with tempfile.TemporaryDirectory() as place:
    shows_and_cards()
    checks()
    keys()
    group_keys(pathlib.Path(place))
    groups_as_planners()
    refused_groups()
    rules_of_groups()
    wrong_groups()
    help_of_groups()
    readme_groups()
    course_book()
    course_book_list()
    marks()
    explanations()
    readme_explains(pathlib.Path(place))
    for command in ("mark", "explain"):
        refused_sheets(command)
        no_sheets(command)
    numbers()
    wrong_use(pathlib.Path(place))
    other_kinds(pathlib.Path(place))
    practice_cards()
    tables()
    catalogue_shows()
    wrong_catalogue_shows()
    wrong_practice(pathlib.Path(place))
    practice_files(pathlib.Path(place))
    no_practice_files(pathlib.Path(place))
    failed_practice_files(pathlib.Path(place))
    appearing_practice_files(pathlib.Path(place))
    moved_practice_files(pathlib.Path(place))
    stopped_practice_files(pathlib.Path(place))
    killed_practice_files(pathlib.Path(place))
    left_practice_files(pathlib.Path(place))
    locked_practice_files(pathlib.Path(place))
    plain_practice_files(pathlib.Path(place))
    many_practice_files(pathlib.Path(place))
    lost_output(pathlib.Path(place))
    pictures(pathlib.Path(place))
    a_wrong_library(pathlib.Path(place))
print(f"tool: {done} passed")
