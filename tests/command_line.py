#!/usr/bin/env python3
"""Runs the program on cards of every kind and compares what it prints, byte for byte."""
import os
import pathlib
import subprocess
import sys
import time

from cards import card

ROOT = pathlib.Path(__file__).resolve().parent.parent
PROGRAM = ROOT / "target" / "bin" / "plan_program"
done = 0


def run(data, pieces=None):
    """What the program prints for an input, handed over at once or in pieces of a size."""
    child = subprocess.Popen([PROGRAM], stdin=subprocess.PIPE, stdout=subprocess.PIPE)
    try:
        for at in range(0, len(data), pieces or len(data) or 1):
            child.stdin.write(data[at : at + (pieces or len(data))])
            child.stdin.flush()
            if pieces:
                time.sleep(0.002)
    except BrokenPipeError:
        pass
    try:
        child.stdin.close()
    except BrokenPipeError:
        pass
    out = child.stdout.read()
    child.wait()
    return out


def expect(name, data, wanted, pieces=None):
    global done
    found = run(data, pieces)
    if found != wanted:
        sys.exit(f"{name}: printed {found[:200]!r}, expected {wanted[:200]!r}")
    done += 1


def refused(number):
    return f"refused {number}\n".encode()


for hex_text in sorted((ROOT / "samples").glob("*.hex")):
    made = subprocess.run([ROOT / "bin" / "card", hex_text], capture_output=True, check=True).stdout
    stored = hex_text.with_suffix(".card").read_bytes()
    if made != stored:
        sys.exit(f"{hex_text.name} does not make {hex_text.with_suffix('.card').name}")
    expect(hex_text.name, stored, hex_text.with_suffix(".out").read_bytes())

a = (ROOT / "samples" / "a.card").read_bytes()
listing = (ROOT / "samples" / "a.out").read_bytes()
for size in (1, 2, 7, 17, 34):
    expect(f"A in pieces of {size}", a, listing, size)

expect("empty input", b"", refused(1))
expect("16 bytes", a[:16], refused(1))
expect("wrong mark", b"DLX" + a[3:], refused(1))
expect("version 2", card(version=2, m=0), refused(2))
expect("no modules", card(m=0), refused(3))
expect("201 modules", card(m=201), refused(3))
expect("1,025 slots", card(loads=(0,) * 1025), refused(4))
expect("cut to 34", a[:34], refused(5))
expect("one byte more", a + b"\0", refused(5))
expect("a price", card(up=500000001), refused(6))
expect("an entry", card(table=(1, 2, 1000001)), refused(6))
expect("a table that is not convex", card(table=(0, 2, 3)), refused(7))
expect("a load", card(loads=(7,)), refused(8))

# Tables that fall: a module burns at its share or at a higher step that costs less, and at the smallest of several that cost the same.
steps = b"slot 1: 2 - -\nslot 2: 2 2 2\nslot 3: - - -\n"
expect("a table that falls up to the top step", card(table=(4, 2, 1), loads=(1, 6, 0)), b"cost 19\nplan 1 3 0\n" + steps)
steps = b"plan 1 1 1\nslot 1: 2\nslot 2: 1\nslot 3: 1\n"
for table, cost in (((5, 1, 9), 29), ((5, 1, 1), 21)):
    falling = card(m=1, up=9, down=9, table=table, loads=(2, 0, 1))
    expect(f"a dark slot, table {table}", falling, b"cost %d\n" % cost + steps)

flat = [0] * 201
largest = card(m=1, q=200, table=flat, loads=(0,) * 1024)
assert len(largest) == 2869
expect("2,869 bytes", largest, b"cost 0\nplan" + b" 0" * 1024 + b"\n" + b"".join(b"slot %d: -\n" % (t + 1) for t in range(1024)))
expect("2,870 bytes", largest + b"\0", refused(5))
expect("100,000 bytes of card", largest + b"\0" * (100000 - 2869), refused(5))
expect("100,000 bytes of nothing", b"\0" * 100000, refused(1))

wide = card(m=63, q=1, up=0, down=0, table=(0, 0), loads=(63,) * 1024)
line = b":" + b" 1" * 63 + b"\n"
expect(
    "m 63, T 1,024",
    wide,
    b"cost 0\nplan" + b" 63" * 1024 + b"\n" + b"".join(b"slot %d" % (t + 1) + line for t in range(1024)),
)
expect("m 64, T 1,024", card(m=64, q=1, table=(0, 0), loads=(0,) * 1024), refused(10))

top = card(m=200, q=200, up=500000000, down=500000000, table=[1000000] * 201, loads=(40000,) * 10)
row = b":" + b" 200" * 200 + b"\n"
expect(
    "m 200, Q 200, all prices at their bounds",
    top,
    b"cost %d\nplan" % (200 * 10**9 + 10 * 200 * 10**6) + b" 200" * 10 + b"\n" + b"".join(b"slot %d" % (t + 1) + row for t in range(10)),
)

# a failed read counts as the end: standard input is closed, or a folder
for name, source in (("closed", None), ("a folder", os.open(ROOT, os.O_RDONLY))):
    command = [PROGRAM] if source is not None else ["sh", "-c", f'exec "{PROGRAM}" <&-']
    found = subprocess.run(command, stdin=source, capture_output=True).stdout
    if found != refused(1):
        sys.exit(f"standard input {name}: printed {found!r}")
    done += 1

print(f"command line: {done} passed")
