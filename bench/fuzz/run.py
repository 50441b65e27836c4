"""Holds the C entry and the program `sheet` against the slow model: run.py SEED SECONDS [valgrind]

Needs target/staticlib/libhost.a (tools/staticlib) and crates/sheet/out/sheet (rt run in crates/sheet). Prints how many cases agreed; the
first that does not is printed whole, and the status is then 1. With `valgrind` the entry's cases run under it.
"""

import random
import struct
import subprocess
import sys
import time
from pathlib import Path

import model

ROOT = Path(__file__).resolve().parents[2]
DRIVER = ROOT / "target" / "bench" / "fuzz_entry"
SHEET = ROOT / "crates" / "sheet" / "out" / "sheet"


def drawn(rng, n, imagers):
    """The table of a random drawing: different pairs of imagers."""
    pairs = [(a, b) for a in range(imagers) for b in range(a)]
    entries = [set(p) for p in rng.sample(pairs, min(n, len(pairs)))]
    return [[int(i != j and len(d & e) == 1) for j, e in enumerate(entries)] for i, d in enumerate(entries)]


def table(rng):
    """A drawing of any size, often damaged by some marks, or a small table at random."""
    if rng.random() < 0.25:
        n = rng.randrange(8)
        rows = [[0] * n for _ in range(n)]
        chance = rng.random()
        for i in range(n):
            for j in range(i):
                rows[i][j] = rows[j][i] = int(rng.random() < chance)
        return rows
    n = rng.randrange(65)
    rows = drawn(rng, n, rng.choice([4, 6, 9, 12, 20, 40, 90]))
    n = len(rows)
    for _ in range(rng.choice([0, 0, 0, 1, 2, 5]) if n > 1 else 0):
        i, j = rng.sample(range(n), 2)
        rows[i][j] = rows[j][i] = 1 - rows[i][j]
    return rows


def entry_case(rng):
    rows = table(rng)
    n, square = len(rows), bytearray(b for row in rows for b in row)
    out = 3 * n + rng.choice([0, 0, 0, 1, 9, -1, -3 * n])
    if rng.random() < 0.1 and square:
        square[rng.randrange(len(square))] = rng.choice([0, 1, 2, 255])
    if rng.random() < 0.04:
        n = rng.choice([n + 1, 65, 2**32, 2**64 - 1])
    if rng.random() < 0.04:
        square += b"\0"
    return n, bytes(square), max(out, 0)


def run_entry(cases, valgrind):
    fed = b"".join(struct.pack("<QQQ", n, len(square), out) + square for n, square, out in cases)
    command = ["valgrind", "-q", "--error-exitcode=9", str(DRIVER)] if valgrind else [str(DRIVER)]
    told = subprocess.run(command, input=fed, stdout=subprocess.PIPE, check=True).stdout
    at = refused = 0
    for n, square, out in cases:
        wanted = model.entry(n, square, b"\xee" * out)
        got = struct.unpack_from("<Q", told, at)[0], told[at + 8 : at + 8 + out]
        at += 8 + out
        if got != wanted:
            sys.exit(f"the entry differs: n={n} square={square.hex()} out={out}\n got {got}\n wanted {wanted}")
        refused += wanted[0] % 256 != 0
    return refused


def rig_lines(rng):
    rows = table(rng)
    n = len(rows)
    lines = [b"enlist,%d" % rng.choice([1, 500, 65535, rng.randrange(1, 65536)]) for _ in range(n)]
    marks = [b"share,%d,%d" % rng.choice([(i, j), (j, i)]) for i in range(n) for j in range(i) if rows[i][j]]
    rng.shuffle(marks)
    return lines + marks + [b"resolve"] + [b"issue"] * rng.choice([0, 1, 1, 3])


ODD = [b"", b"resolve", b"issue", b"enlist,0", b"enlist,65536", b"enlist,007", b"enlist,", b"enlist", b"share,0", b"share,1,1",
       b"part,0,1", b"part,1,0,", b"share,64,0", b"Resolve", b"resolve ", b"resolve\r", b"issue,", b",", b"share,,", b"\xff\x00",
       b"share,0,1x", b"share,-1,0", b"enlist,9" + b"9" * 30]


def sheet_case(rng):
    kind = rng.random()
    if kind < 0.15:
        return bytes(rng.randrange(256) for _ in range(rng.randrange(300)))
    if kind < 0.25:
        return bytes(rng.choice(b"enlistsharepartresolveissue,0123456789\n\n") for _ in range(rng.randrange(2000)))
    lines = rig_lines(rng)
    if rng.random() < 0.3:
        lines += rig_lines(rng)
    for _ in range(rng.choice([0, 1, 3, 12])):
        lines.insert(rng.randrange(len(lines) + 1), rng.choice(ODD + [b"part,%d,%d" % (rng.randrange(9), rng.randrange(9))]))
    text = b"\n".join(lines) + b"\n" * rng.choice([0, 1, 1, 1])
    if kind > 0.93:
        text = text * (1 + 40000 // (len(text) + 1))
    return text


def run_sheet(text):
    got = subprocess.run([str(SHEET)], input=text, stdout=subprocess.PIPE, check=True).stdout
    wanted = model.sheet(text)
    if got != wanted:
        sys.exit(f"the sheet differs: {text!r}\n got {got!r}\n wanted {wanted!r}")


def main():
    rng, until = random.Random(int(sys.argv[1])), time.time() + float(sys.argv[2])
    valgrind = "valgrind" in sys.argv[3:]
    DRIVER.parent.mkdir(parents=True, exist_ok=True)
    subprocess.run(["cc", "-std=c11", "-Wall", "-Wextra", "-O2", str(Path(__file__).parent / "entry.c"),
                    str(ROOT / "target/staticlib/libhost.a"), "-o", str(DRIVER)], check=True)
    entries = sheets = refused = 0
    while time.time() < until:
        cases = [entry_case(rng) for _ in range(50)]
        entries += len(cases)
        refused += run_entry(cases, valgrind)
        for _ in range(0 if valgrind else 20):
            run_sheet(sheet_case(rng))
            sheets += 1
    print(f"seed {sys.argv[1]}: {entries} cases of the entry ({refused} refused) and {sheets} sheets agree with the model")


main()
