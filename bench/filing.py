#!/usr/bin/env python3
"""How long a large file-in takes, against a commit for each chunk, SQLite with a transaction a row, and the syncs alone.

usage: bench/filing.py [CHUNKS] [RUNS] [ONE_BY_ONE] [DELAY]

Two inputs of CHUNKS chunks each: definitions of classes, and methods of 500 classes, each in a section of its own. Side by side in each run, all on one
disk, whose syncs take DELAY microseconds longer than they do (`slow.c`):
- `st80 run` on the whole input;
- `st80 run` that is given one chunk after the other, each when the one before it is answered: so each has a commit of its own (of the first
  ONE_BY_ONE chunks alone, as many times as long);
- SQLite (Python's `sqlite3`), the blocks as rows of a table with a key, a transaction a row: with its rollback journal and with a write-ahead log,
  synchronous=FULL in both;
- the floor: the blocks written by a small C program in as many groups as st80 committed, with the syncs of a commit for each.
"""
import os
import sqlite3
import struct
import subprocess
import sys
import time
from statistics import median

from common import PROGRAM, TOP, build, folder

WANTED = {"one by one": 20, "journal": 20, "write-ahead log": 5}
# The classes that get the methods.
CLASSES = 500


def definition(number):
    return b"Object subclass: #C%d instanceVariableNames: 'a b' classVariableNames: '' poolDictionaries: '' category: 'Filed'!\n" % number


def method(number):
    return b"!C%d methodsFor: 'filed'!\nsum%d: x\n\t\"Answer the sum of mine and x.\"\n\t^(a ifNil: [%d]) + x! !\n" % (number % CLASSES, number, number)


def seconds(work):
    start = time.perf_counter()
    work()
    return time.perf_counter() - start


def filed_in(place, data):
    out = subprocess.run([PROGRAM, place, "run"], input=data, stdout=subprocess.PIPE, check=True).stdout
    assert out == b"ok\n" * len(out.splitlines()), out[:200]


def one_by_one(place, chunks):
    child = subprocess.Popen([PROGRAM, place, "run"], stdin=subprocess.PIPE, stdout=subprocess.PIPE, bufsize=0)
    for chunk in chunks:
        child.stdin.write(chunk)
        assert child.stdout.readline() == b"ok\n"
    child.stdin.close()
    assert child.wait() == 0


def rows(place, journal, blocks):
    table = sqlite3.connect(place, isolation_level=None)
    table.execute(f"PRAGMA journal_mode={journal}")
    table.execute("PRAGMA synchronous=FULL")
    table.execute("CREATE TABLE changes (place INTEGER PRIMARY KEY, block BLOB)")
    for number, block in enumerate(blocks):
        table.execute("INSERT INTO changes VALUES (?, ?)", (number, block))
    table.close()


def slot(place):
    """The valid mark's number of commits, the first mark among them, and the length of the log."""
    with open(os.path.join(place, "mark"), "rb") as mark:
        held = mark.read()
    fields = [struct.unpack(">QBQ", held[at + 1 : at + 18]) for at in (0, 64) if held[at : at + 1] == b"!"]
    return max((number, length) for number, _, length in fields)


def copied(place, name):
    """A new folder with the same files."""
    new = f"{place}-{name}"
    subprocess.run(["cp", "-r", place, new], check=True)
    return new


def compared(place, name, floor, chunks, few, base):
    """The times of an input, from a folder that holds what it stands on."""
    grouped, single = copied(base, f"{name}-whole"), copied(base, f"{name}-single")
    commits, length = slot(base)
    times = {"st80": seconds(lambda: filed_in(grouped, b"".join(chunks)))}
    times["one by one"] = seconds(lambda: one_by_one(single, chunks[:few])) * len(chunks) / few
    with open(os.path.join(grouped, "log0"), "rb") as log:
        blocks = log.read()[length:]
    now, _ = slot(grouped)
    size = -(-len(blocks) // (now - commits))
    least = os.path.join(place, f"{name}-floor")
    os.mkdir(least)
    times["floor"] = seconds(lambda: subprocess.run([floor, least, str(size)], input=blocks, stdout=subprocess.DEVNULL, check=True))
    each = [blocks[at * len(blocks) // len(chunks) : (at + 1) * len(blocks) // len(chunks)] for at in range(len(chunks))]
    for word, journal in (("journal", "DELETE"), ("write-ahead log", "WAL")):
        part = each[:few] if word == "journal" or "SYNC_DELAY" in os.environ else each
        times[word] = seconds(lambda: rows(os.path.join(place, f"{name}-{journal}.db"), journal, part)) * len(each) / len(part)
    return times, now - commits


def slowed(delay):
    """Begins anew with the syncs of this program and its children so many microseconds slower."""
    with folder() as place:
        slow = os.path.join(place, "slow.so")
        subprocess.run(["cc", "-O2", "-shared", "-fPIC", "-o", slow, os.path.join(TOP, "bench", "slow.c"), "-ldl"], check=True)
        again = {**os.environ, "LD_PRELOAD": slow, "SYNC_DELAY": delay}
        return subprocess.run([sys.executable, *sys.argv], env=again).returncode


def main():
    if len(sys.argv) > 4 and "SYNC_DELAY" not in os.environ:
        sys.exit(slowed(sys.argv[4]))
    chunks = int(sys.argv[1]) if len(sys.argv) > 1 else 10_000
    runs = int(sys.argv[2]) if len(sys.argv) > 2 else 3
    few = min(int(sys.argv[3]) if len(sys.argv) > 3 else 2000, chunks)
    build()
    ratios = {}
    with folder() as place:
        floor = os.path.join(place, "floor")
        subprocess.run(["cc", "-O2", "-o", floor, os.path.join(TOP, "bench", "floor.c")], check=True)
        for run in range(runs):
            for kind, text in {"definitions": definition, "methods": method}.items():
                base = os.path.join(place, f"{kind}{run}-base")
                os.mkdir(base)
                there = [definition(number) for number in range(CLASSES)] if text is method else []
                subprocess.run([PROGRAM, base, "run"], input=b"1!\n" + b"".join(there), stdout=subprocess.DEVNULL, check=True)
                times, groups = compared(place, f"{kind}{run}", floor, [text(number) for number in range(chunks)], few, base)
                print(f"run {run + 1}: {chunks} {kind} in {groups} groups: " + ", ".join(f"{name} {time:.3f} s" for name, time in times.items()))
                for name, time in times.items():
                    ratios.setdefault((kind, name), []).append(times["st80"] / time if name == "floor" else time / times["st80"])
    for (kind, name), found in ratios.items():
        if name == "floor":
            print(f"{kind}: {median(found):.2f} of the floor (at most 1.3 is wanted)")
        elif name in WANTED:
            print(f"{kind}: {median(found):.1f} times as fast as {name} (at least {WANTED[name]} is wanted)")


main()
