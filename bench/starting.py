#!/usr/bin/env python3
"""How long a start takes on a long log: `recover` on folders of short changes, and on twice as many.

usage: bench/starting.py [CHANGES] [RUNS]
"""
import os
import struct
import subprocess
import sys
import time
from statistics import median

from common import PROGRAM, build, folder


def written(place, blocks):
    """A folder whose mark takes these blocks."""
    os.mkdir(place)
    log = b"".join(blocks)
    slot = b"!" + struct.pack(">QBQBQQBQ", 1, 0, len(log), 255, 0, 0, 2, len(blocks))
    for name, held in {"log0": log, "mark": slot.ljust(128, b"\0")}.items():
        with open(os.path.join(place, name), "wb") as target:
            target.write(held)
    return len(log)


def seconds(place, changes):
    start = time.perf_counter()
    out = subprocess.run([PROGRAM, place, "recover"], stdout=subprocess.PIPE, check=True).stdout
    found = time.perf_counter() - start
    assert out == b"recovered %d changes, 0 classes, 0 methods\n" % changes, out
    return found


def main():
    changes = int(sys.argv[1]) if len(sys.argv) > 1 else 100_000
    runs = int(sys.argv[2]) if len(sys.argv) > 2 else 5
    build()
    with folder() as work:
        times = {}
        for count in (changes, 2 * changes):
            place = os.path.join(work, str(count))
            size = written(place, [b"%d + 4!\n" % number for number in range(count)])
            times[count] = median([seconds(place, count) for _ in range(runs)])
            print(f"{count} changes, {size} bytes: {times[count]:.3f} s")
    print(f"ratio {times[2 * changes] / times[changes]:.2f}")


main()
