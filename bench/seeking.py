#!/usr/bin/env python3
"""How long the commands take that seek methods and names, in a folder that `make N` made: each by the clock, a start included, beside a start
alone, and beside grep on the log.

usage: bench/seeking.py [CLASSES] [RUNS]

Each made class has ten methods, of which one has the selector `m9:`, and each method sends `+`; doIts alone send `m9:`. The start is that of
`recover`. Within a second is wanted.
"""
import os
import subprocess
import sys
import time
from statistics import median

from common import PROGRAM, build, folder

COMMANDS = {
    "a start": ["recover"],
    "senders m9:": ["senders", "m9:"],
    "senders +": ["senders", "+"],
    "implementors m9:": ["implementors", "m9:"],
    "references Object": ["references", "Object"],
    "undeclared": ["undeclared"],
    "unimplemented": ["unimplemented"],
    "unsent": ["unsent"],
}


def run(words):
    """The time by the clock, and how many lines were written. grep's status is 1 where it finds nothing."""
    start = time.perf_counter()
    found = subprocess.run(words, stdin=subprocess.DEVNULL, stdout=subprocess.PIPE)
    taken = time.perf_counter() - start
    assert found.returncode in (0, 1), found
    return taken, found.stdout.count(b"\n")


def main():
    classes = int(sys.argv[1]) if len(sys.argv) > 1 else 1_000
    runs = int(sys.argv[2]) if len(sys.argv) > 2 else 5
    build()
    with folder() as work:
        place = os.path.join(work, "made")
        os.mkdir(place)
        subprocess.run([PROGRAM, place, "make", str(classes)], stdout=subprocess.DEVNULL, check=True)
        searches = {name: [PROGRAM, place, *words] for name, words in COMMANDS.items()}
        # Making condenses into the other log.
        searches["grep -n m9: log1"] = ["grep", "-n", "m9:", os.path.join(place, "log1")]
        for name, words in searches.items():
            times, lines = zip(*(run(words) for _ in range(runs)))
            print(f"{name}: {classes} classes {median(times):.3f} s, {lines[0]} lines")


main()
