#!/usr/bin/env python3
"""How long a start takes from a log of methods, and from its image, and how much memory: `recover` before a snapshot and behind it, and the
snapshot itself.

usage: bench/imaging.py [CHANGES] [METHODS] [RUNS]
"""
import os
import subprocess
import sys
from statistics import median

from common import PROGRAM, build, folder, measured

CLASSES = 10


def chunks(changes, methods):
    """Definitions of classes, and so many methods, each again and again with another source."""
    for number in range(CLASSES):
        yield f"Object subclass: #C{number} instanceVariableNames: 'a b' classVariableNames: '' poolDictionaries: '' category: 'K'!\n"
    each = methods // CLASSES
    for version in range(changes // methods):
        for number in range(CLASSES):
            yield f"!C{number} methodsFor: 'm'!\n"
            yield from (f'm{at}\n\t"version {version}"\n\ta := b + {version}.\n\t^a printString!\n' for at in range(each))
            yield " !\n"


def recovered(place, changes, methods):
    out = subprocess.run([PROGRAM, place, "recover"], stdin=subprocess.DEVNULL, stdout=subprocess.PIPE, check=True).stdout
    assert out == b"recovered %d changes, %d classes, %d methods\n" % (changes, CLASSES, methods), out


def starting(place, runs):
    """The median of the time by the clock, and the most memory in MiB."""
    found = [measured([place, "recover"]) for _ in range(runs)]
    return median(clock for clock, *_ in found), max(peak for _, _, peak, _ in found) / 1024


def main():
    changes, methods, runs = (int(word) for word in (sys.argv[1:] + ["100000", "1000", "5"][len(sys.argv) - 1 :])[:3])
    build()
    with folder() as place:
        subprocess.run([PROGRAM, place, "run"], input="".join(chunks(changes, methods)).encode(), stdout=subprocess.DEVNULL, check=True)
        recovered(place, changes + CLASSES, methods)
        log, of_log = starting(place, runs)
        snapshot, _, of_snapshot, _ = measured([place, "snapshot"])
        recovered(place, changes + CLASSES + 1, methods)
        image, of_image = starting(place, runs)
        size = os.path.getsize(os.path.join(place, "image0"))
    print(f"{changes} changes of {methods} methods: from the log {log:.3f} s and {of_log:.0f} MiB, from the image of {size} bytes {image:.3f} s and {of_image:.0f} MiB, ratio {log / image:.1f}; the snapshot {snapshot:.3f} s and {of_snapshot / 1024:.0f} MiB")


main()
