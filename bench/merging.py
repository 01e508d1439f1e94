#!/usr/bin/env python3
"""A change set merged with another of the same size: the time by the clock and of the processor, the most memory, and how they grow.

usage: bench/merging.py [CHANGES]

The base has 500 classes. Either set has CHANGES methods of them, or CHANGES classes in a tree in which a class has ten subclasses. Theirs has other
selectors and names than ours, the same ones, or the same ones in its last half. A start alone (`recover`) and a `run` of theirs in the folder are measured beside it.
Last, a tenth of CHANGES classes each under the one before: a definition uses each class above it, so there the time grows with the square.
"""
import os
import shutil
import subprocess
import sys
import tempfile
import time

import common
from common import build, folder

CLASSES = 500
PARTS = {"a tenth": 10, "half": 2, "all": 1}


def definition(name, superclass="Object", variables="a"):
    return f"{superclass} subclass: #{name} instanceVariableNames: '{variables}' classVariableNames: '' poolDictionaries: '' category: 'Measured'!\n"


def method(number, word):
    return f"!C{number % CLASSES} methodsFor: 'measured'!\n{word}{number}: x\n\t^(a max: x) + {number}! !\n"


def own_class(number, word):
    return definition(f"{word}{number}", f"{word}{number // 10}" if number else "Object")


def chained_class(number, word):
    return definition(f"{word}{number}", f"{word}{number - 1}" if number else "Object", "")


KINDS = {"methods": (method, "m", "n"), "classes": (own_class, "M", "N"), "a chain": (chained_class, "M", "N")}


def theirs_of(kind, count, way):
    """Another set of so many changes, its keys in ours in this way."""
    text, own, other = KINDS[kind]
    words = {"no conflict": [other] * count, "all in conflict": [own] * count, "half in conflict": [other] * (count // 2) + [own] * (count - count // 2)}[way]
    if kind == "classes" and way == "half in conflict":
        # Either tree grows from its own first class.
        return "".join(text(number, other) for number in range(count // 2)) + "".join(text(number, own) for number in range(count - count // 2))
    return "".join(text(number, word) for number, word in enumerate(words))


def timed(words, data=""):
    """Seconds by the clock and of the processor, the most memory in KiB, and what was written."""
    with tempfile.TemporaryFile() as given, tempfile.TemporaryFile() as told:
        given.write(data.encode())
        given.seek(0)
        began = time.perf_counter()
        child = subprocess.Popen([common.PROGRAM, *words], stdin=given, stdout=told)
        _, status, used = os.wait4(child.pid, 0)
        seconds = time.perf_counter() - began
        child.returncode = os.waitstatus_to_exitcode(status)
        assert child.returncode in (0, 1), child.returncode
        told.seek(0)
        return seconds, used.ru_utime, used.ru_maxrss, told.read()


def conflicts_of(kind, way, count):
    """How many keys are in conflict: of a method it is one, and of a class that is new in both sets there are two."""
    many = {"no conflict": 0, "all in conflict": count, "half in conflict": count - count // 2}[way]
    return many * (2 if kind == "classes" else 1)


def merged(place, kind, count, way):
    """The times of a start, of the merge, and of a run of the same changes."""
    work = os.path.join(place, "work")
    shutil.rmtree(work, ignore_errors=True)
    os.mkdir(work)
    text, own, _ = KINDS[kind]
    base = "".join(definition(f"C{number}") for number in range(CLASSES)) + "Smalltalk noChanges!\n"
    timed([work, "run"], base + "".join(text(number, own) for number in range(count)))
    other = os.path.join(place, "other")
    shutil.rmtree(other, ignore_errors=True)
    shutil.copytree(work, other)
    theirs = theirs_of(kind, count, way)
    start, merge, run = timed([work, "recover"]), timed([work, "merge"], theirs), timed([other, "run"], theirs)
    wanted = conflicts_of(kind, way, count)
    lines = merge[3].splitlines()
    assert [b"merged %d changes" % count] == lines if wanted == 0 else len(lines) == wanted and lines[0].startswith(b"conflict "), lines[:3]
    return start, merge, run


def grown(place, kind, way, changes):
    """Says what so many changes take, and a half and a tenth of them."""
    each = {}
    for part, divisor in PARTS.items():
        count = changes // divisor
        start, merge, run = merged(place, kind, count, way)
        each[part] = (merge[1] - start[1]) / count
        print(f"{kind}, {way}: {count} merged with {count} {merge[0]:.2f} s, {merge[1]:.2f} s of the processor, {merge[2]} KiB; "
              f"a start {start[1]:.2f} s, a run of theirs {run[1]:.2f} s", flush=True)
    print(f"{kind}, {way}: a change takes {each['all'] * 1e6:.0f} us behind the start, {each['all'] / max(each['a tenth'], 1e-9):.1f} times what it takes of a tenth")


def main():
    changes = int(sys.argv[1]) if len(sys.argv) > 1 else 10_000
    build()
    with folder() as place:
        for kind in ("methods", "classes"):
            for way in ("no conflict", "half in conflict", "all in conflict"):
                grown(place, kind, way, changes)
        grown(place, "a chain", "no conflict", changes // 10)


main()
