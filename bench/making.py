#!/usr/bin/env python3
"""Classes made by `make N`: the time by the clock and of the processor, and the most memory; what of that is a start, filing in and
condensing; and how all of it grows.

usage: bench/making.py [CLASSES]

A class has ten methods and a doIt. Filing in is a `run` of the same items as text, whose replies are written.
"""
import os
import sys

from common import build, folder, measured


def text_of(number):
    above = f"Gen{number // 2}" if number > 1 else "Object"
    methods = "!\n\n".join(f"m{i}: x ^x + {10 * number + i}" for i in range(10))
    return (f"{above} subclass: #Gen{number} instanceVariableNames: 'v{number}' classVariableNames: '' poolDictionaries: '' category: 'gen'!\n"
            f"!Gen{number} methodsFor: 'gen'!\n{methods}! !\nGen{number} new m9: {number}!\n")


def of_so_many(count, place):
    made, filed = (os.path.join(place, f"{name}{count}") for name in ("made", "filed"))
    os.mkdir(made)
    os.mkdir(filed)
    return {
        "made": measured([made, "make", str(count)]),
        "filed in": measured([filed, "run"], "".join(map(text_of, range(1, count + 1))).encode()),
        "condensed": measured([filed, "condense"]),
        "a start": measured([made, "recover"]),
    }


def main():
    classes = int(sys.argv[1]) if len(sys.argv) > 1 else 1_000
    build()
    with folder() as place:
        half, whole = (of_so_many(count, place) for count in (classes // 2, classes))
        for name, (clock, user, peak, _) in whole.items():
            print(f"{name}: {classes} classes {clock:.2f} s, {user:.2f} s of the processor, {peak} KiB; half {half[name][0]:.2f} s, {half[name][1]:.2f} s, {half[name][2]} KiB")


main()
