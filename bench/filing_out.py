#!/usr/bin/env python3
"""Classes with ten methods each filed out, and then condensed: the user time of each, the most memory, and how both grow.

usage: bench/filing_out.py [CLASSES]

One class of each ten has a comment, and every second one stands below the one before. A start alone (`recover`) is measured beside them.
"""
import os
import subprocess
import sys

from common import PROGRAM, build, folder, measured

COMMANDS = {
    "a start": ["recover"],
    "all classes": ["file-out"],
    "one class": ["file-out-class", "C1"],
    "the change set": ["file-out-set"],
    "condensing": ["condense"],
}


def class_text(number):
    superclass = f"C{number - 1}" if number % 2 else "Object"
    text = (f"{superclass} subclass: #C{number} instanceVariableNames: 'a{number}' classVariableNames: '' poolDictionaries: '' "
            "category: 'Measured'!\n")
    if number % 10 == 0:
        text += f"C{number} comment: 'I am number {number}.'!\n"
    methods = "!\n\n".join(f"m{i}: x\n\ta{number} _ x + {i}.\n\t^a{number} max: (x ifNil: [{number}])" for i in range(10))
    return text + f"!C{number} methodsFor: 'measured'!\n{methods}! !\n"


def of_so_many(count, place):
    work = os.path.join(place, str(count))
    os.mkdir(work)
    data = "".join(map(class_text, range(count))).encode()
    subprocess.run([PROGRAM, work, "run"], input=data, stdout=subprocess.DEVNULL, check=True)
    return {name: measured([work, *words]) for name, words in COMMANDS.items()}


def main():
    classes = int(sys.argv[1]) if len(sys.argv) > 1 else 1_000
    build()
    with folder() as place:
        half, whole = (of_so_many(count, place) for count in (classes // 2, classes))
        for name, (_, time, peak, size) in whole.items():
            print(f"{name}: {classes} classes {time:.3f} s, {peak} KiB, {size} bytes; half {half[name][1]:.3f} s, {half[name][2]} KiB")


main()
